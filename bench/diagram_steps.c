/* Takes the steps that bench/diagram_steps.py writes, by BuDDy: diagram_steps FILE [NODES]
   As a solver does, it answers sat to begin with, and then to each question: unsat where the function is false everywhere. The last line
   has the nodes that it made and the microseconds of the steps: neither reading the file nor making BuDDy's tables for NODES nodes
   (1,000,000) is in them. It never reorders, and drops no function. */
#include <bdd.h>
#include <stdint.h>
#include <stdio.h>
#include <stdlib.h>
#include <string.h>
#include <time.h>

enum { WORDS = 256, KEPT = 4096 };

typedef struct { int level, minus; int64_t weight; } Bit;
typedef struct { char kind; int f, g; int64_t room; int bits; Bit *bit; } Step;
typedef struct { int64_t question, room; int at; BDD answer; } Kept;

static Kept kept[KEPT];
static int64_t question = 0;

static double microseconds(void) {
  struct timespec t;
  clock_gettime(CLOCK_MONOTONIC, &t);
  return t.tv_sec * 1e6 + t.tv_nsec / 1e3;
}

static void *room_for(void *old, size_t bytes) {
  void *new = realloc(old, bytes);
  if (!new) exit(7);
  return new;
}

/* Where the weights from `at` on sum to at most `room`; all of them sum to `rest`. */
static BDD up_to(const Step *step, int at, int64_t rest, int64_t room) {
  if (rest <= room) return bddtrue;
  Kept *here = &kept[((uint64_t)at * 0x9e3779b9u + (uint64_t)room * 0x85ebca6bu) >> 7 & (KEPT - 1)];
  if (here->question == question && here->at == at && here->room == room) return here->answer;
  Bit bit = step->bit[at];
  BDD out = up_to(step, at + 1, rest - bit.weight, room);
  BDD within = room < bit.weight ? bddfalse : up_to(step, at + 1, rest - bit.weight, room - bit.weight);
  BDD level = bdd_ithvar(bit.level);
  BDD answer = bdd_addref(bit.minus ? bdd_ite(level, out, within) : bdd_ite(level, within, out));
  *here = (Kept){question, room, at, answer};
  return answer;
}

static BDD sum(const Step *step) {
  int64_t rest = 0;
  for (int at = 0; at < step->bits; at++) rest += step->bit[at].weight;
  question++;
  return up_to(step, 0, rest, step->room);
}

static Bit bit_of(const char *word) {
  Bit bit = {0, *word == '-', 0};
  const char *colon = strchr(word, ':');
  bit.level = atoi(word + bit.minus);
  bit.weight = atoll(colon + 1);
  return bit;
}

static Step step_of(char **word, int words) {
  Step step = {word[0][0] == 'a' && word[0][1] == 's' ? '?' : word[0][0], 0, 0, 0, 0, NULL};
  if (step.kind == 's') {
    step.room = atoll(word[1]);
    step.bits = words - 2;
    step.bit = room_for(NULL, sizeof(Bit) * (step.bits + 1));
    for (int at = 0; at < step.bits; at++) step.bit[at] = bit_of(word[at + 2]);
  } else {
    step.f = atoi(word[1]);
    if (words > 2) step.g = atoi(word[2]);
  }
  return step;
}

static BDD made(const Step *step, const BDD *function) {
  BDD f = function[step->f], g = function[step->g];
  switch (step->kind) {
    case 's': return sum(step);
    case 'a': return bdd_and(f, g);
    case 'o': return bdd_or(f, g);
    case 'l': return bdd_apply(f, g, bddop_diff);
    case 'n': return bdd_not(f);
    default: exit(2);
  }
}

int main(int argc, char **argv) {
  FILE *file = argc > 1 ? fopen(argv[1], "r") : NULL;
  if (!file) return 2;
  char *line = NULL, *word[WORDS];
  size_t length = 0, count = 0, most = 0, asked = 0;
  Step *step = NULL;
  int levels = 0;
  while (getline(&line, &length, file) > 0) {
    int words = 0;
    for (char *next = strtok(line, " \n"); next && words < WORDS; next = strtok(NULL, " \n")) word[words++] = next;
    if (!words || word[0][0] == ';') continue;
    if (!strcmp(word[0], "levels")) {
      levels = atoi(word[1]);
      continue;
    }
    if (count == most) step = room_for(step, sizeof(Step) * (most = 2 * most + 1024));
    step[count++] = step_of(word, words);
  }
  BDD *function = room_for(NULL, sizeof(BDD) * (count + 2));
  char *is_false = room_for(NULL, count + 1);
  bdd_init(argc > 2 ? atoi(argv[2]) : 1000000, 100000);
  bdd_setcacheratio(4);
  bdd_setvarnum(levels ? levels : 1);
  function[0] = bddfalse, function[1] = bddtrue;
  bddStat before, after;
  bdd_stats(&before);
  double start = microseconds();
  size_t next = 2;
  for (size_t at = 0; at < count; at++) {
    if (step[at].kind == '?') is_false[asked++] = function[step[at].f] == bddfalse;
    else function[next++] = bdd_addref(made(&step[at], function));
  }
  double taken = microseconds() - start;
  bdd_stats(&after);
  puts("sat");
  for (size_t at = 0; at < asked; at++) puts(is_false[at] ? "unsat" : "sat");
  printf("nodes %ld microseconds %.0f\n", after.produced - before.produced, taken);
  return 0;
}
