/* The same work as crates/bdd_bench, by BuDDy: one line a task, with the nodes that it made, those of its answer and the time. */
#include <bdd.h>
#include <stdint.h>
#include <stdio.h>
#include <time.h>

enum { SIDE = 11, LEVELS = 128, VARIABLES = 60, COLUMNS = 5, ROWS = 3, PART = 5, FORGOTTEN = 6 };

static double microseconds(void) {
  struct timespec t;
  clock_gettime(CLOCK_MONOTONIC, &t);
  return t.tv_sec * 1e6 + t.tv_nsec / 1e3;
}

static uint64_t state = 1;

/* The next random number below a bound. */
static int below(int bound) {
  state = state * 6364136223846793005ull + 1442695040888963407ull;
  return (int)((state >> 33) % (uint64_t)bound);
}

/* Two squares are not both taken. */
static BDD apart(int i, int j, int k, int l) {
  return bdd_or(bdd_nithvar(SIDE * i + j), bdd_nithvar(SIDE * k + l));
}

/* No other square of the row, column and two diagonals of a square is taken with it. */
static BDD safe(int size, int i, int j) {
  BDD row = bddtrue, column = bddtrue, falling = bddtrue, rising = bddtrue;
  for (int l = 0; l < size; l++)
    if (l != j) row = bdd_and(row, apart(i, j, i, l));
  for (int k = 0; k < size; k++)
    if (k != i) column = bdd_and(column, apart(i, j, k, j));
  for (int k = 0; k < size; k++) {
    int l = k - i + j;
    if (0 <= l && l < size && k != i) falling = bdd_and(falling, apart(i, j, k, l));
  }
  for (int k = 0; k < size; k++) {
    int l = i + j - k;
    if (0 <= l && l < size && k != i) rising = bdd_and(rising, apart(i, j, k, l));
  }
  return bdd_and(bdd_and(row, column), bdd_and(falling, rising));
}

static BDD queens(int size) {
  BDD board = bddtrue;
  for (int i = 0; i < size; i++) {
    BDD some = bddfalse;
    for (int j = 0; j < size; j++) some = bdd_or(some, bdd_ithvar(SIDE * i + j));
    board = bdd_and(board, some);
  }
  for (int i = 0; i < size; i++)
    for (int j = 0; j < size; j++) board = bdd_and(board, safe(size, i, j));
  return board;
}

/* x = y, all bits of x before those of y. */
static BDD equal(int bits) {
  BDD all = bddtrue;
  for (int i = 0; i < bits; i++)
    all = bdd_and(all, bdd_ite(bdd_ithvar(i), bdd_ithvar(bits + i), bdd_nithvar(bits + i)));
  return all;
}

/* The conjunction of random tables: each the disjunction of columns, each the conjunction of literals. */
static BDD tables(int count) {
  BDD all = bddtrue;
  state = 1;
  for (int t = 0; t < count; t++) {
    BDD table = bddfalse;
    for (int c = 0; c < COLUMNS; c++) {
      BDD column = bddtrue;
      for (int r = 0; r < ROWS; r++) {
        int variable = below(VARIABLES);
        column = bdd_and(column, below(2) ? bdd_nithvar(variable) : bdd_ithvar(variable));
      }
      table = bdd_or(table, column);
    }
    all = bdd_and(all, table);
  }
  return all;
}

/* What is left of random tables where the first levels are forgotten, part by part; or one level after another, first with each value. */
static BDD forgotten(int count) {
  BDD left = tables(count);
  for (int part = 0; part < FORGOTTEN; part++) {
    int levels[PART];
    for (int l = 0; l < PART; l++) levels[l] = PART * part + l;
    left = bdd_exist(left, bdd_makeset(levels, PART));
  }
  return left;
}

static BDD singly(int count) {
  BDD left = tables(count);
  for (int level = 0; level < PART * FORGOTTEN; level++)
    left = bdd_or(bdd_restrict(left, bdd_nithvar(level)), bdd_restrict(left, bdd_ithvar(level)));
  return left;
}

int main(int argc, char **argv) {
  bdd_init(20000000, 2000000);
  bdd_setvarnum(LEVELS);
  for (int a = 1; a < argc; a++) {
    int size;
    double start = microseconds();
    BDD answer = bddfalse;
    if (sscanf(argv[a], "queens=%d", &size) == 1) answer = queens(size);
    else if (sscanf(argv[a], "equal=%d", &size) == 1) answer = equal(size);
    else if (sscanf(argv[a], "tables=%d", &size) == 1) answer = tables(size);
    else if (sscanf(argv[a], "forget=%d", &size) == 1) answer = forgotten(size);
    else if (sscanf(argv[a], "singly=%d", &size) == 1) answer = singly(size);
    else return 2;
    double taken = microseconds() - start;
    bddStat stat;
    bdd_stats(&stat);
    printf("%s nodes %ld size %d microseconds %.0f\n", argv[a], stat.produced, bdd_nodecount(answer) + 2, taken);
  }
  bdd_done();
  return 0;
}
