#!/usr/bin/env bash
# Whole checks beside an SMT solver and another package of decision diagrams: bench/guards.sh [PROGRAM [TURNS [TEXT..]]]
# A line for each specification of bench/texts.sh that is named here, or for each TEXT: its bytes and groups, how many groups are not
# sound, the milliseconds of `PROGRAM check` with its greatest resident memory, those of z3, and those of BuDDy with the nodes that it
# makes. A ratio is the time of PROGRAM over that of the peer; each time is the least of TURNS (3) runs, of at most 120 seconds of
# processor time. Without PROGRAM, or with -, it is the one that the environment's PROGRAM names, or else is built.
#
# What is timed: of PROGRAM all that it does, with reading, chains, and a least world for each finding. Of z3 all that it does with the
# script of bench/smt.py, which asks two questions a group; the quicker of its two encodings counts. Of BuDDy only the steps of
# bench/diagram_steps.py, which are those of PROGRAM over the same levels, and neither reading nor its tables: a dash where there are sums.
#
# The answers of both are compared with the report, group by group. The status is 1 where one differs, and where something is missing.
set -eu
cd "$(dirname "$0")/.."
program=${1:--}
[ "$program" != - ] || program=${PROGRAM:--}
turns=${2:-3}
shift $(($# > 2 ? 2 : $#))
limit=120
work=$(mktemp -d)
trap 'rm -rf "$work"' EXIT
. bench/texts.sh

# needs FILE PACKAGE: a program of a package of Debian.
needs() { command -v "$1" > "$work/found" || { echo "$1 is not there: install $2 (apt-get install $2), and run this again"; exit 1; }; }
needs z3 z3
needs python3 python3
needs /usr/bin/time time
needs cc gcc
cc -O3 -o "$work/buddy" bench/diagram_steps.c -lbdd 2> "$work/error" \
  || { head -n 3 "$work/error"; echo 'BuDDy is not there: install libbdd-dev (apt-get install libbdd-dev), and run this again'; exit 1; }

if [ "$program" = - ]; then
  (cd crates/rsml_main && rt run -- check ../../examples/lamp.rsml > "$work/error" 2>&1) || { tail -n 5 "$work/error"; exit 1; }
  program=crates/rsml_main/out/rsml_main
fi

# The names of the texts, and how each is written.
names=()
declare -A written_by
text() { names+=("$1"); written_by[$1]="${*:2}"; }
text tcas cat examples/tcas.rsml
text demo_40 demo 40
text demo_64 demo 64
text modes_200 modes 200
text modes_200_mistaken modes 200 mistaken
text great great
text great_mistaken great mistaken
text star_30 star 30
text star_30_mistaken star 30 mistaken
for kind in 1 2 3 4; do
  text "rev_$kind" "rev_$kind" 30
  text "rev_${kind}_mistaken" "rev_$kind" 30 mistaken
done
text chain_12 chain 12 8
text cycle_12 cycle 12 8
text cycle_12_mistaken cycle 12 8 mistaken
text pairs_4_mistaken pairs 4 mistaken
text pairs_5_mistaken pairs 5 mistaken
[ $# -eq 0 ] || names=("$@")

# timed OUTPUT COMMAND..: runs a command. `least` is the least of the microseconds of so many turns, and `status` that of the last.
timed() {
  local output=$1 start taken
  shift
  least=
  for _ in $(seq "$turns"); do
    status=0
    start=${EPOCHREALTIME/[.,]/}
    { (ulimit -t "$limit"; exec "$@") > "$output" 2> "$work/error"; } 2> "$work/killed" || status=$?
    taken=$((${EPOCHREALTIME/[.,]/} - start))
    [ -n "$least" ] && [ "$taken" -ge "$least" ] || least=$taken
    [ "$status" -lt 128 ] || return 0
  done
}

# figure WORD NUMBER: what is known of a specification.
figure() { echo "$1 $2" >> "$work/figures"; }

# checked: our report.
checked() {
  timed "$work/report" "$program" check "$work/text"
  case $status in
    0 | 1) ;;
    7) rm "$work/report"; figure ours memory; return ;;
    *) [ "$status" -ge 128 ] || { head -n 3 "$work/report" "$work/error"; exit 1; }; rm "$work/report"; figure ours time; return ;;
  esac
  figure ours "$least"
  figure groups "$(sed -n 's/^groups //p' "$work/report")"
  figure unsound "$(grep -cE '^(none|two) ' "$work/report" || true)"
  /usr/bin/time -o "$work/memory" -f %M "$program" check "$work/text" > "$work/again" || true
  figure peak "$(tail -n 1 "$work/memory")"
}

# compared NAME QUESTIONS: tells where the answers differ from our report.
compared() {
  [ -s "$work/report" ] || return 0
  python3 bench/smt.py --compare "$2" "$work/answers" "$work/report" > "$work/compared" || { sed "s/^/$1: /" "$work/compared"; failed=1; }
}

# solved NAME: z3, by its quicker encoding. Where the time is over, it is as much.
solved() {
  local encoding quickest=
  for encoding in numbers choices; do
    python3 bench/smt.py "$work/text" "$encoding" > "$work/questions"
    timed "$work/answers" z3 "$work/questions"
    compared "$1 ($encoding)" "$work/questions"
    [ -n "$quickest" ] && [ "$least" -ge "$quickest" ] || quickest=$least
  done
  figure z3 "$quickest"
}

# built NAME: BuDDy, where there are steps.
built() {
  python3 bench/diagram_steps.py "$work/text" > "$work/questions" || return 0
  for _ in $(seq "$turns"); do
    "$work/buddy" "$work/questions" > "$work/answers"
    figure buddy "$(sed -n 's/^nodes .* microseconds //p' "$work/answers")"
  done
  figure nodes "$(sed -n 's/^nodes \([0-9]*\) .*/\1/p' "$work/answers")"
  compared "$1 (BuDDy)" "$work/questions"
}

sed -n 's/^model name\s*: //p' /proc/cpuinfo | sort | uniq -c | sed 's/^ *\([0-9]*\) /\1 x /'
awk '/^MemTotal/ { printf "%.0f GB\n", $2 / 1e6 }' /proc/meminfo
z3 --version
format='%-19s %7s %6s %7s %9s %6s %9s %8s %9s %10s %8s\n'
# shellcheck disable=SC2059
printf "$format" specification bytes groups unsound 'ours ms' MB 'z3 ms' ours/z3 'BuDDy ms' ours/BuDDy nodes
failed=0
for name in "${names[@]}"; do
  ${written_by[$name]} > "$work/text"
  rm -f "$work/report" "$work/figures"
  figure bytes "$(stat -c %s "$work/text")"
  checked
  solved "$name"
  built "$name"
  awk -v name="$name" -v format="$format" '
    function plain(word) { return word in of ? of[word] : "-" }
    function milliseconds(word) { return plain(word) ~ /^[0-9]+$/ ? sprintf("%.1f", of[word] / 1e3) : plain(word) }
    function ratio(word) { return (word in of) && plain("ours") ~ /^[0-9]+$/ ? sprintf("%.3f", of["ours"] / of[word]) : "-" }
    !($1 in of) || $2 < of[$1] { of[$1] = $2 }
    END {
      peak = "peak" in of ? sprintf("%.0f", of["peak"] / 1024) : "-"
      printf format, name, of["bytes"], plain("groups"), plain("unsound"), milliseconds("ours"), peak,
        milliseconds("z3"), ratio("z3"), milliseconds("buddy"), ratio("buddy"), plain("nodes") }' "$work/figures"
done
exit "$failed"
