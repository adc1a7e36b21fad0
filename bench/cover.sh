#!/usr/bin/env bash
# Compares `cover` on random event files with the engine of simulator.rs that counts in place of writing a trace, and with our own `simulate`
# of the same file to a pipe: the lamp, Tcas, and the plant of 64 units.
#     bench/cover.sh [EVENTS [TURNS]]
# A line for each: milliseconds of ours, which contain the check of the specification; of the engine, and the ratio of ours to it, with its
# aim; of our `simulate`, and the ratio to it, with its aim. Times are the least of TURNS (9) runs by turns. All counts are compared first.
# Then the greatest resident memory of ours for files of 10,000 and of ten times EVENTS events. It ends with status 1 where two counts are
# different.
# PROGRAM=FILE takes a program that is built already.
set -eu
cd "$(dirname "$0")/.."
events=${1:-1000000}
turns=${2:-9}
work=$(mktemp -d)
trap 'rm -rf "$work"' EXIT
source bench/texts.sh
source bench/event_texts.sh

rustc -O -o "$work/engine" bench/simulator.rs
if [ -z "${PROGRAM:-}" ]; then
  (cd crates/rsml_main && rt run -- check data/lamp.rsml > /dev/null)
  PROGRAM=crates/rsml_main/out/rsml_main
fi

# ours TASK, engine TASK, simulating TASK: the counts, or the trace, of the event file of a task.
ours() { "$PROGRAM" cover "$work/$1.rsml" "$work/$1.events"; }
engine() { "$work/engine" "$1" "$work/$1.events" counts; }
simulating() { "$PROGRAM" simulate "$work/$1.rsml" "$work/$1.events"; }

# milliseconds WHO TASK: of one run to a pipe.
milliseconds() {
  local start
  start=$(date +%s%N)
  "$1" "$2" | cat > /dev/null
  echo $((($(date +%s%N) - start) / 1000000))
}

cp examples/lamp.rsml examples/tcas.rsml "$work"
demo 64 > "$work/demo.rsml"
printf '%-6s %10s %10s %10s %7s %5s %10s %7s %5s\n' task events ours engine ratio aim simulate ratio aim
for task in lamp tcas demo; do
  event_file $task "$events" > "$work/$task.events"
  cmp <(ours $task | tail -n +2) <(engine $task) || { echo "$task: other counts"; exit 1; }
  for _ in $(seq "$turns"); do
    for who in ours engine simulating; do milliseconds $who $task >> "$work/$task.$who"; done
  done
  awk -v task=$task -v events="$events" -v ours="$(sort -n "$work/$task.ours" | head -1)" -v engine="$(sort -n "$work/$task.engine" | head -1)" \
    -v simulating="$(sort -n "$work/$task.simulating" | head -1)" \
    'BEGIN { printf "%-6s %10d %7d ms %7d ms %7.2f %5.2f %7d ms %7.2f %5.2f\n", task, events, ours, engine, ours / (engine + 0.001), 1.5,
      simulating, ours / (simulating + 0.001), 1 }'
done
for count in 10000 $((10 * events)); do
  for task in lamp tcas; do
    event_file $task "$count" > "$work/$task.events"
    printf '%s, %d events: ' $task "$count"
    { command time -f 'most memory %M KB' "$PROGRAM" cover "$work/$task.rsml" "$work/$task.events" > /dev/null; } 2>&1
  done
done
