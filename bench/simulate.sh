#!/usr/bin/env bash
# Compares `simulate` with simulators in plain Rust on random event files, through real files to a pipe: the lamp, Tcas, and the plant of
# 64 units, of which each reacts to each event. The general one is an engine over a machine in tables, as ours is; those for one have the
# guards of one specification each as code.
#     bench/simulate.sh [EVENTS [TURNS]]
# A line for each: milliseconds of ours, which contain the check of the specification; of the general one, and the ratio of ours to it; of
# the one for this specification, and the ratio to it; how many rounds ours makes in a second; and the aim of the first ratio. Times are
# the least of TURNS (9) runs by turns. All traces are compared first, and that of the general one for an example with components in
# others. Then what an event costs in a machine of 4,000 states and 8,000 transitions of which each event concerns two, by one of the lamp
# and without the checks; and the greatest resident memory of ours for files of 10,000 and of ten times EVENTS events. It ends with status
# 1 where two traces are different.
# PROGRAM=FILE takes a program that is built already.
set -eu
cd "$(dirname "$0")/.."
events=${1:-1000000}
turns=${2:-9}
work=$(mktemp -d)
trap 'rm -rf "$work"' EXIT
source bench/texts.sh
source bench/event_texts.sh

rustc -O -o "$work/general" bench/simulator.rs
rustc -O -o "$work/special" bench/simulate.rs
if [ -z "${PROGRAM:-}" ]; then
  (cd crates/rsml_main && rt run -- check data/lamp.rsml > /dev/null)
  PROGRAM=crates/rsml_main/out/rsml_main
fi

# ours TASK, general TASK, special TASK: the trace of the event file of a task.
ours() { "$PROGRAM" simulate "$work/$1.rsml" "$work/$1.events"; }
general() { "$work/general" "$1" "$work/$1.events"; }
special() { "$work/special" "$1" "$work/$1.events"; }

# milliseconds WHO TASK: of one run to a pipe.
milliseconds() {
  local start
  start=$(date +%s%N)
  "$1" "$2" | cat > /dev/null
  echo $((($(date +%s%N) - start) / 1000000))
}

cp examples/lamp.rsml examples/tcas.rsml "$work"
demo 64 > "$work/demo.rsml"
cmp <("$work/general" cabin examples/guide/cabin.events) examples/guide/cabin.trace || { echo "cabin: another trace"; exit 1; }
printf '%-6s %10s %10s %10s %7s %10s %7s %10s %6s\n' task events ours general ratio 'for one' ratio rounds/s aim
for task in lamp tcas demo; do
  event_file $task "$events" > "$work/$task.events"
  for peer in general special; do
    cmp <(ours $task) <($peer $task) || { echo "$task: another trace"; exit 1; }
  done
  rounds=$(special $task | grep -c '^  round')
  for _ in $(seq "$turns"); do
    for who in ours general special; do milliseconds $who $task >> "$work/$task.$who"; done
  done
  awk -v task=$task -v events="$events" -v rounds="$rounds" -v ours="$(sort -n "$work/$task.ours" | head -1)" \
    -v general="$(sort -n "$work/$task.general" | head -1)" -v special="$(sort -n "$work/$task.special" | head -1)" \
    'BEGIN { printf "%-6s %10d %7d ms %7d ms %7.2f %7d ms %7.2f %10.0f %6.2f\n", task, events, ours, general, ours / (general + 0.001),
      special, ours / (special + 0.001), 1000 * rounds / (ours + 0.001), 1.5 }'
done
# reacting TASK: the milliseconds of ours, the least of the turns, less those for an event file without events.
reacting() {
  for _ in $(seq "$turns"); do milliseconds ours "$1"; done | sort -n | head -n 1 > "$work/whole"
  : > "$work/$1.events"
  for _ in $(seq "$turns"); do milliseconds ours "$1"; done | sort -n | head -n 1 | awk -v whole="$(cat "$work/whole")" '{ print whole - $1 }'
}
many_units > "$work/many_units.rsml"
for task in lamp many_units; do
  event_file $task "$events" > "$work/$task.events"
  reacting $task > "$work/$task.reacting"
done
awk -v units="$(cat "$work/many_units.reacting")" -v lamp="$(cat "$work/lamp.reacting")" \
  'BEGIN { printf "reactions: many_units %d ms, lamp %d ms, ratio %.2f, aim 3\n", units, lamp, units / (lamp + 0.001) }'
for count in 10000 $((10 * events)); do
  event_file lamp "$count" > "$work/lamp.events"
  printf 'lamp, %d events: ' "$count"
  { command time -f 'most memory %M KB' "$PROGRAM" simulate "$work/lamp.rsml" "$work/lamp.events" > /dev/null; } 2>&1
done
