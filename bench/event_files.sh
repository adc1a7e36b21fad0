#!/usr/bin/env bash
# Event files of 1 GB under `simulate`, beside the same in plain Rust (bench/event_files.rs): comment lines, short events, and lines of
# 4,096 bytes.
#     bench/event_files.sh [BYTES [TURNS]]
# A line for each, with the milliseconds of both programs, whole and each the least of TURNS (3) runs by turns, and their ratio with the
# aim. The traces are compared, by their sums, and this ends with status 1 where two differ. Nothing reacts in the specification, so that
# reading and writing are what is measured. Then the most memory for a file of five times BYTES, which is too long with the usual 1 GB.
# The files of 1 GB are made in /dev/shm, the one of 5 GB in the folder for scratch files; each is deleted before the next.
# PROGRAM=FILE takes a program that is built already.
set -eu
cd "$(dirname "$0")/.."
bytes=${1:-1000000000}
turns_of=${2:-3}
memory=$(mktemp -d /dev/shm/event_files.XXXXXX)
work=$(mktemp -d)
trap 'rm -rf "$work" "$memory"' EXIT
source bench/stages.sh

take_program
rustc --edition 2021 -O -o "$work/plain" bench/event_files.rs
cat > "$work/spec" <<'TEXT'
specification Bench;
enumeration Switch { Down, Up }
range Level 0 .. 999;
input Lever : Switch = Down;
input Depth [4] : Level = 0;
event Tick;
receive Set (Lever) raise Tick;
receive Fill [4] (Depth[this]) raise Tick;
state Bench;
TEXT

comments() { yes '# nothing happens here, and nothing happens here, and nothing' | head -c "$bytes"; }
events() { yes $'Set Lever=Up\nFill[3] Depth=512\nFill[4] Depth=7\nSet Lever=Down' | head -c "$bytes"; }
long_lines() { yes "Fill[2] Depth=$(printf '%04082d' 999)" | head -c "$bytes"; }

ours() { "$program" simulate "$work/spec" "$memory/file" || true; }
peer() { "$work/plain" "$memory/file"; }
# milliseconds WHO: of one run, whose trace goes nowhere.
milliseconds() {
  local start
  start=$(date +%s%N)
  "$1" > /dev/null
  echo $((($(date +%s%N) - start) / 1000000))
}
shortest() { sort -n "$1" | head -n 1; }

printf '%-14s %12s %12s %7s %5s\n' task ours peer ratio aim
for task in comments events long_lines; do
  $task > "$memory/file" 2> /dev/null || true
  [ "$(ours | cksum)" = "$(peer | cksum)" ] || { echo "$task: another trace"; exit 1; }
  for _ in $(seq "$turns_of"); do
    milliseconds ours >> "$work/$task.ours"
    milliseconds peer >> "$work/$task.peer"
  done
  rm "$memory/file"
  awk -v task="$task" -v ours="$(shortest "$work/$task.ours")" -v peer="$(shortest "$work/$task.peer")" \
    'BEGIN { printf "%-14s %9d ms %9d ms %7.2f %5.2f\n", task, ours, peer, ours / (peer + 0.001), 1.5 }'
done

yes '# nothing happens here, and nothing happens here, and nothing' 2> /dev/null | head -c "$((5 * bytes))" > "$work/file"
/usr/bin/time -q -o "$work/most" -f %M "$program" simulate "$work/spec" "$work/file" > "$work/output" || true
printf 'most memory %s KB: %s\n' "$(cat "$work/most")" "$(tail -n 1 "$work/output")"
