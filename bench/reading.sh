#!/usr/bin/env bash
# Reading alone, lexer and parser, beside the same in plain Rust: bench/reading.sh [TURNS]
# The text is a specification of 1 MiB whose last brace is missing: `check` reads all of it, and ends with the place of the fault, which is
# that of the peer (bench/parser.rs), or this ends with status 1. Printed are the milliseconds of both programs, whole and each the least
# of TURNS (20) runs, their ratio with the aim, and their greatest resident memory.
# PROGRAM=FILE takes a program that is built already.
set -eu
cd "$(dirname "$0")/.."
turns=${1:-20}
work=$(mktemp -d)
trap 'rm -rf "$work"' EXIT
source bench/stages.sh
source bench/texts.sh

take_program
rustc --edition 2021 -O -o "$work/plain" bench/parser.rs
unfinished > "$work/text"
ours=$(least "$program" check "$work/text")
mv "$work/output" "$work/fault"
peer=$(least "$work/plain" "$work/text")
cmp "$work/fault" "$work/output" || { echo "another fault in plain Rust"; exit 1; }
printf '%-12s %8s %8s %8s %6s %5s %8s %8s\n' text bytes 'ours ms' 'peer ms' ratio aim 'ours MB' 'peer MB'
printf '%-12s %8s %8s %8s %6s %5s %8s %8s\n' unfinished "$(stat -c %s "$work/text")" "$ours" "$peer" \
  "$(awk -v ours="$ours" -v peer="$peer" 'BEGIN { printf "%.2f", ours / peer }')" 1.5 \
  "$(megabytes "$program" check "$work/text")" "$(megabytes "$work/plain" "$work/text")"
