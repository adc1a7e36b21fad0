#!/usr/bin/env bash
# The command `demo`: bench/demo.sh [TURNS]
# A line for `demo` with 1, 8, 40 and 64 units: the milliseconds of the command, the least of TURNS (3) runs, and its greatest resident
# memory. Behind it, where `valgrind` is there, the share of each stage in its instructions: reading (lexer and parser), rules and limits,
# the machine, the diagrams of states and phrases, the groups (event chains, verdicts and the report), and the run of the 1,000 events.
# The machine is made twice, for the analysis and for the run. The aim is 100 milliseconds for 64 units.
# PROGRAM=FILE takes a program that is built already, and SHARES=no leaves out the shares.
set -eu
cd "$(dirname "$0")/.."
turns=${1:-3}
work=$(mktemp -d)
trap 'rm -rf "$work"' EXIT
source bench/stages.sh

take_program
stages="reading rules machine diagrams groups run"
heading=
if with_shares; then heading="  reading    rules  machine diagrams   groups      run"; fi
printf '%-8s %9s %7s%s\n' units ms MB "$heading"
for units in 1 8 40 64; do
  told=
  if with_shares; then told=$(shares "$stages" demo "$units"); fi
  printf '%-8s %9s %7s%s\n' "$units" "$(least "$program" demo "$units")" "$(megabytes "$program" demo "$units")" "$told"
done
