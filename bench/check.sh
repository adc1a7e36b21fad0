#!/usr/bin/env bash
# Whole checks: bench/check.sh [TURNS [TEXT..]]
# A line for each specification of bench/texts.sh that is named here, or for each TEXT: its bytes, groups and findings, the milliseconds of
# `format` (reading and writing the layout) and of `check` (each the least of TURNS (3) runs), their ratio, and the greatest resident memory
# of `check`. Behind it, where `valgrind` is there and the check takes less than two seconds, the share of each stage in the instructions
# of `check`: reading (lexer and parser), rules and limits, the machine, the diagrams of states and phrases, and the groups (event chains,
# verdicts with counterexamples, and the report).
# It ends with status 1 where a text is no specification that keeps the rules. PROGRAM=FILE takes a program that is built already, and
# SHARES=no leaves out the shares.
set -eu
cd "$(dirname "$0")/.."
turns=${1:-3}
shift $(($# > 0 ? 1 : 0))
work=$(mktemp -d)
trap 'rm -rf "$work"' EXIT
source bench/stages.sh
source bench/texts.sh

# The names of the texts, and how each is written.
names=()
declare -A written_by
text() { names+=("$1"); written_by[$1]="${*:2}"; }
text lamp cat examples/lamp.rsml
text tcas cat examples/tcas.rsml
text demo_40 demo 40
text demo_64 demo 64
text intruders intruders 30 25
text intruders_mistaken intruders 30 24
text hub hub 30
text hub_mistaken hub 30 mistaken
text blocks blocks 30
text states states
text transitions transitions
text transitions_mistaken transitions mistaken
text rows rows
text lines lines
text modes_200 modes 200
text modes_200_mistaken modes 200 mistaken
text tanks tanks
text comparisons comparisons
text chains_usual chains_usual
text chains_short chains_short
text chains_deep chains_deep
text chains_wide chains_wide
[ $# -eq 0 ] || names=("$@")

take_program
stages="reading rules machine diagrams groups"
heading=
if with_shares; then heading="  reading    rules  machine diagrams   groups"; fi
format='%-20s %8s %7s %8s %9s %9s %7s %7s%s\n'
# shellcheck disable=SC2059
printf "$format" specification bytes groups findings format check ratio MB "$heading"
for name in "${names[@]}"; do
  [ -n "${written_by[$name]:-}" ] || { echo "$name: no such text"; exit 1; }
  ${written_by[$name]} > "$work/$name"
  reading=$(least "$program" format "$work/$name")
  check=$(least "$program" check "$work/$name")
  groups=$(awk '$1 == "groups" { print $2; exit }' "$work/output")
  [ -n "$groups" ] || { echo "$name: $(head -n 1 "$work/output")"; exit 1; }
  findings=$(grep -cE '^(none|two|loop|clash) ' "$work/output" || true)
  told=
  if with_shares && awk -v t="$check" 'BEGIN { exit !(t < 2000) }'; then told=$(shares "$stages" check "$work/$name"); fi
  # shellcheck disable=SC2059
  printf "$format" "$name" "$(stat -c %s "$work/$name")" "$groups" "$findings" "$reading" "$check" \
    "$(awk -v r="$reading" -v c="$check" 'BEGIN { printf "%.1f", c / r }')" "$(megabytes "$program" check "$work/$name")" "$told"
done
