#!/usr/bin/env bash
# Rules and limits on hostile specifications of nearly 1 MiB, as whole commands: bench/rules.sh [TURNS]
# A line for each: the rule or limit that it breaks (by docs/rules.md), what `check` has found, the milliseconds of `format` (reading and
# writing the layout) and of `check` (reading and judging), each the least of TURNS (3) runs, and their ratio. It ends with status 1 where
# an answer is not the one that is wanted. PROGRAM=FILE takes a program that is built already.
set -eu
cd "$(dirname "$0")/.."
turns=${1:-3}
work=$(mktemp -d)
trap 'rm -rf "$work"' EXIT
source bench/stages.sh

# make NAME WANTED PROGRAM: a text, by an awk program that ends once it has written about a million bytes.
make() {
  echo "$1 $2" >> "$work/answers"
  awk "function put(s) { printf \"%s\", s; size += length(s) } BEGIN { n = 0; m = 0; k = 0; $3 }" > "$work/$1"
}
most=1000000
make many_declarations L3 "put(\"specification A; \"); while (size < $most) put(\"event E\" n++ \"; \"); put(\"state A;\")"
make one_name_again S1 "put(\"specification A; \"); while (size < $most) put(\"event E; \"); put(\"state A;\")"
make values_of_one_type L4 "put(\"specification A; enumeration V { X\"); while (size < $most / 2) put(\", Y\" n++); put(\" } \");
  while (size < $most) put(\"input Z\" m++ \" : V = X; \"); put(\"state A;\")"
make long_first_case S8 "put(\"specification A; function G { 1\"); while (size < $most / 2) put(\" + 1\"); put(\" when always; } \");
  put(\"macro M { \"); while (size < $most) put(\"function G = 1 | T; \"); put(\"} state A;\")"
make paths_of_a_large_family S8 "put(\"specification A; macro M { \"); while (size < $most / 2) put(\"in A.Z | T; \"); put(\"} state A all { \");
  while (size < $most) put(\"state Y\" n++ \"; \"); put(\"state Z; }\")"
make deep_paths S8 "put(\"specification A; macro M { \"); while (size < $most / 2) put(\"in A.A.A.A.A.A.A.A.A.Z | T; \"); put(\"} state A all { \");
  for (i = 0; i < 8; i++) put(\"state A all { \"); while (size < $most) put(\"state Y\" n++ \"; \"); put(\"state Z; } } } } } } } } }\")"
make targets_of_a_large_family S10 "put(\"specification A; event E; state A one { default Z; \"); while (size < $most / 2) put(\"state Y\" n++ \"; \"); put(\"state Z; \");
  while (size < $most) put(\"move Z -> Z on E when always; \"); put(\"}\")"
make buses L2 "put(\"specification A; event E; state A one { default Z; state Z; \"); while (size < $most / 2) put(\"bus B\" n++ \" { Z } \");
  while (size < $most) put(\"stay B\" --n \" on E when always; \"); put(\"}\")"
make long_raise_list S6 "put(\"specification A; event E; state A one { default Z; state Z; stay Z on E when always raise E[0]\");
  while (size < $most) put(\", E[\" ++n \"]\"); put(\"; }\")"
make long_receive_list S2 "put(\"specification A; event E; receive Q (X\"); while (size < $most) put(\", X\" n++); put(\") raise E; state A;\")"
make macro_named_by_all L2 "put(\"specification A; event E; macro M { \"); for (i = 0; i < 64; i++) put(\"1 = 1 | T; \"); put(\"} state A one { default Z; state Z; \");
  while (size < $most) put(\"stay Z on E when { macro M | T; }; \"); put(\"}\")"
make large_family S10 "put(\"specification A; event E; state A all { \"); while (size < $most) put(\"state Y\" n++ \"; \"); put(\"}\")"
make enormous_ground_machine L5 "put(\"specification A; \"); while (size < $most) { put(\"macro M\" n++ \" [64] { \");
  for (i = 0; i < 64; i++) put(\"every i of 64 : 1 = 1 | T; \"); put(\"} \") } put(\"state A;\")"
make sums_by_constants L7 "put(\"specification A; range R 0 .. 9; input X : R = 0; function G { \"); while (size < $most / 2) put(\"X - \" n++ \" when always; \"); put(\"} \");
  while (size < $most) { put(\"macro M\" m++ \" { \"); for (i = 0; i < 64; i++) put(\"function G < \" k++ \" | T; \"); put(\"} \") } put(\"state A;\")"
make sums_of_two_functions L7 "put(\"specification A; range R 0 .. 9; input X : R = 0; function G { \"); while (size < $most / 4) put(\"X - \" n++ \" when always; \"); put(\"} function H { \");
  while (size < $most / 2) put(\"X - \" n++ \" when always; \"); put(\"} \");
  while (size < $most) { put(\"macro M\" m++ \" { \"); for (i = 0; i < 64; i += 2) { put(\"function G < \" k \" | T; \"); put(\"function H < \" k++ \" | T; \") } put(\"} \") } put(\"state A;\")"
make sums_and_one_more L7 "put(\"specification A; range R 0 .. 9; input X : R = 0; function G { \"); while (size < $most / 2) put(\"X - \" n++ \" when always; \"); put(\"} \");
  while (size < $most) { put(\"macro M\" m++ \" { \"); for (i = 0; i < 64; i += 2) { put(\"function G < \" k \" | T; \"); put(\"X + \" k \" < \" k++ \" | T; \") } put(\"} \") } put(\"state A;\")"
make cells_by_constants L7 "put(\"specification A; range R 0 .. 1000000; \"); for (i = 0; i < 1000; i++) put(\"input X\" i \" : R = 0; \"); put(\"function G { \");
  for (i = 0; i < 1000; i++) put(\"X\" i \" when always; \"); put(\"} \");
  while (size < $most) { put(\"macro M\" m++ \" { \"); for (i = 0; i < 64; i++) put(\"function G < \" k++ \" | T; \"); put(\"} \") } put(\"state A;\")"
make cells_and_one_more L7 "put(\"specification A; range R 0 .. 1000000; \"); for (i = 0; i < 1000; i++) put(\"input X\" i \" : R = 0; \"); put(\"function G { \");
  for (i = 0; i < 1000; i++) put(\"X\" i \" when always; \"); put(\"} macro L { \"); for (i = 0; i < 64; i++) put(\"X\" i \" < \" 500000 + i \" | T; \"); put(\"} \");
  for (k = 0; k < 900; k += 60) { put(\"macro N\" k \" { \"); for (i = 0; i < 60; i++) put(\"X\" 64 + k + i \" < \" 600000 + k + i \" | T; \"); put(\"} \") }
  while (size < $most) { put(\"macro M\" m++ \" { \"); for (i = 0; i < 64; i++) put(\"function G < \" k++ \" | T; \"); put(\"} \") } put(\"state A;\")"
make sums_by_sums L7 "put(\"specification A; range R 0 .. 9; input X : R = 0; input Y : R = 0; \");
  while (size < $most) { put(\"macro M\" m++ \" { \"); for (i = 0; i < 64; i++) { put(\"X - \" k \" < Y - \" k++ \" | T; \") } put(\"} \") } put(\"state A;\")"
make function_of_many_indices L7 "put(\"specification A; range R 0 .. 9; input X [64] : R = 0; function G [64] { \"); while (size < $most / 2) put(\"X[this] - \" n++ \" when always; \"); put(\"} \");
  while (size < $most) { put(\"macro M\" m++ \" { \"); for (i = 0; i < 64; i++) put(\"function G[\" i + 1 \"] < \" k++ \" | T; \"); put(\"} \") } put(\"state A;\")"

take_program
printf '%-28s %8s %8s %10s %10s %8s\n' text wanted found 'format ms' 'check ms' ratio
differ=0
while read -r name wanted; do
  format=$(least "$program" format "$work/$name")
  check=$(least "$program" check "$work/$name")
  found=$(awk '$1 == "fault" { print $2 }' "$work/output")
  printf '%-28s %8s %8s %10s %10s %8s\n' "$name" "$wanted" "${found:-none}" "$format" "$check" \
    "$(awk -v f="$format" -v c="$check" 'BEGIN { printf "%.2f", c / f }')"
  [ "$found" = "$wanted" ] || differ=1
done < "$work/answers"
[ $differ = 0 ] || { echo "an answer is not the one that is wanted"; exit 1; }
