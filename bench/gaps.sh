#!/usr/bin/env bash
# Columns of worlds in which groups fail: bench/gaps.sh [TURNS [NAME..]]
# A line for each specification that is named here, or for each NAME, and each N of 1, 5 and 99: how many groups are not sound, how many
# columns `gaps` tells, its milliseconds (the least of TURNS (3) runs) and its greatest resident memory; those of `check`, and the ratio;
# those of z3, which is asked for the same columns (bench/gaps.py), and the ratio. Where z3 is not installed there are dashes. A run that
# takes more than LIMIT (60) seconds, or more than MEMORY (8) GB, is told as `time` or `memory`.
# The status is 1 where the columns of z3 are others. PROGRAM=FILE takes a program that is built already.
set -eu
cd "$(dirname "$0")/.."
turns=${1:-3}
shift $(($# > 0 ? 1 : 0))
source bench/limited.sh

for example in examples/*/mistaken.rsml; do
  text "$(basename "$(dirname "$example")")" cat "$example"
done
text intruders_mistaken cat examples/intruders_mistaken.rsml
for size in 8 12 20 30; do text "hub_${size}_mistaken" hub "$size" mistaken; done
for kind in 1 2 3 4; do text "rev_${kind}_mistaken" "rev_$kind" 30 mistaken; done
text pairs_4_mistaken pairs 4 mistaken
[ $# -eq 0 ] || names=("$@")

take_program
failed=0

printf '%-24s %3s %6s %7s %10s %5s %10s %7s %10s %7s\n' specification N groups columns gaps MB check ratio z3 ratio
for name in "${names[@]}"; do
  [ -n "${written_by[$name]:-}" ] || { echo "$name: no such text"; exit 1; }
  ${written_by[$name]} > "$work/$name"
  check=$(limited "$program" check "$work/$name")
  for columns in 1 5 99; do
    ours=$(limited "$program" gaps "$work/$name" "$columns")
    memory=$(tail -n 1 "$work/memory" | awk '{ printf "%.0f", $1 / 1024 }')
    groups=$(awk '$1 == "gaps" { print $2 }' "$work/written")
    told=$(grep -c '^  column ' "$work/written" || true)
    peer=-
    if [ "$with_peer" = yes ] && [ -n "$groups" ]; then
      status=0
      peer=$(timeout "$limit" bench/gaps.py "$work/$name" "$columns" "$work/written") || status=$?
      case $status in
        0) ;;
        124) peer=time ;;
        *) echo "$name, $columns: other columns"; failed=1 ;;
      esac
    fi
    printf '%-24s %3s %6s %7s %10s %5s %10s %7s %10s %7s\n' "$name" "$columns" "${groups:--}" "$told" "$ours" "$memory" "$check" \
      "$(ratio "$ours" "$check")" "$peer" "$(ratio "$ours" "$peer")"
  done
done
exit "$failed"
