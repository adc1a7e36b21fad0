#!/usr/bin/env bash
# Whether rewritten specifications behave alike: bench/same.sh [TURNS [NAME..]]
# A line for each specification that is named here, or for each NAME, beside itself with other guards (bench/rewritten.py), and for each
# beside that with one mistake: what `same` answers, its milliseconds (the least of TURNS (3) runs) and its greatest resident memory; those
# of `check` of the first, and the ratio; those of z3, which is asked of each member up to the first that differs (bench/same.py), and the
# ratio. Where z3 is not installed there are dashes. A run that takes more than LIMIT (60) seconds, or more than MEMORY (8) GB, is told as
# `time` or `memory`. The status is 1 where z3 answers otherwise. PROGRAM=FILE takes a program that is built already.
set -eu
cd "$(dirname "$0")/.."
turns=${1:-3}
shift $(($# > 0 ? 1 : 0))
source bench/limited.sh

for example in examples/*/; do
  example=$(basename "$example")
  [ ! -f "examples/$example/$example.rsml" ] || text "$example" cat "examples/$example/$example.rsml"
done
text tcas cat examples/tcas.rsml
text intruders cat examples/intruders.rsml
for size in 8 30; do text "hub_$size" hub "$size"; done
for kind in 1 3; do text "rev_$kind" "rev_$kind" 30; done
text demo_64 demo 64
text great great
text pairs_4 pairs 4
[ $# -eq 0 ] || names=("$@")

take_program
failed=0
printf '%-24s %-9s %-7s %10s %5s %10s %7s %10s %7s\n' specification beside answer same MB check ratio z3 ratio
for name in "${names[@]}"; do
  [ -n "${written_by[$name]:-}" ] || { echo "$name: no such text"; exit 1; }
  ${written_by[$name]} > "$work/one"
  check=$(limited "$program" check "$work/one")
  for beside in rewritten mistaken; do
    bench/rewritten.py "$work/one" "$beside" > "$work/other"
    ours=$(limited "$program" same "$work/one" "$work/other")
    memory=$(tail -n 1 "$work/memory" | awk '{ printf "%.0f", $1 / 1024 }')
    answer=$(head -n 1 "$work/written" | cut -d ' ' -f 1)
    peer=-
    if [ "$with_peer" = yes ]; then
      status=0
      peer=$(timeout "$limit" bench/same.py "$work/one" "$work/other" "$work/written") || status=$?
      case $status in
        0) ;;
        124) peer=time ;;
        *) echo "$name, $beside: another answer"; failed=1 ;;
      esac
    fi
    printf '%-24s %-9s %-7s %10s %5s %10s %7s %10s %7s\n' "$name" "$beside" "${answer:--}" "$ours" "$memory" "$check" "$(ratio "$ours" "$check")" \
      "$peer" "$(ratio "$ours" "$peer")"
  done
done
exit "$failed"
