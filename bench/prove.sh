#!/usr/bin/env bash
# Whether claims hold throughout every run: bench/prove.sh [TURNS [NAME..]]
# A line for each specification with claims that is named here, or for each NAME: what `prove` answers, its milliseconds (the least of TURNS
# (3) runs) and its greatest resident memory; those of z3, which is asked one question for each set of events that a round may have and each
# claim (bench/prove.py), and the ratio; the aim, and `missed` where it is not reached. Where z3 is not installed there are dashes. A run
# that takes more than LIMIT (60) seconds, or more than MEMORY (8) GB, is told as `time` or `memory`. The status is 1 where z3 answers
# otherwise. PROGRAM=FILE takes a program that is built already.
set -eu
cd "$(dirname "$0")/.."
turns=${1:-3}
shift $(($# > 0 ? 1 : 0))
source bench/limited.sh
source bench/claims.sh

declare -A aim_of
for example in autopilot elevator_door reactor_trip; do text "$example" of_example "$example"; aim_of[$example]=50; done
text pair pair; aim_of[pair]=50
text tcas tcas_claims; aim_of[tcas]=100
text ring_30 ring 30; aim_of[ring_30]=500
text pairs_64 pairs_of 64; aim_of[pairs_64]=100
text line_1024 events_in_line 1024; aim_of[line_1024]=5000
[ $# -eq 0 ] || names=("$@")

take_program
failed=0
printf '%-16s %-8s %10s %5s %10s %7s %8s\n' specification answer prove MB z3 ratio aim
for name in "${names[@]}"; do
  [ -n "${written_by[$name]:-}" ] || { echo "$name: no such text"; exit 1; }
  ${written_by[$name]} > "$work/one"
  ${written_by[$name]} claims > "$work/claims"
  ours=$(limited "$program" prove "$work/one" "$work/claims")
  memory=$(tail -n 1 "$work/memory" | awk '{ printf "%.0f", $1 / 1024 }')
  answer=$(grep -o '^proved\|^initial\|^breaks' "$work/written" || echo -)
  peer=-
  if [ "$with_peer" = yes ]; then
    status=0
    peer=$(timeout "$limit" bench/prove.py "$work/one" "$work/claims" "$work/written") || status=$?
    case $status in
      0) ;;
      124) peer=time ;;
      *) echo "$name: another answer"; failed=1 ;;
    esac
  fi
  missed=$(awk -v one="$ours" -v aim="${aim_of[$name]}" 'BEGIN { print one ~ /^[0-9]/ && one + 0 <= aim ? "" : " missed" }')
  printf '%-16s %-8s %10s %5s %10s %7s %8s%s\n' "$name" "$answer" "$ours" "$memory" "$peer" "$(ratio "$ours" "$peer")" "${aim_of[$name]}" "$missed"
done
exit "$failed"
