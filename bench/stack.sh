#!/usr/bin/env bash
# The stack that whole checks take: bench/stack.sh [PROGRAM]
# A line for each specification: its bytes, cells and groups, and the least stack, in KiB and in steps of 64, with which `PROGRAM check`
# still ends; the aim is 8,192 KiB, what a process usually has. Without PROGRAM, or with -, it is the one that the environment's PROGRAM
# names, or else is built.
#
# The recursions over diagrams go as deep as a function has levels, those over states and definitions as deep as these stand in one another.
# The texts are those of texts.sh at the limits in which they go deepest; tests/stack sees that each ends with 8,192 KiB.
#
# It ends with status 1 where a check does not end with 8,192 KiB.
set -eu
cd "$(dirname "$0")/.."
program=${1:--}
[ "$program" != - ] || program=${PROGRAM:--}
work=$(mktemp -d)
trap 'rm -rf "$work"' EXIT
. bench/texts.sh

if [ "$program" = - ]; then
  (cd crates/rsml_main && rt run -- check ../../examples/lamp.rsml > "$work/error" 2>&1) || { tail -n 5 "$work/error"; exit 1; }
  program=crates/rsml_main/out/rsml_main
fi

# ends KIB FILE: whether a check of a file ends, with so much stack.
ends() {
  local status=0
  (ulimit -s "$1" && exec "$program" check "$2" > "$work/output" 2> "$work/error") || status=$?
  [ "$status" -le 1 ]
}

for name in $DEEP_TEXTS; do
  deep_text "$name" > "$work/$name"
done

status=0
printf '%-18s %8s %7s %7s %10s\n' specification bytes cells groups 'stack KiB'
for name in $DEEP_TEXTS; do
  if ! ends 8192 "$work/$name"; then echo "$name: not within 8192 KiB"; status=1; continue; fi
  low=0 high=8192
  while [ $((high - low)) -gt 64 ]; do
    middle=$(((low + high) / 128 * 64))
    if ends "$middle" "$work/$name"; then high=$middle; else low=$middle; fi
  done
  printf '%-18s %8s %7s %7s %10s\n' "$name" "$(stat -c %s "$work/$name")" "$(grep -o 'input ' "$work/$name" | wc -l)" \
    "$(awk '$1 == "groups" { print $2; exit }' "$work/output")" "$high"
done
exit "$status"
