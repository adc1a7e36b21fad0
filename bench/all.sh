#!/usr/bin/env bash
# Runs the benchmarks of this folder, and prints a line for each task: bench/all.sh [NAME..]
# A NAME is that of a script, as check or diagrams; without names all run. A line has the task, what is measured of ours and of the peer,
# their ratio, and the aim: the most that the ratio may be, or what ours may be where the aim has a unit. A dash stands where there is
# none, and `missed` behind an aim that is not reached. Above the table stand the date, the machine and the toolchain. bench/README.md
# tells what each script measures.
# PROGRAM=FILE takes a program that is built already, for those that run the whole program. Nothing is installed: where a peer is missing,
# a line says so. The status is 1 where a script fails or a peer is missing, and 2 where a NAME is none.
set -u
[ -z "${PROGRAM:-}" ] || { PROGRAM=$(realpath "$PROGRAM"); export PROGRAM; }
cd "$(dirname "$0")/.." || exit 2
names=(reading rules event_files diagrams guards clusters check simulate demo migrate)
work=$(mktemp -d)
trap 'rm -rf "$work"' EXIT

# known NAME: whether it is that of a script.
known() { [[ " ${names[*]} " == *" $1 "* ]]; }

# about: the date, the machine and the toolchain.
about() {
  printf 'date        %s\n' "$(date -u '+%Y-%m-%d %H:%M UTC')"
  printf 'processor   %s\n' "$(sed -n 's/^model name\s*: //p' /proc/cpuinfo | head -n 1)"
  printf 'processors  %s\n' "$(getconf _NPROCESSORS_ONLN)"
  printf 'memory      %s\n' "$(awk '/^MemTotal/ { printf "%.0f GB", $2 / 1e6 }' /proc/meminfo)"
  printf 'load        %s\n' "$(cut -d ' ' -f 1-3 /proc/loadavg)"
  printf 'toolchain   %s\n' "$(rt version)"
}

# run NAME: the lines of a script, and where it fails its status and the last line that it has printed.
run() {
  local status=0
  SHARES=no "bench/$1.sh" > "$work/output" 2>&1 || status=$?
  awk -v script="$1" -f bench/all.awk "$work/output"
  [ "$status" -eq 0 ] || printf '%s: status %s: %s\n' "$1" "$status" "$(tail -n 1 "$work/output")"
  return "$status"
}

for name in "$@"; do
  known "$name" || { echo "no script of this name: $name; there are ${names[*]}"; exit 2; }
done
[ $# -eq 0 ] || names=("$@")
about
echo
awk -v script=head -f bench/all.awk /dev/null
failed=0
for name in "${names[@]}"; do
  run "$name" || failed=1
done
exit "$failed"
