#!/usr/bin/env bash
# Whole checks of specifications in which many cells meet in sums: bench/clusters.sh [TURNS [FAMILY..]]
# A line for each family of bench/families.sh, or each FAMILY, at each of its sizes, certified and mistaken: its bytes and groups, how many
# groups are not sound, the milliseconds of processor time of `check` (the least of TURNS (1) runs), its greatest resident memory, those of
# z3 with the script of bench/smt.py, and the ratio. Where z3 is not installed there are dashes. A check or z3 that takes more than LIMIT
# (60) seconds of processor time is stopped and told as `time`; a check that has no memory left, of MEMORY (8) GB, as `memory`. Larger
# sizes of the family are left out then.
# Where z3 is there its answers are compared with the report, group by group. The status is 1 where one differs, or where a certified one
# is refused or a mistaken one certified. PROGRAM=FILE takes a program that is built already.
set -eu
cd "$(dirname "$0")/.."
turns=${1:-1}
shift $(($# > 0 ? 1 : 0))
TIMEFORMAT='%3U %3S'
limit=${LIMIT:-60}
most=$((${MEMORY:-8} * 1000000))
work=$(mktemp -d)
trap 'rm -rf "$work"' EXIT
source bench/stages.sh
source bench/families.sh

# The names of the families, and the sizes of each. Sums have eight terms at most, and guards a bounded number of columns.
names=()
declare -A sizes_of
family() { names+=("$1"); sizes_of[$1]="${*:2}"; }
for name in battery cascade rates feeders votes relief budget pumps supplies flows bands timers windows braking altitudes middles identities; do
  family "$name" 2 4 8 16 30
done
family agreement 2 3 4 5 6 8
family greatest 2 4 6 8
family grid 2 3 4 8
family halls 2 8 20
family districts 2 8 20
[ $# -eq 0 ] || names=("$@")

take_program
with_peer=no
! command -v z3 > "$work/found" || with_peer=yes

# limited COMMAND..: runs a command within the limits. Its greatest resident memory goes to $work/memory.
limited() { (ulimit -t "$limit" -v "$most"; exec /usr/bin/time -q -o "$work/memory" -f %M "$@"); }

# taken OUTPUT COMMAND..: the least milliseconds of processor time of `turns` runs of a command, or what stopped it.
taken() {
  local output=$1 status spent least=
  shift
  for _ in $(seq "$turns"); do
    status=0
    spent=$({ time { limited "$@" > "$output" 2> "$work/error"; }; } 2>&1) || status=$?
    case $status in
      0 | 1) ;;
      7) echo memory; return ;;
      *) if [ "$status" -ge 128 ]; then echo time; else echo "status $status"; fi; return ;;
    esac
    spent=$(awk '{ printf "%.0f", ($1 + $2) * 1000 }' <<< "${spent##*$'\n'}")
    [ -n "$least" ] && [ "$spent" -ge "$least" ] || least=$spent
  done
  echo "$least"
}

# ended TIME: whether it is one, and not what stopped a command.
ended() { [[ $1 =~ ^[0-9] ]]; }

# beside TEXT: the milliseconds of z3 on the questions of a text.
beside() {
  python3 bench/smt.py "$1" numbers > "$work/questions"
  taken "$work/answers" z3 "$work/questions"
}

# agrees: whether z3 answers what the report says.
agrees() { python3 bench/smt.py --compare "$work/questions" "$work/answers" "$work/report" > "$work/compared"; }

# line FAMILY SIZE KIND: the line of one specification. `done_with` is set where it did not end.
line() {
  local text="$work/text" peer=- ratio=- groups=- unsound=- memory=- ours
  "$1" "$2" "${3#certified}" > "$text"
  ours=$(taken "$work/report" "$program" check "$text")
  if ended "$ours"; then
    groups=$(sed -n 's/^groups //p' "$work/report")
    unsound=$(grep -cE '^(none|two) ' "$work/report" || true)
    memory=$(tail -n 1 "$work/memory" | awk '{ printf "%.0f", $1 / 1024 }')
    if [ "$3" = certified ]; then [ "$unsound" = 0 ]; else [ "$unsound" != 0 ]; fi || { echo "$1 $2 $3: $unsound unsound"; failed=1; }
  else
    done_with=yes
  fi
  [ "$with_peer" = no ] || peer=$(beside "$text")
  if ended "$ours" && ended "$peer"; then
    ratio=$(awk -v ours="$ours" -v peer="$peer" 'BEGIN { printf "%.3f", (peer > 0 ? ours / peer : 0) }')
    agrees || { sed "s/^/$1 $2 $3: /" "$work/compared"; failed=1; }
  fi
  # shellcheck disable=SC2059
  printf "$format" "$1" "$2" "$3" "$(stat -c %s "$text")" "$groups" "$unsound" "$ours" "$memory" "$peer" "$ratio"
}

format='%-12s %5s %-10s %7s %7s %8s %10s %6s %10s %8s\n'
# shellcheck disable=SC2059
printf "$format" family size kind bytes groups unsound check MB z3 ratio
failed=0
for name in "${names[@]}"; do
  [ -n "${sizes_of[$name]:-}" ] || { echo "$name: no such family"; exit 1; }
  for kind in certified mistaken; do
    done_with=no
    for size in ${sizes_of[$name]}; do
      [ "$done_with" = yes ] || line "$name" "$size" "$kind"
    done
  done
done
exit "$failed"
