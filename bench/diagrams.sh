#!/usr/bin/env bash
# Compares the arena of bdd_core with BuDDy on the same work: bench/diagrams.sh [ROUNDS [TASK..]]
# Each task runs ROUNDS times (3) in each program, one after the other, and the least time counts. A task is queens=N,
# equal=N, tables=N, forget=N or singly=N (what is left of tables=N where thirty levels are forgotten, five at a time, or one
# by one). BuDDy makes its tables before its time begins, for 20,000,000 nodes and 2,000,000 results, and never
# reorders; the arena grows by itself, and its time has the making of the arena and the count of the answer's nodes too. The
# sizes of the answers are compared. The last columns are the arena's greatest resident memory, and that for each node.
# It needs BuDDy (Debian: libbdd-dev) and a C compiler, and installs nothing: without them it ends with status 2.
set -u
here=$(cd "$(dirname "$0")" && pwd)
rounds=${1:-3}
shift $(($# > 0 ? 1 : 0))
tasks=("$@")
[ ${#tasks[@]} -gt 0 ] || tasks=(queens=8 queens=9 queens=10 equal=16 equal=19 tables=6 tables=8 forget=5 forget=6 singly=5 singly=6)
work=$(mktemp -d)
trap 'rm -rf "$work"' EXIT

if ! cc -O3 -o "$work/buddy" "$here/buddy.c" -lbdd 2>"$work/cc.log"; then
  head -n 3 "$work/cc.log"
  echo "BuDDy is not there: install a C compiler and libbdd-dev (apt-get install gcc libbdd-dev), and run this again"
  exit 2
fi

(cd "$here/../crates/bdd_bench" && rt run -- queens=4) >"$work/build.log" 2>&1 ||
  { tail -n 5 "$work/build.log"; exit 1; }
cp "$here/../crates/bdd_bench/out/bdd_bench" "$work/arena"

echo "BuDDy's tables are made before its time begins; the arena makes its own within its time"

# field NAME: the number that follows a word in a line
field() { sed -n "s/.* $1 \([0-9]*\).*/\1/p"; }

# least A B: the lesser of two numbers, where the first may be empty
least() { if [ -z "$1" ] || [ "$2" -lt "$1" ]; then echo "$2"; else echo "$1"; fi; }

printf '%-10s %10s %10s %10s %7s %10s %7s\n' task nodes 'arena s' 'BuDDy s' ratio kilobytes B/node
for task in "${tasks[@]}"; do
  ours='' theirs='' kilobytes='-' bytes='-'
  for _ in $(seq "$rounds"); do
    if [ -x /usr/bin/time ]; then
      line=$(/usr/bin/time -o "$work/memory" -f %M "$work/arena" seconds "$task")
      kilobytes=$(tail -n 1 "$work/memory")
    else
      line=$("$work/arena" seconds "$task")
    fi
    nodes=$(echo "$line" | field nodes)
    ours=$(least "$ours" "$(echo "$line" | field microseconds)")
    peer=$("$work/buddy" "$task")
    theirs=$(least "$theirs" "$(echo "$peer" | field microseconds)")
    if [ "$(echo "$line" | field size)" != "$(echo "$peer" | field size)" ]; then
      printf '%s: the answers have other sizes:\n%s\n%s\n' "$task" "$line" "$peer"
      exit 1
    fi
  done
  [ "$kilobytes" = - ] || bytes=$(awk "BEGIN { printf \"%.1f\", $kilobytes * 1024 / $nodes }")
  ratio=$(awk "BEGIN { printf \"%.2f\", $ours / $theirs }")
  printf '%-10s %10s %10s %10s %7s %10s %7s\n' "$task" "$nodes" "$(awk "BEGIN { printf \"%.3f\", $ours / 1e6 }")" \
    "$(awk "BEGIN { printf \"%.3f\", $theirs / 1e6 }")" "$ratio" "$kilobytes" "$bytes"
done
