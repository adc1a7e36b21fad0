# shellcheck shell=bash
# What the scripts share that measure named texts within limits, beside z3 where it is there: LIMIT (60) seconds, and MEMORY (8) GB.
work=$(mktemp -d)
trap 'rm -rf "$work"' EXIT
source bench/stages.sh
source bench/texts.sh
with_peer=no
! command -v z3 > "$work/found" || with_peer=yes

# The names of the specifications, and how each is written.
names=()
declare -A written_by
text() { names+=("$1"); written_by[$1]="${*:2}"; }

limit=${LIMIT:-60}
most=$((${MEMORY:-8} * 1000000))

# limited COMMAND..: the least milliseconds of `turns` runs within the limits, or what stopped it. What it writes goes to $work/written.
limited() {
  local status=0 start least=
  for _ in $(seq "$turns"); do
    start=$(date +%s%N)
    (ulimit -v "$most"; exec timeout "$limit" /usr/bin/time -q -o "$work/memory" -f %M "$@") > "$work/written" 2> "$work/error" || status=$?
    case $status in
      0 | 1) start=$(($(date +%s%N) - start)) ;;
      124) echo time; return ;;
      *) echo memory; return ;;
    esac
    [ -n "$least" ] && [ "$start" -ge "$least" ] || least=$start
  done
  awk -v t="$least" 'BEGIN { printf "%.1f", t / 1e6 }'
}

ratio() { awk -v one="$1" -v other="$2" 'BEGIN { if (one + 0 > 0 && other + 0 > 0) printf "%.2f", one / other; else printf "-" }'; }
