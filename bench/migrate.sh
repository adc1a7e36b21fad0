#!/usr/bin/env bash
# `migrate` against `format`, on a text of a million bytes that holds the names previous_1, previous_2, .. and no others:
# the time of the program in milliseconds, least of fifteen, and the ratio. Answers are compared: `migrate` of a text without the
# name `previous` writes what `format` writes. PROGRAM=FILE takes a program that is built already.
set -u
cd "$(dirname "$0")/.." || exit 1
[ -n "${PROGRAM:-}" ] || RSML_PROGRAM=proved ./rsml format examples/lamp.rsml >/dev/null || exit 1
program=${PROGRAM:-crates/rsml_main/out/rsml_main}
folder=$(mktemp -d) || exit 1
trap 'rm -rf "$folder"' EXIT

# A specification with an enumeration of 66,000 such names; a line before it is given.
text() {
    printf 'specification Names;\n%s' "$1"
    awk 'BEGIN { printf "enumeration Many { "; for (n = 1; n <= 66000; n++) printf "previous_%d, ", n; print "Last }\nstate Top;" }' | sed 's/, /,/g'
}
text '' >"$folder/without"
text 'event previous;
' >"$folder/with"

# The least of fifteen times, in microseconds.
least() {
    for _ in $(seq 15); do
        start=$(date +%s%N)
        "$program" "$@" >/dev/null
        echo $((($(date +%s%N) - start) / 1000))
    done | sort -n | head -n 1
}

cmp -s <("$program" format "$folder/without") <("$program" migrate "$folder/without") || {
    echo "migrate and format write different layouts"
    exit 1
}
format=$(least format "$folder/without")
migrate=$(least migrate "$folder/with")
awk -v f="$format" -v m="$migrate" -v s="$(stat -c %s "$folder/with")" \
    'BEGIN { printf "%d bytes: format %.1f ms, migrate %.1f ms, ratio %.2f\n", s, f / 1000, m / 1000, m / f }'
