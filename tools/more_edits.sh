#!/bin/sh
# Tries the edits of these crates that the gate leaves out for the time that they take: each must be refused, as those in must-fail.
#
#     tools/more_edits.sh NAME..     tries crates/NAME/must-fail and crates/NAME/more-edits
#
# It asks for proved libraries below the crates, as `rt must-fail` does. It ends with status 1 where an edit is not refused.
set -u
cd "$(dirname "$0")/.." || exit 2
[ $# -gt 0 ] || { sed -n '2,6s/^# \{0,1\}//p' "$0"; exit 2; }
for name; do
    [ -d "crates/$name" ] || { echo "$0: there is no crate $name" >&2; exit 2; }
done
trap 'rm -f crates/*/must-fail/more-*.edit; rmdir crates/*/must-fail 2> /dev/null' EXIT
trap 'exit 2' INT TERM
for name; do
    for edit in "crates/$name/more-edits"/*.edit; do
        [ -f "$edit" ] || continue
        mkdir -p "crates/$name/must-fail"
        cp "$edit" "crates/$name/must-fail/more-$(basename "$edit")"
    done
done
rt must-fail "$@"
