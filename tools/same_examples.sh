#!/bin/sh
# Tells where a copy of an example differs from its original in examples/.
set -u
cd "$(dirname "$0")/.." || exit 1
status=0
for copy in crates/rsml_main/data/*; do
    original=examples/$(basename "$copy")
    cmp -s "$original" "$copy" || {
        printf '%s differs from %s\n' "$copy" "$original"
        status=1
    }
done
exit $status
