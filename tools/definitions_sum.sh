#!/bin/sh
# The sum of the definitions: a SHA-256 over the files crates/*/specs/**/*.antt of the crates that the program is made of.
#
#     tools/definitions_sum.sh         prints it: 64 hexadecimal digits
#     tools/definitions_sum.sh check   compares it with the one in crates/rsml/src/version.rt, which `rsml version` prints
#
# It is the sum of the lines that sha256sum writes of these files at the top of the repository, in the order of their paths.
set -u
cd "$(dirname "$0")/.." || exit 2
. tools/sources.sh
sum=$(find $(source_folders | grep '/specs$') -type f -name '*.antt' | LC_ALL=C sort | xargs sha256sum | sha256sum | cut -d ' ' -f 1)
case $#:${1-} in
0:)
    echo "$sum"
    ;;
1:check)
    source=crates/rsml/src/version.rt
    if [ ! -f "$source" ]; then
        echo "definitions_sum: there is no $source: not checked"
    elif [ "$(grep -o -w -E '[0-9a-f]{64}' "$source")" = "$sum" ]; then
        echo "definitions_sum: $source has the sum of the definitions"
    else
        echo "definitions_sum: the sum of the definitions is $sum, and $source has $(grep -o -w -E '[0-9a-f]{64}' "$source" || echo none)"
        exit 1
    fi
    ;;
*)
    sed -n '2,7s/^# \{0,1\}//p' "$0"
    exit 2
    ;;
esac
