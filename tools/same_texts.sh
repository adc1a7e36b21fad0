#!/bin/sh
# Tells where what PROGRAM writes of the whole specifications among the examples differs from what is stored beside them.
#
#     tools/same_texts.sh PROGRAM         compares the reports, the explanations, the traces and the proofs of each folder of examples/
#     tools/same_texts.sh PROGRAM check   compares all but the traces and the proofs
#
# In a folder NAME with a file NAME.rsml these are NAME.report and mistaken.report, of NAME.rsml and mistaken.rsml, NAME.explained and
# mistaken.explained, what `explain` writes of the two, and NAME.trace, of NAME.rsml with NAME.events. Where there are claims, NAME.proof is
# what `prove` writes of NAME.rsml with NAME.claims, and where there is a file unseen.rsml, unseen.proof what `explain prove` writes of it
# with them. The last line is `N texts same, M different`.
set -u
case ${1:?"PROGRAM is missing"} in
    /*) program=$1 ;;
    *) program=$PWD/$1 ;;
esac
commands=${2:-all}
cd "$(dirname "$0")/../examples" || exit 2
work=$(mktemp -d) || exit 2
trap 'rm -rf "$work"' EXIT
same=0
different=0

# compare TEXT STATUS WORD..: whether PROGRAM with these words writes a stored text, and ends with a status.
compare() {
    text=$1
    wanted=$2
    shift 2
    "$program" "$@" > "$work/text" 2> "$work/error"
    status=$?
    if [ $status -eq "$wanted" ] && cmp -s "$text" "$work/text"; then
        same=$((same + 1))
    else
        different=$((different + 1))
        printf 'examples/%s: `%s` has status %s, wanted %s\n' "$text" "$*" $status "$wanted"
        diff "$text" "$work/text" | head -n 10
        head -n 3 "$work/error"
    fi
}

for folder in */; do
    name=${folder%/}
    [ -f "$name/$name.rsml" ] || continue
    compare "$name/$name.report" 0 check "$name/$name.rsml"
    compare "$name/mistaken.report" 1 check "$name/mistaken.rsml"
    compare "$name/$name.explained" 0 explain "$name/$name.rsml"
    compare "$name/mistaken.explained" 1 explain "$name/mistaken.rsml"
    if [ -f "$name/$name.claims" ] && [ "$commands" != check ]; then
        compare "$name/$name.proof" 0 prove "$name/$name.rsml" "$name/$name.claims"
    fi
    if [ -f "$name/unseen.rsml" ] && [ "$commands" != check ]; then
        compare "$name/unseen.proof" 1 explain prove "$name/unseen.rsml" "$name/$name.claims"
    fi
    [ "$commands" = check ] || compare "$name/$name.trace" 0 simulate "$name/$name.rsml" "$name/$name.events"
done
printf '%s texts same, %s different\n' $same $different
[ $different -eq 0 ]
