#!/usr/bin/env bash
# Tests the page: web/test.sh [PAGE.html [PROGRAM [FOLDER]]]
#
# PAGE.html is dist/rsml.html where none is named. With PROGRAM, the program for this machine (crates/rsml_main/out/rsml_main where it is
# there), the page's program is compared with it on all texts of examples/ and tests/; without it with the stored answers. Pictures of the
# page come into FOLDER. It needs node, version 20.11 or newer, and python3. What is asked of a browser needs Chromium, which CHROMIUM may
# name, and is left out where there is none; PARTS may name some parts of that. The last line tells which parts passed.
set -u
export LC_ALL=C
cd "$(dirname "$0")/.." || exit 2
page=${1-dist/rsml.html} program=${2-} shots=${3-}
[ -n "$program" ] || { [ ! -x crates/rsml_main/out/rsml_main ] || program=crates/rsml_main/out/rsml_main; }
for it in node python3; do command -v "$it" >/dev/null || { echo "web/test.sh: $it is missing" >&2; exit 2; }; done
[ -f "$page" ] || { echo "web/test.sh: $page is missing: tools/page.sh builds it" >&2; exit 2; }
room=$(mktemp -d) || exit 2
trap 'rm -rf "$room"' EXIT
passed='' failed=''
try() {
    name=$1
    shift
    if "$@"; then passed="$passed $name"; else failed="$failed $name"; fi
}

node --input-type=module -e "
import { readFileSync, writeFileSync } from 'node:fs';
import { partOf } from './web/tests/checks.mjs';
writeFileSync(process.argv[2], partOf(readFileSync(process.argv[1], 'utf8'), 'module'));" "$page" "$room/rsml.wasm" || exit 2
try units node web/tests/units.mjs
[ -n "$program" ] || echo "web/test.sh: there is no program for this machine; the page's is compared with the stored answers"
try bytes node web/tests/bytes.mjs "$room/rsml.wasm" ${program:+"$program"}
try reading node web/tests/reading.mjs "$page"
if [ -n "$(node --input-type=module -e "import { chromium } from './web/tests/chromium.mjs'; console.log(chromium)")" ]; then
    [ -z "$shots" ] || mkdir -p "$shots"
    try page node web/tests/page.mjs "$page" ${shots:+"$shots"}
else
    echo "web/test.sh: there is no Chromium (Debian's package chromium, or CHROMIUM=PROGRAM), so the page itself was not tried" >&2
fi
echo "passed:${passed:- none}; failed:${failed:- none}"
[ -z "$failed" ]
