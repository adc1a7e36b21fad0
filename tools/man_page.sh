#!/bin/sh
# Tells what `man` warns of in the manual page; the status is 1 where it does. Where there is no man, or none that knows this
# word, nothing is checked.
cd "$(dirname "$0")/.." || exit 2
if ! command -v man >/dev/null 2>&1 || ! man --help 2>/dev/null | grep -q -e --warnings; then
    echo "man_page: no man that warns is here: not checked"
    exit 0
fi
warned=$(man --warnings -E UTF-8 -l -Tutf8 -Z man/rsml.1 2>&1 >/dev/null)
if [ -n "$warned" ]; then
    printf '%s\n' "$warned"
    exit 1
fi
echo "man_page: no warnings"
