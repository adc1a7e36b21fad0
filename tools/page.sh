#!/usr/bin/env bash
# Makes of the program one page that runs in a browser by itself.
#
#     tools/page.sh [OUT.html]                         of the program that ./rsml or the gate has built; OUT.html is dist/rsml.html,
#                                                     whose sum then goes into dist/SHA256SUMS
#     tools/page.sh --trial MODULE PROGRAM OUT.html    of a module (.bc or .ll) and the program for this machine that is built of it,
#                                                      proved or not: the page says that it is a trial
#
# The toolchain builds crates/rsml_main once more over the libraries that are there, which proves nothing anew where ./rsml has just been
# called, with a compiler that keeps the module which it is given. The object file that falls out has to be that of the program. The module
# is then said to be for WebAssembly with addresses of 64 bits, compiled by the same compiler, and linked with web/host_wasm.c; wasm-opt
# brings the addresses to 32 bits, which every browser runs. What it writes is compared with the program on all texts of examples/ and
# tests/, and web/build.py puts it into the page with the examples. The same inputs give the same bytes.
#
# It needs rt with its clang and lld, wasm-opt of binaryen, node and python3. It stands outside the gate.
set -euo pipefail
export LC_ALL=C
cd "$(dirname "$0")/.."
. tools/sources.sh
top=$PWD crate=rsml_main
folder=$top/crates/$crate

stop() { printf 'page.sh: %s\n' "$*" >&2; exit 1; }
say() { printf 'page.sh: %s\n' "$*" >&2; }
sum() { sha256sum "$1" | cut -d ' ' -f 1; }

for it in rt:"the toolchain" wasm-opt:"Debian's package binaryen" node:"Debian's package nodejs" python3:"Debian's package python3"; do
    command -v "${it%%:*}" >/dev/null || stop "${it%%:*} is missing; it comes with ${it#*:}"
done
kit=$(dirname "$(rt doc)")
tools=$kit/toolchain/bin
for it in clang ld.lld; do [ -x "$tools/$it" ] || stop "the toolchain lacks $it"; done
room=$(mktemp -d)
trap 'rm -rf "$room"' EXIT

# Builds the program anew, and keeps its module.
build() {
    [ -f "$folder/out/$crate.o" ] && [ -x "$folder/out/$crate" ] || stop "the program is not built: call ./rsml first"
    mkdir "$room/toolchain" "$room/toolchain/bin"
    ln -s "$kit/toolchain/lib" "$room/toolchain/lib"
    for it in "$tools"/*; do [ "${it##*/}" = clang ] || ln -s "$it" "$room/toolchain/bin/"; done
    printf '#!/bin/sh\n[ ! -f module.bc ] || cp module.bc "%s/module.bc"\nexec "%s/clang" "$@"\n' "$room" "$tools" >"$room/toolchain/bin/clang"
    chmod +x "$room/toolchain/bin/clang"
    words=()
    for it in std $(sed -n "s/#.*//; s/^$crate *: *//p" crates.txt); do
        library=$top/crates/$it/out/rlib/$it.rlib
        [ -d "$library" ] || library=$kit/rlibs/$it.rlib
        words+=(--extern "$it=$library")
    done
    for it in "$top"/crates/*/out/rlib "$kit/rlibs"; do words+=(-L "dependency=$it"); done
    (cd "$folder" && "$kit/bin/rattle" build --crate-name "$crate" src/main.rt "${words[@]}" --links "$crate=" \
        --antt-project "$kit/rattle/logic/antt-project.json" --logic-built "$kit/logic_built" --incremental out/incremental \
        --backend llvm --toolchain "$room/toolchain" -o "$room/program.o") >&2
    cmp "$room/program.o" "$folder/out/$crate.o" || stop "the object file that was built is not that of the program"
    say "the object file is that of the program"
    [ -f "$room/module.bc" ] || stop "the toolchain called its compiler without a module"
}

# retarget FILE: the module as one for WebAssembly, in $room/module.ll.
retarget() {
    case $1 in
        *.ll) cp "$1" "$room/module.ll" ;;
        *) "$tools/clang" --target=x86_64-unknown-linux-gnu -S -emit-llvm -Xclang -disable-llvm-passes -x ir "$1" -o "$room/module.ll" ;;
    esac
    if grep -q '@llvm\.x86\| asm ' "$room/module.ll"; then stop "the module has code for x86-64 alone"; fi
    layout=e-m:e-p:64:64-p10:8:8-p20:8:8-i64:64-i128:128-n32:64-S128-ni:1:10:20
    sed -i -E -e "s/^target datalayout = .*/target datalayout = \"$layout\"/" -e 's/^target triple = .*/target triple = "wasm64-unknown-unknown"/' \
        -e '/^attributes #/{s/"probe-stack"="inline-asm" "stack-probe-size"="[0-9]+" //; s/"target-cpu"="[^"]*"/"no-builtin-bcmp" "no-builtin-memcmp" "no-builtin-strlen" "target-cpu"="lime1"/}' \
        "$room/module.ll"
}

# Compiles the module and its host, and links them to $room/rsml.wasm.
compile() {
    flags=(--target=wasm64-unknown-unknown -mcpu=lime1 -mllvm -expand-div-rem-bits=64 -mllvm -expand-fp-convert-bits=64 -ffunction-sections
        -fdata-sections -mllvm -trap-unreachable -mllvm -disable-machine-licm -mllvm -sink-common-insts=false --no-default-config -Werror -c)
    "$tools/clang" "${flags[@]}" -O3 -Xclang -fmerge-functions -x ir "$room/module.ll" -o "$room/module.o"
    "$tools/clang" "${flags[@]}" -O2 -Wall -fwrapv -ffreestanding -fno-builtin -nostdinc -x c web/host_wasm.c -o "$room/host.o"
    exports=()
    for it in room word file run output output_size; do exports+=("--export=$it"); done
    "$tools/ld.lld" -flavor wasm -mwasm64 --no-entry --gc-sections --strip-all "${exports[@]}" -z stack-size=8388608 --stack-first \
        -o "$room/wide.wasm" "$room/module.o" "$room/host.o"
    wasm-opt --enable-memory64 --enable-bulk-memory --enable-sign-ext --enable-nontrapping-float-to-int --enable-mutable-globals \
        --enable-multivalue --memory64-lowering "$room/wide.wasm" -o "$room/rsml.wasm"
}

if [ "${1-}" = --trial ]; then
    [ $# -eq 4 ] || stop "--trial takes a module, a program and the page"
    module=$(realpath "$2") program=$(realpath "$3") out=$4
    origin="This page is a trial. Its module was not made of the proved program of its repository."
    object="none: a trial"
else
    out=${1-dist/rsml.html}
    build
    module=$room/module.bc program=$folder/out/$crate
    origin="The module of this page is compiled from the proved code."
    object="SHA-256 $(sum "$folder/out/$crate.o")"
fi
say "compiling: a minute or two"
retarget "$module"
compile
say "comparing with the program"
compared=$(node web/tests/bytes.mjs "$room/rsml.wasm" "$program") || { printf '%s\n' "$compared" >&2; stop "the module does not write what the program writes"; }
say "$compared"
version=$(sed -n 's/^## \([0-9][0-9.]*\).*/\1/p' CHANGELOG.md | head -n 1)
python3 - "$room/facts.json" "$origin" "$compared" "rsml $version" "$(rt version)" "$object" <<'END'
import json, sys
out, origin, compared, about, toolchain, built = sys.argv[1:]
claim = f"{origin} It was compared with the program: {compared} Nothing is proved of it in the browser."
with open(out, "w") as it:
    json.dump({"about": about, "claim": claim, "toolchain": toolchain, "object": built}, it)
END
mkdir -p "$(dirname "$out")"
python3 web/build.py "$room/rsml.wasm" "$room/facts.json" "$out"
[ "$out" != dist/rsml.html ] || sum_released
