#!/usr/bin/env bash
# The released program, dist/, which ./rsml runs where nothing was built: the very file that the gate links, what it is of, and sums.
#
#     tools/release.sh             makes dist/ of the program that a passed gate (.ci/run) left, without the page, which tools/page.sh builds;
#                                  commit the sources first, and dist/ then
#     tools/release.sh check       compares dist/ with the program that was just built, byte for byte, where it is of these sources
#     tools/release.sh pack DIR    writes DIR/rsml-VERSION-x86_64-linux.tar.gz: the program, pages, examples and licenses
#     tools/release.sh passed N    notes that a gate that began N seconds ago has passed on the sources here; .ci/run calls it
#
# The same commit and the same toolchain give the same bytes.
set -euo pipefail
cd "$(dirname "$0")/.."
. tools/sources.sh
export LC_ALL=C
name=rsml-x86_64-linux
built=crates/rsml_main/out/rsml_main
# What the gate says of its program: the sum of its sources. The second one is what ./rsml reads.
gate=$built.gate
sources=$built.sources

fail() {
    printf 'release: %s\n' "$*" >&2
    exit 1
}

# The libraries of the toolchain that the program's crates name.
libraries() {
    crates | sed 's/.*/^&:/' | grep -f - crates.txt | sed 's/#.*//; s/[^:]*://' | tr -s ' ' '\n' | sort -u | while read -r it; do
        [ -z "$it" ] || [ -d "crates/$it" ] || echo "$it"
    done
}

# Writes to a folder the license of the program, and those of the libraries of the toolchain that are compiled into it.
licenses() {
    local kit it file
    kit=$(dirname "$(rt doc)")/rattle
    install -m 644 LICENSE "$1/rsml-LICENSE"
    for it in $(libraries); do
        for file in "$kit/$it"/LICENSE*; do
            [ -f "$file" ] || fail "the toolchain has no license of its library $it"
            install -m 644 "$file" "$1/$it-${file##*/}"
        done
    done
    notices "$kit" >"$1/standard-library-NOTICES"
}

# The standard library has no file with its license. These are the notices in its sources: of a file with one, its first comment.
notices() {
    local file
    echo "The toolchain has no license text for its standard library. The notices that stand in its sources:"
    (cd "$1" && grep -rliE 'licen[cs]e' --include='*.rt' core std std_* io os || true) | sort | while read -r file; do
        printf '\n%s\n\n' "$file"
        awk '/^\/\// { print; seen = 1; next } /^$/ && !seen { next } { exit }' "$1/$file"
    done
}

make_dist() {
    local version definitions said sum newest
    version=$(sed -n 's/^## \([0-9][0-9.]*\).*/\1/p' CHANGELOG.md | head -n 1)
    sum=$(sum_of_sources)
    [ -x "$built" ] || fail "there is no $built: run .ci/run first"
    if [ ! -f "$gate" ] || [ "$built" -nt "$gate" ] || [ "$(cat "$gate")" != "$sum" ]; then
        fail "the gate has not passed on these sources: run .ci/run first"
    fi
    [ -z "$(git status --porcelain -- crates crates.txt CHANGELOG.md LICENSE)" ] || fail "commit the sources first"
    definitions=$(tools/definitions_sum.sh)
    said=$("$built" version) || true
    case $said in
    "rsml $version "*"definitions $definitions") ;;
    *) fail "CHANGELOG.md has version $version, the definitions have the sum $definitions, and the program says: $said" ;;
    esac
    newest=$({ grep -a -o 'GLIBC_2\.[0-9]*' "$built" || true; } | sed 's/.*\.//' | sort -n | tail -n 1)
    [ "${newest:-0}" -le 34 ] || fail "the program needs the GNU C library 2.$newest, and the pages say 2.34"
    rm -rf dist
    mkdir -p dist/licenses
    install -m 755 "$built" "dist/$name"
    echo "$version" >dist/VERSION
    echo "$sum" >dist/SOURCES
    rt version >dist/TOOLCHAIN
    licenses dist/licenses
    sum_released
    echo "release: dist/ is $version, of the sources $sum"
}

check_dist() {
    if [ ! -e "dist/$name" ]; then
        echo "release: dist/ has no released program: not compared"
        return
    fi
    released_is_whole || fail "dist/ is damaged: its files are not those of dist/SHA256SUMS"
    if [ "$(cat dist/SOURCES)" != "$(sum_of_sources)" ]; then
        echo "release: dist/ is $(cat dist/VERSION), of other sources than these: not compared"
    elif cmp -s "$built" "dist/$name"; then
        echo "release: dist/$name is, byte for byte, what was built of these sources"
    elif [ "$(rt version)" != "$(cat dist/TOOLCHAIN)" ]; then
        echo "release: dist/ was built by $(cat dist/TOOLCHAIN), and this is $(rt version), which builds other bytes: not compared"
    else
        fail "dist/$name is not what was built of these sources: make it anew by tools/release.sh"
    fi
}

# The program stands where ./rsml does in the repository, so that the pages are right here too.
pack() {
    local version whole made
    released_is_whole || fail "dist/ is damaged or not there"
    version=$(cat dist/VERSION)
    whole=$room/rsml-$version
    made=$1/rsml-$version-x86_64-linux.tar.gz
    mkdir -p "$1" "$whole"
    git archive HEAD README.md CHANGELOG.md LICENSE ci docs editors examples man | tar -xf - -C "$whole"
    cp -R dist/VERSION dist/SOURCES dist/TOOLCHAIN dist/licenses "$whole"
    install -m 755 "dist/$name" "$whole/rsml"
    tar --sort=name --mtime="@$(git log -1 --format=%ct)" --owner=0 --group=0 --numeric-owner --mode=u+w,go-w,a+rX \
        -C "$room" -cf - "rsml-$version" | gzip -9n >"$made"
    sha256sum "$made"
}

# A source that changed while the gate ran may not be in what it proved.
note_passed() {
    local changed
    changed=$(find crates.txt $(source_folders) -newerct "$1 seconds ago" -print -quit)
    if [ -n "$changed" ]; then
        echo "release: $changed changed while the gate ran: its program is not noted as that of these sources"
    else
        sum_of_sources | tee "$gate" >"$sources"
    fi
}

room=$(mktemp -d)
trap 'rm -rf "$room"' EXIT
case $#:${1-} in
0:) make_dist ;;
1:check) check_dist ;;
2:pack) pack "$2" ;;
2:passed) note_passed "$2" ;;
*)
    sed -n '2,10s/^# \{0,1\}//p' "$0"
    exit 2
    ;;
esac
