# What the program is made of, for ./rsml, tools/release.sh and tools/definitions_sum.sh, each of which reads this file at the
# top of the repository.

# The crates, each behind those that it uses.
crates() {
    awk '
        { sub(/#.*/, "") }
        /:/ { name = $0; sub(/ *:.*/, "", name); uses = $0; sub(/[^:]*:/, "", uses); below[name] = uses }
        function visit(name, words, count, at) {
            if (!(name in below) || name in seen) return
            seen[name] = 1
            count = split(below[name], words)
            for (at = 1; at <= count; at++) visit(words[at])
            print name
        }
        END { visit("rsml_main") }' crates.txt
}

# The folders of their code and their definitions. Proofs are no part of what is promised of the program.
source_folders() {
    for name in $(crates); do
        for folder in "crates/$name/src" "crates/$name/specs"; do
            [ ! -d "$folder" ] || echo "$folder"
        done
    done
}

# The sum of these crates with their code and their definitions: 64 hexadecimal digits.
sum_of_sources() {
    {
        crates
        find $(source_folders) -type f \( -name '*.rt' -o -name '*.antt' \) | LC_ALL=C sort | xargs sha256sum
    } | sha256sum | cut -d ' ' -f 1
}

# Writes dist/SHA256SUMS: the sums of all other files there.
sum_released() {
    sums=$(cd dist && find -- * -type f ! -name SHA256SUMS | LC_ALL=C sort | xargs sha256sum) && printf '%s\n' "$sums" >dist/SHA256SUMS
}

# Whether the files of dist/ are those that its list of sums names, the program among them.
released_is_whole() {
    (cd dist && grep -q '^[0-9a-f]*  rsml-x86_64-linux$' SHA256SUMS && sha256sum -c SHA256SUMS) >/dev/null 2>&1
}
