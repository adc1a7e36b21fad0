# Proving and building the program, for ./rsml, which reads this file and gives it `here`, `program`, `log` and `say`.

# Tells each crate that the build has come to since the last time.
seen=' summary '
told=0
tell() {
    for name in $(sed -n 's/^== \([a-z_]*\)$/\1/p; s/^rt: chose .* for \([a-z_]*\)$/\1/p' "$log"); do
        case $seen in *" $name "*) continue ;; esac
        seen="$seen$name " told=$((told + 1))
        say "crate $told of $total: $name"
    done
}

# Runs rt on these words in the folder of the program. What it says goes to the log.
toolchain() {
    (cd "$program" && exec rt "$@") </dev/null >>"$log" 2>&1 &
    running=$!
    while kill -0 "$running" 2>/dev/null; do
        sleep 1
        tell
    done
    wait "$running"
}

# Proves the crates, as many side by side as there are processors and memory, each as soon as those that it uses are proved, and
# builds the program. What is proved is kept, also where the build is interrupted.
prove() {
    processors=$(getconf _NPROCESSORS_ONLN 2>/dev/null || echo 1)
    # A proof takes up to 4 GB.
    room=$(awk '/^MemAvailable/ { print int($2 / 4000000) }' /proc/meminfo 2>/dev/null || echo 1)
    [ "$room" -ge "$processors" ] || processors=$((room > 1 ? room : 1))
    toolchain all check --jobs "$processors" || return
    # A run with no words is wrong use of rsml, and leaves the program built.
    toolchain run --
    [ $? -eq 4 ]
}

build() {
    mkdir -p "$program/out" && : >"$log" || exit 125
    total=$(cd "$here" && . tools/sources.sh && crates | wc -l)
    total=$((total))
    say "proving and building the program. This happens once."
    running=
    trap 'kill "$running" 2>/dev/null; exit 125' HUP INT TERM
    prove || {
        say "the program could not be built. The last lines of $log:"
        tail -n 20 "$log" >&2
        exit 125
    }
    trap - HUP INT TERM
}
