# shellcheck shell=bash
# For scripts that time the program whole and by stages. They set `turns`, and `work`, a folder.

# take_program: `program` is the one that the environment's PROGRAM names, or else is built.
take_program() {
  [ -n "${PROGRAM:-}" ] || RSML_PROGRAM=proved ./rsml format examples/lamp.rsml > /dev/null || exit 1
  program=${PROGRAM:-crates/rsml_main/out/rsml_main}
}

# least COMMAND..: the least milliseconds of `turns` runs of a command. What it writes goes to $work/output.
least() {
  for _ in $(seq "$turns"); do
    start=$(date +%s%N)
    timeout 300 "$@" > "$work/output" || [ $? -le 2 ] || return 1
    echo $(($(date +%s%N) - start))
  done | sort -n | head -n 1 | awk '{ printf "%.2f", $1 / 1e6 }'
}

# megabytes COMMAND..: the greatest resident memory of a run.
megabytes() {
  /usr/bin/time -q -o "$work/memory" -f %M "$@" > /dev/null || true
  tail -n 1 "$work/memory" | awk '{ printf "%.0f", $1 / 1024 }'
}

# with_shares: whether the shares of stages are told: valgrind is there, and SHARES is not `no`.
with_shares() { [ "${SHARES:-}" != no ] && command -v valgrind > /dev/null; }

# shares STAGES WORDS: the shares of these stages in a run, in percent, by the instructions of functions with all that they call.
# `run` comes last, where it is one: then the machine is made twice.
shares() {
  local stages=$1
  shift
  valgrind --tool=callgrind --callgrind-out-file="$work/counts" "$program" "$@" > /dev/null 2>&1 || true
  callgrind_annotate --inclusive=yes --threshold=100 "$work/counts" 2> /dev/null | awk -v stages="$stages" '
    function count(name) { return name in of ? of[name] : 0 }
    function most(one, other) { return count(one) > count(other) ? count(one) : count(other) }
    /PROGRAM TOTALS/ { gsub(",", "", $1); whole = $1; next }
    whole && match($0, /:[a-z_:A-Z]+ \[/) { name = substr($0, RSTART + 1, RLENGTH - 3); gsub(",", "", $1); if (!(name in of)) of[name] = $1 }
    END {
      many = split(stages, names, " ")
      # One of two functions may be built into the other.
      part["reading"] = most("rsml_lexer::lexing::lex", "rsml_lexer::lexing::lex_as") + count("rsml_parser::specification::parse")
      part["rules"] = most("rsml_rules::checking::judge", "rsml_rules::checking::check_rules")
      part["diagrams"] = count("guard_encode::encoder::Encoder::new")
      part["machine"] = count("elaborate::machine::elaborate"); machine = part["machine"] / (names[many] == "run" ? 2 : 1)
      part["groups"] = count("rsml::judging::judge") - part["reading"] - part["rules"] - machine - part["diagrams"]
      part["run"] = count("rsml::demonstrating::summary") - most("rsml::demonstrating::judged_plant", "rsml::judging::judge") - machine
      for (n = 1; n <= many; n++) printf " %7.0f%%", 100 * part[names[n]] / whole
    }'
}
