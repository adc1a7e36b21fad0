# shellcheck shell=bash
# Specifications with claims, for the scripts that measure proofs. Each function writes a specification to standard output, or with `claims`
# behind its numbers the claims on it, always the same.

# of_example NAME [CLAIMS]: one of examples/ with its claims.
of_example() { if [ "${2:-}" = claims ]; then cat "examples/$1/$1.claims"; else cat "examples/$1/$1.rsml"; fi; }

# tcas_claims [claims]: the example tcas. That it is off does not say that all are far, so that is false after a scan of one.
tcas_claims() {
  if [ "${1:-}" != claims ]; then cat examples/tcas.rsml; return; fi
  echo 'macro Off_Means_Far { in Tcas.Mode.Off | F .; every k of 30 : in Tcas.Other[k].Far | . T; }'
}

# pair [claims]: two states of which each looks at the other.
pair() {
  if [ "${1:-}" = claims ]; then echo 'macro Together { in Pair.L.L1 | T F; in Pair.R.R1 | T F; }'; return; fi
  cat <<'TEXT'
specification Pair; event Tick; receive Beat () raise Tick;
state Pair all {
  state L one { default L0; state L0; state L1;
    move L0 -> L1 on Tick when { in Pair.R.R0 | T; }; stay L0 on Tick when { in Pair.R.R0 | F; }; stay L1 on Tick when always; }
  state R one { default R0; state R0; state R1;
    move R0 -> R1 on Tick when { in Pair.L.L0 | T; }; stay R0 on Tick when { in Pair.L.L0 | F; }; stay R1 on Tick when always; }
}
TEXT
}

# ring N [claims]: stations in a ring with one token. At most one is critical, and a station that is has the token.
ring() {
  awk -v n="$1" -v claims="${2:-}" 'BEGIN {
    if (claims == "claims") {
      printf "macro At_Most_One {"
      for (i = 1; i <= n; i++) { printf " in Ring.S%d.Critical |", i; for (j = 1; j <= n; j++) printf(j == i ? " ." : " F"); printf ";" }
      print " }"
      for (i = 1; i <= n; i++) printf "macro Own%d { in Ring.S%d.Critical | F .; in Ring.Token.At%d | . T; }\n", i, i, i
      exit
    }
    printf "specification Ring; enumeration Wish { No, Yes } input Wants [%d] : Wish = No; event Tick;\n", n
    printf "receive Ask [%d] (Wants[this]) raise Tick;\nstate Ring all {\n  state Token one { default At1;", n
    for (i = 1; i <= n; i++) printf " state At%d;", i
    for (i = 1; i <= n; i++) {
      printf "\n    move At%d -> At%d on Tick when { in Ring.S%d.Idle | T; };", i, i % n + 1, i
      printf " stay At%d on Tick when { in Ring.S%d.Idle | F; };", i, i
    }
    print "\n  }"
    for (i = 1; i <= n; i++) {
      printf "  state S%d one { default Idle; state Idle; state Waiting; state Critical;\n", i
      printf "    move Idle -> Waiting on Tick when { Wants[%d] = Yes | T; }; stay Idle on Tick when { Wants[%d] = Yes | F; };\n", i, i
      printf "    move Waiting -> Critical on Tick when { in Ring.Token.At%d | T; }; stay Waiting on Tick when { in Ring.Token.At%d | F; };\n", i, i
      printf "    move Critical -> Idle on Tick when { Wants[%d] = No | T; }; stay Critical on Tick when { Wants[%d] = No | F; }; }\n", i, i
    }
    print "}"
  }'
}

# pairs_of N [claims]: N pairs, of each of which the first may be on only where the second is.
pairs_of() {
  if [ "${2:-}" = claims ]; then
    for i in $(seq "$1"); do echo "macro Leads$i { in Pairs.A[$i].On | F .; in Pairs.B[$i].On | . T; }"; done
    return
  fi
  cat <<TEXT
specification Pairs; enumeration Wish { No, Yes } input Wants [$1] : Wish = No; event Tick; receive Ask [$1] (Wants[this]) raise Tick;
state Pairs all {
  array A [$1] one { default Off; state Off; state On;
    move Off -> On on Tick when { in Pairs.B[this].On | T; }; stay Off on Tick when { in Pairs.B[this].On | F; }; stay On on Tick when always; }
  array B [$1] one { default Off; state Off; state On;
    move Off -> On on Tick when { Wants[this] = Yes | T; }; stay Off on Tick when { Wants[this] = Yes | F; }; stay On on Tick when always; }
}
TEXT
}

# events_in_line N [claims]: N external events of which each raises the next one, so that there are N (N + 1) / 2 rounds.
events_in_line() {
  if [ "${2:-}" = claims ]; then echo 'macro One_Of_Two { in Line.A | T F; in Line.B | F T; }'; return; fi
  awk -v n="$1" 'BEGIN {
    print "specification Line;"
    for (i = 1; i <= n; i++) printf "event E%d;\nreceive R%d () raise E%d;\n", i, i, i
    print "state Line one { default A; state A; state B;"
    for (i = 1; i <= n; i++) {
      raised = i < n ? " raise E" i + 1 : ""
      printf "  move A -> B on E%d when always%s;\n  move B -> A on E%d when always%s;\n", i, raised, i, raised
    }
    print "}"
  }'
}
