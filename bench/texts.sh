# shellcheck shell=bash
# Specifications of many sizes, for the scripts that measure. Each function writes one to standard output, always the same.

# written PROGRAM [FUNCTIONS]: what an awk program puts; `below(n)` draws a number below n, from a fixed linear congruential sequence.
written() {
  awk "function put(s) { printf \"%s\", s }
    function below(n) { seed = seed * 16807 % 2147483647; return int(seed / 16) % n }
    function basic(name, count, i) { for (i = 0; i < count; i++) put(\"state \" name i \";\") }
    function inputs(count, i) {
      put(\"range R 0..9;\"); for (i = 0; i < count; i++) put(\"input X\" i \":R=0;\") }
    function rows(from, count, i) {
      for (i = from; i < from + count; i++) put(\"X\" i % 200 \"<\" i % 10 \"|\" (i % 3 ? \"T .\" : \". F\") \";\") }
    ${2:-} BEGIN { seed = 20220722; $1 }"
}

# demo N: the specification of `demo N`.
demo() {
  cat <<TEXT
specification Demo;
range Level 0 .. 999;
input Depth [$1] : Level = 0;
event Go;
macro Full { every k of $1 : in Plant.Unit[k].On | T; }
macro High { some k of $1 : Depth[k] >= 500 | T; }
receive Load [$1] (Depth[this]) raise Go;
state Plant all {
  array Unit [$1] one {
    default Off;
    state Off;
    state On;
    move Off -> On on Go when { Depth[this] >= 500 | T; };
    stay Off on Go when { Depth[this] >= 500 | F; };
    move On -> Off on Go when { macro Full | T .; macro High | . F; };
    stay On on Go when { macro Full | F; macro High | T; };
  }
}
TEXT
}

# intruders N RANGE: own altitude and N intruders, of which some may be a threat; certified with a range of 25, not with 24.
intruders() {
  cat <<TEXT
specification Intruders;
range Feet -1000 .. 60000;
range Miles 0 .. 99;
input Own : Feet = 0;
input Other [$1] : Feet = 0;
input Range [$1] : Miles = 99;
event Tick;
receive Here (Own) raise Tick;
receive Seen [$1] (Other[this], Range[this]) raise Tick;
macro Threat [$1] { Other[this] - Own < 300 | T; Own - Other[this] < 300 | T; Range[this] < 25 | T; }
macro Alarm { some k of $1 : macro Threat[k] | T; }
macro Calm { some k of $1 : macro Threat[k] | F; }
state Own_Ship all {
  state Alert one {
    default Off;
    state Off;
    state On;
    move Off -> On on Tick when { macro Alarm | T; };
    stay Off on Tick when { macro Calm | T; };
    move On -> Off on Tick when { macro Alarm | F; };
    stay On on Tick when { macro Alarm | T; };
  }
  array Track [$1] one {
    default Far;
    state Far;
    state Near;
    move Far -> Near on Tick when { Range[this] < 25 | T; };
    stay Far on Tick when { Range[this] < $2 | F; };
    move Near -> Far on Tick when { Range[this] < 25 | F; };
    stay Near on Tick when { Range[this] < 25 | T; };
  }
}
TEXT
}

# hub N [mistaken]: own altitude and N others, of which some is near: differences of wide cells that share one. A mistaken one leaves
# out a case.
hub() {
  local rest='macro Near | F .; macro Level | . F;'
  [ "${2:-}" != mistaken ] || rest='macro Near | F;'
  cat <<TEXT
specification Hub;
range Feet -1000 .. 60000;
input Own : Feet = 0;
input Other [$1] : Feet = 0;
event Tick;
receive Here (Own) raise Tick;
macro Near { some k of $1 : Other[k] - Own < 300 | T; }
macro Level { every k of $1 : Own - Other[k] < 300 | T; }
state Ship one {
  default A;
  state A;
  state B;
  move A -> B on Tick when { macro Near | T; macro Level | T; };
  stay A on Tick when { $rest };
  stay B on Tick when always;
}
TEXT
}

# star N [mistaken]: N others, of which each is near the own altitude or not, and of which some is near or all are far. A mistaken one
# takes what is just 300 feet away neither for near nor for far.
star() {
  local far='>='
  [ "${2:-}" != mistaken ] || far='>'
  cat <<TEXT
specification Star;
range Feet 0 .. 60000;
enumeration Sky { Clear, Busy }
input Own : Feet = 0;
input Other [$1] : Feet = 0;
event Tick;
macro Near [$1] { Own - Other[this] < 300 | T; Other[this] - Own < 300 | T; }
macro Far [$1] { Own - Other[this] $far 300 | T .; Other[this] - Own $far 300 | . T; }
function Around {
  Busy when { some k of $1 : macro Near[k] | T; };
  Clear when { every k of $1 : macro Far[k] | T; };
}
receive Here (Own) raise Tick;
receive Seen [$1] (Other[this]) raise Tick;
state Ship all {
  array Track [$1] one {
    default Apart;
    state Apart;
    state Close;
    bus Any { Apart, Close }
    move Any -> Close on Tick when { macro Near[this] | T; };
    move Any -> Apart on Tick when { macro Near[this] | F; };
  }
}
TEXT
}

# blocks N: two quantifiers over different parts of N units, and then both over the same.
blocks() {
  cat <<TEXT
specification Blocks;
range Level 0 .. 999;
input Depth [$1] : Level = 0;
event Go;
receive Load [$1] (Depth[this]) raise Go;
macro Full { every k of $1 : in Plant.Unit[k].On | T; }
macro High { some k of $1 : Depth[k] >= 500 | T; }
macro Both [$1] { in Plant.Unit[this].On | T; Depth[this] >= 500 | T; }
macro Some { some k of $1 : macro Both[k] | T; }
state Plant all {
  state Lamp one {
    default Off;
    state Off;
    state On;
    move Off -> On on Go when { macro Full | T .; macro Some | . T; };
    stay Off on Go when { macro Full | F; macro Some | F; };
    stay On on Go when { macro High | T; };
    move On -> Off on Go when { macro High | F; };
  }
  array Unit [$1] one {
    default Off;
    state Off;
    state On;
    move Off -> On on Go when always;
    move On -> Off on Go when always;
  }
}
TEXT
}

# sky N MACROS ADVICE INTRUDER: own altitude and rate with those of N intruders. ADVICE are the transitions of the own component and
# INTRUDER those of the component of each intruder.
sky() {
  cat <<TEXT
specification Sky;
range Feet 0 .. 60000;
range Rate -10000 .. 10000;
range Seconds 0 .. 255;
input Own_Alt : Feet = 0;
input Own_Rate : Rate = 0;
input Alt [$1] : Feet = 0;
input Change [$1] : Rate = 0;
input Tau [$1] : Seconds = 255;
event Scan;
receive Here (Own_Alt, Own_Rate) raise Scan;
receive Radar [$1] (Alt[this], Change[this], Tau[this]) raise Scan;
$2
state Sky all {
  state Mode one { default Off; state Off; state On; }
  state Advice one {
    default Clear; state Clear; state Traffic; state Resolution;
    bus Any { Clear, Traffic, Resolution }
$3
  }
  array Intruder [$1] one {
    default Far; state Far; state Near; state Threat;
    bus Any { Far, Near, Threat }
$4
  }
}
TEXT
}

# rev 1 N [mistaken]: each of N intruders is a threat, near or neither by its distance, and the advice follows the worst of them. A
# mistaken one tells of traffic also where there is a threat.
rev_1() {
  local no_threat="some k of $1 : macro Threat[k] | F;"
  [ "${2:-}" != mistaken ] || no_threat=
  sky "$1" "macro Threat [$1] {
  Own_Alt >= 1000 | T; Alt[this] - Own_Alt < 300 | T; Own_Alt - Alt[this] < 300 | T; Tau[this] < 25 | T;
}
macro Near [$1] { Alt[this] - Own_Alt < 1200 | T; Own_Alt - Alt[this] < 1200 | T; Tau[this] < 40 | T; }" \
    "    move Any -> Resolution on Scan when { some k of $1 : macro Threat[k] | T; };
    move Any -> Traffic on Scan when { $no_threat some k of $1 : macro Near[k] | T; };
    move Any -> Clear on Scan when { some k of $1 : macro Threat[k] | F; some k of $1 : macro Near[k] | F; };" \
    "    move Any -> Threat on Scan when { macro Threat[this] | T; };
    move Any -> Near on Scan when { macro Threat[this] | F; macro Near[this] | T; };
    move Any -> Far on Scan when { macro Threat[this] | F; macro Near[this] | F; };"
}

# rev 2 N [mistaken]: threats above and below, of which those above may be crossing, and one claim that all is clear. It is sound only
# since what is clear is neither. A mistaken one takes for clear what may still be a threat.
rev_2() {
  local apart=40
  [ "${2:-}" != mistaken ] || apart=20
  sky "$1" "macro Above [$1] { Alt[this] - Own_Alt > 0 | T; Alt[this] - Own_Alt < 300 | T; Tau[this] < 25 | T; }
macro Below [$1] { Alt[this] - Own_Alt > 0 | F; Own_Alt - Alt[this] < 300 | T; Tau[this] < 25 | T; }
macro Apart [$1] { Tau[this] >= $apart | T . .; Alt[this] - Own_Alt >= 1200 | . T .; Own_Alt - Alt[this] >= 1200 | . . T; }
macro Crossing [$1] { Alt[this] - Own_Alt > 0 | T; Alt[this] - Own_Alt - Own_Rate < 0 | T; }
macro Up { some k of $1 : macro Above[k] | T; }
macro Down { some k of $1 : macro Below[k] | T; }
macro Cross { some k of $1 : macro Crossing[k] | T; }
macro All_Apart { every k of $1 : macro Apart[k] | T; }" \
    "    move Any -> Resolution on Scan when { macro Up | T; macro Down | F; macro Cross | F; };
    move Any -> Resolution on Scan when { macro Up | F; macro Down | T; };
    move Any -> Resolution on Scan when { macro Up | T; macro Down | T; };
    move Any -> Traffic on Scan when { macro Up | T; macro Down | F; macro Cross | T; };
    move Any -> Clear on Scan when { macro All_Apart | T; };
    stay Any on Scan when { macro Up | F; macro Down | F; macro All_Apart | F; };" ''
}

# rev 3 N [mistaken]: what is 300 feet above after so long at the own rate, which must not be negative, is no threat now. A mistaken
# one forgets the rate.
rev_3() {
  local climbing='Own_Rate >= 0 | T;'
  [ "${2:-}" != mistaken ] || climbing=
  sky "$1" "macro Soon { some k of $1 : Alt[k] - Own_Alt < 300 | T; }
macro Later { every k of $1 : Alt[k] - Own_Alt - Own_Rate >= 300 | T; }" \
    "    move Any -> Clear on Scan when { Own_Alt >= 1000 | F; };
    move Any -> Resolution on Scan when { Own_Alt >= 1000 | T; Own_Rate >= 0 | T; macro Soon | T; };
    move Any -> Traffic on Scan when { Own_Alt >= 1000 | T; $climbing macro Later | T; };
    move Any -> Clear on Scan when { Own_Alt >= 1000 | T; Own_Rate >= 0 | T; macro Soon | F; macro Later | F; };
    stay Any on Scan when { Own_Alt >= 1000 | T; Own_Rate >= 0 | F; };" \
    "    move Any -> Threat on Scan when { Own_Rate >= 0 | T; Alt[this] - Own_Alt < 300 | T; };
    move Any -> Near on Scan when { Own_Rate >= 0 | T; Alt[this] - Own_Alt - Own_Rate >= 300 | T; };
    move Any -> Far on Scan when {
      Own_Rate >= 0 | T F; Alt[this] - Own_Alt < 300 | F .; Alt[this] - Own_Alt - Own_Rate >= 300 | F .;
    };"
}

# rev 4 N [mistaken]: distances now and after both have changed at their rates. A mistaken one takes for clear what may still be a
# threat.
rev_4() {
  local apart=40
  [ "${2:-}" != mistaken ] || apart=20
  sky "$1" "macro Threat [$1] {
  Alt[this] - Own_Alt < 300 | T;
  Own_Alt - Alt[this] < 300 | T;
  Alt[this] + Change[this] - Own_Alt - Own_Rate < 300 | T;
  Own_Alt + Own_Rate - Alt[this] - Change[this] < 300 | T;
  Tau[this] < 25 | T;
}
macro Apart [$1] {
  Tau[this] >= $apart | T . . . .;
  Alt[this] - Own_Alt >= 1200 | . T . . .;
  Own_Alt - Alt[this] >= 1200 | . . T . .;
  Alt[this] + Change[this] - Own_Alt - Own_Rate >= 1200 | . . . T .;
  Own_Alt + Own_Rate - Alt[this] - Change[this] >= 1200 | . . . . T;
}
macro Some_Threat { some k of $1 : macro Threat[k] | T; }
macro All_Apart { every k of $1 : macro Apart[k] | T; }" \
    "    move Any -> Resolution on Scan when { macro Some_Threat | T; };
    move Any -> Clear on Scan when { macro All_Apart | T; };
    stay Any on Scan when { macro Some_Threat | F; macro All_Apart | F; };" ''
}

# rising N K LESS [around]: N cells, and for each K + 1 neighbours of them an event on which it is asked whether they rise, and with
# `around` whether the last is below the first.
rising() {
  local n=$1 k=$2 i j mode
  printf '%s\n' 'specification Rising;' 'range Feet 0 .. 60000;' "event Go [$((n - k))];"
  for ((i = 1; i <= n; i++)); do echo "input X$i : Feet = 0;"; done
  for ((i = 1; i <= n - k; i++)); do echo "receive Set$i (X$i) raise Go[$i];"; done
  for ((i = 1; i <= n - k; i++)); do
    echo "macro Rises$i {"
    for ((j = i; j < i + k; j++)); do echo "  X$j $3 X$((j + 1)) | T;"; done
    echo '}'
  done
  printf '%s\n' 'state Order one {' '  default M0;' '  state M0;' '  state M1;' '  state M2;'
  for ((i = 1; i <= n - k; i++)); do
    mode=M$((i % 3))
    echo "  stay $mode on Go[$i] when { macro Rises$i | T; };"
    if [ -n "${4:-}" ]; then
      echo "  stay $mode on Go[$i] when { X$i >= X$((i + k)) | T; };"
      echo "  stay $mode on Go[$i] when { macro Rises$i | F; X$i >= X$((i + k)) | F; };"
    else
      echo "  stay $mode on Go[$i] when { macro Rises$i | F; };"
    fi
  done
  echo '}'
}

# chain N K: K comparisons in a guard, each of two neighbours among N cells.
chain() { rising "$1" "$2" '<'; }

# cycle N K [mistaken]: the same with one more that closes the circle: it is sound since the first is below the last where all rise. In a
# mistaken one neighbours may be equal.
cycle() { if [ "${3:-}" = mistaken ]; then rising "$1" "$2" '<=' around; else rising "$1" "$2" '<' around; fi; }

# pairs N [mistaken]: N altitudes, of which any two may be near each other. A mistaken one takes what is just 300 feet apart neither for
# near nor for far.
pairs() {
  local n=$1 far='>=' i j some='' every=''
  [ "${2:-}" != mistaken ] || far='>'
  printf '%s\n' 'specification Pairs;' 'range Feet 0 .. 60000;' "input X [$n] : Feet = 0;" 'event Tick;'
  echo "receive Seen [$n] (X[this]) raise Tick;"
  for ((i = 1; i <= n; i++)); do
    for ((j = i + 1; j <= n; j++)); do
      echo "macro Near_${i}_$j { X[$i] - X[$j] < 300 | T; X[$j] - X[$i] < 300 | T; }"
      echo "macro Far_${i}_$j { X[$i] - X[$j] $far 300 | T .; X[$j] - X[$i] $far 300 | . T; }"
      some="$some macro Near_${i}_$j | F;" every="$every macro Far_${i}_$j | T;"
    done
  done
  echo "macro None_Near {$some }"
  echo "macro All_Far {$every }"
  printf '%s\n' 'state Ship one {' '  default A;' '  state A;' '  stay A on Tick when { macro None_Near | F; };'
  printf '%s\n' '  stay A on Tick when { macro All_Far | T; };' '}'
}

# modes COUNT [mistaken]: COUNT modes inside one another, four side by side. Of each there is a table over seven of 200 inputs and one
# mode, on which it is left; an outer mode goes before those inside, and an innermost one stays where none is left. In a mistaken one
# each tenth of the innermost forgets the outermost mode around it.
modes() {
  written 'count = '"$1"'; forgets = "'"${2:-}"'" == "mistaken"
    put("specification Modes;\nenumeration Switch { Off, On }\nenumeration Level { Low, Middle, High }\n")
    put("enumeration Gear { Park, Back, Idle, Slow, Fast }\nevent Tick;\n")
    split("Off On", switches); split("Low Middle High", levels); split("Park Back Idle Slow Fast", gears)
    for (i = 0; i < 200; i++) put("input In" i " : " (i % 4 < 2 ? "Switch = Off" : i % 4 == 2 ? "Level = Low" : "Gear = Park") ";\n")
    for (i = 0; i < 200; i++) put("receive Set" i " (In" i ") raise Tick;\n")
    for (mode = 1; mode <= count; mode++) table(mode)
    put("state Modes one {\n"); inside(0); put("}\n")' '
    function value(i) { return i % 4 < 2 ? switches[1 + below(2)] : i % 4 == 2 ? levels[1 + below(3)] : gears[1 + below(5)] }
    function around(mode) { return int((mode - 1) / 4) }
    function path(mode) { return mode ? path(around(mode)) ".M" mode : "Modes" }
    function cells(line, column) {
      line = ""; for (column = 0; column < 4; column++) line = line " " substr("TF...", 1 + below(5), 1); return line }
    function table(mode, row, i) {
      put("macro Leaves" mode " {\n")
      for (row = 0; row < 7; row++) {
        i = (int(mode * 200 / count) + below(16)) % 200; put("  In" i " = " value(i) " |" cells() ";\n") }
      put("  in " path(1 + below(count)) " |" cells() ";\n}\n") }
    function others(mode, forgetful, line, outer) {
      line = ""
      for (outer = around(mode); outer; outer = around(outer))
        if (around(outer) || !forgetful) line = line " macro Leaves" outer " | F;"
      return line }
    function inside(outer, k, mode) {
      put("default M" 4 * outer + 1 ";\n")
      for (k = 1; k <= 4; k++) { mode = 4 * outer + k
        if (4 * mode < count) { put("state M" mode " one {\n"); inside(mode); put("}\n") } else put("state M" mode ";\n") }
      for (k = 1; k <= 4; k++) { mode = 4 * outer + k
        put("move M" mode " -> M" 4 * outer + k % 4 + 1 " on Tick when { macro Leaves" mode " | T;" others(mode, 0) " };\n")
        if (4 * mode >= count)
          put("stay M" mode " on Tick when { macro Leaves" mode " | F;" others(mode, forgets && mode % 10 == 0) " };\n") } }'
}

# great [mistaken]: 1,024 cells, and 8,190 transitions, three from each of the three states of 910 components, side by side. In a mistaken
# one the third leaves out some cases, by one of 64 tables.
great() {
  written 'mistaken = "'"${1:-}"'" == "mistaken"
    put("specification Great;range Level 0..1000;event Tick;")
    for (i = 0; i < 1024; i++) {
      first[i] = 1 + below(500); second[i] = first[i] + 334; put("input X" i ":Level=0;receive I" i "(X" i ")raise Tick;") }
    for (m = 0; m < 64; m++) { put("macro M" m "{")
      for (row = 0; row < 8; row++) {
        i = (m * 16 + below(16)) % 1024; put("X" i "<" (below(2) ? first[i] : second[i]) "|" cells() ";") }
      put("}") }
    put("state Great all{")
    for (c = 0; c < 910; c++) {
      if (c % 64 == 0) put("state All" c " all{")
      put("state C" c " one{default A;state A;state B;state C;"); from("A", "B", c, 0); from("B", "C", c, 1); from("C", "A", c, 2); put("}")
      if (c % 64 == 63 || c == 909) put("}") }
    put("}")' '
    function cells(line, column) {
      line = ""; for (column = 0; column < 4; column++) line = line " " substr("TF..", 1 + below(4), 1); return substr(line, 2) }
    function from(one, other, c, k, i) { i = (c * 7 + k) % 1024
      put("move " one "->" other " on Tick when{X" i "<" first[i] "|T;};")
      put("move " one "->" other " on Tick when{X" i "<" first[i] "|F;X" i "<" second[i] "|T;};")
      put("stay " one " on Tick when{X" i "<" second[i] (mistaken ? "|F;" : "|F F;"))
      put("macro M" (c + k) % 64 (mistaken ? "|T;};" : "|T F;};")) }'
}

# tanks: nearly 1 MiB of a usual form, near the limits: 1,008 components of three states with an event and an input each, and 8,064
# transitions.
tanks() {
  written 'put("specification Tanks;\nrange Level 0 .. 999;\n")
    for (n = 0; n < 1008; n++) {
      put("event Changed_" n ";\ninput Depth_" n " : Level = 0;\nreceive Measure_" n " (Depth_" n ") raise Changed_" n ";\n") }
    put("state Tanks all {\n")
    for (n = 0; n < 1008; n++) {
      if (n % 63 == 0) put("state Hall_" n " all {\n")
      put("# tank " n " is filled by a pump of its own, and emptied by that of its hall\n")
      put("state Tank_" n " one {\n  default Low;\n  state Low;\n  state Middle;\n  state High;\n")
      goes("Low", "Middle", "T", "F"); goes("Low", "High", "T", "T"); stays("Low", "F", "F")
      goes("Middle", "Low", "F", "F"); goes("Middle", "High", "T", "T"); stays("Middle", "T", "F")
      goes("High", "Low", "F .", ". F"); stays("High", "T", "T")
      put(n % 63 == 62 ? "}\n}\n" : "}\n") }
    put("}\n")' '
    function goes(from, to, low, high) { put("    move " from " -> " to); guard(low, high) }
    function stays(at, low, high) { put("    stay " at); guard(low, high) }
    function guard(low, high) {
      put(" on Changed_" n " when { Depth_" n " >= 300 | " low "; Depth_" n " >= 700 | " high "; };\n") }'
}

# states: 4,044 states, nearly all of them 14 deep.
states() {
  written 'put("specification A;state A one{default S1;"); for (i = 1; i < 13; i++) put("state S" i " one{default S" i + 1 ";")
    put("state S13 one{default B0;")
    for (b = 0; b < 62; b++) { put("state B" b " one{default C0;"); basic("C", 64); put("}") } for (i = 0; i < 14; i++) put("}")'
}

# transitions [mistaken]: 4,033 states and 8,192 transitions, two for each of 4,096 pairs of a state and an event. In a mistaken one a guard
# of each two is turned: 4,096 findings.
transitions() {
  written 'turned = "'"${1:-}"'" == "mistaken" ? "T" : "F"
    put("specification A;event E0;event E1;range R 0..9;input X[64]:R=0;receive I[64](X[this])raise E0;receive J()raise E1;state A all{")
    for (b = 0; b < 64; b++) { put("state B" b " one{default C0;"); basic("C", 62)
      for (c = 0; c < 32; c++) for (e = 0; e < 2; e++) {
        put("move C" c "->C" (c * 7 + 1) % 62 " on E" e " when{X[" b + 1 "]<" c % 8 + 1 "|T;};")
        put("stay C" c " on E" e " when{X[" b + 1 "]<" c % 8 + 1 "|" turned ";};") }
      put("}") }
    put("}")'
}

# rows: 65,536 rows in the guards of transitions.
rows() {
  written 'put("specification A;event E0;"); inputs(200); put("receive I(X0)raise E0;state A one{default C0;"); basic("C", 64)
    for (n = 0; n < 1024; n++) { put("stay C" n % 64 " on E0 when{"); rows(64 * n, 64); put("};") } put("}")'
}

# lines: 4,192 transitions on a state 14 deep, none of which is ever enabled, and one on each of 4,000 states inside, all on one event: 16
# million members.
lines() {
  written 'put("specification A;event E0;"); inputs(64); put("receive I(X0)raise E0;state A one{default S1;")
    for (i = 1; i < 12; i++) put("state S" i " one{default S" i + 1 ";")
    put("state S12 one{default S13;state S13 one{default B0;")
    for (b = 0; b < 62; b++) { put("state B" b " one{default C0;"); basic("C", 64)
      for (c = 0; c < 64; c++) put("stay C" c " on E0 when always;"); put("}") }
    put("}")
    for (t = 0; t < 4192; t++) put("stay S13 on E0 when{X" t % 64 "<" t % 8 + 1 "|T;X" t % 64 ">" t % 8 + 1 "|T;};")
    put("}"); for (i = 0; i < 12; i++) put("}")'
}

# levels: 1,024 inputs of the widest range. Macros compare half of them with the other half, so that their levels are as many as they can
# be. Every input is read by the guards of the transitions on one event, 64 to a guard: a diagram of them all has a level for each weight
# of each input.
levels() {
  written 'put("specification A;event E0;range R -1000000000..1000000000;"); for (i = 0; i < 1024; i++) put("input X" i ":R=0;")
    for (t = 0; t < 8; t++) {
      put("macro M" t "{"); for (i = 0; i < 64; i++) put("X" t * 64 + i "<X" 512 + t * 64 + i "|T;"); put("}") }
    put("receive I(X0)raise E0;state A one{default B;state B;")
    for (t = 0; t < 16; t++) {
      put("stay B on E0 when{")
      for (i = 0; i < 64; i++) put("X" t * 64 + i "<" (below(2) ? "" : "-") below(1000000000) "|T;")
      put("};") }
    put("}")'
}

# unfinished: nearly 1 MiB with some 1,900 parts, of which the last brace is missing.
unfinished() {
  awk 'BEGIN {
    parts = 1929
    print "specification Plant;"
    for (n = 1; n <= parts; n++) {
      printf "range Level_%d 0 .. 999;\nconstant Limit_%d = %d;\n", n, n, n * 7
      printf "input Depth_%d [8] : Level_%d = 0;\nevent Go_%d;\ninput Size_%d : Level_%d = 1;\n", n, n, n, n, n
      printf "macro High_%d { some k of 8 : Depth_%d[k] >= 500 | T; }\n", n, n
      printf "receive Load_%d [8] (Depth_%d[this]) raise Go_%d;\n", n, n, n
    }
    print "state Plant all {"
    for (n = 1; n <= parts; n++) {
      printf "  state Plant_%d all {\n    array Unit [8] one {\n      default Off;\n      state Off;\n      state On;\n", n
      printf "      move Off -> On on Go_%d when { Depth_%d[this] >= Limit_%d | T; };\n", n, n, n
      printf "      stay Off on Go_%d when { Depth_%d[this] < 500 | T .; previous Depth_%d[1] + 3 != 7 | . F; };\n", n, n, n
      printf "    }\n  }\n"
    }
  }'
}

# chains_usual: eight components, each with a chain of six events, guards over their inputs, and a send that tells of the last.
chains_usual() {
  awk 'BEGIN {
    print "specification Usual;\nrange Level 0 .. 1000;\nenumeration Switch { Off, On }"
    for (i = 1; i <= 8; i++) {
      printf "input Height%d : Level = 0;\ninput Lever%d : Switch = Off;\n", i, i
      for (k = 1; k <= 6; k++) printf "event Step%d_%d;\n", i, k
      printf "macro High%d { Height%d > 500 | T .; Lever%d = On | . T; }\n", i, i, i
      printf "receive Told%d (Height%d, Lever%d) raise Step%d_1;\n", i, i, i, i
      printf "send Answer%d (Value) {\n  on Step%d_6 when { macro High%d | T; } (Height%d);\n  on Step%d_6 when { macro High%d | F; } quiet;\n}\n", i, i, i, i, i, i
    }
    print "state Usual all {"
    for (i = 1; i <= 8; i++) {
      printf "  state Part%d one {\n    default Idle;\n    state Idle;\n    state Busy;\n", i
      for (k = 1; k <= 6; k++) {
        raised = k < 6 ? " raise Step" i "_" k + 1 : ""
        printf "    move Idle -> Busy on Step%d_%d when { macro High%d | T .; Height%d >= %d | . T; }%s;\n", i, k, i, i, 100 * k, raised
        printf "    stay Idle on Step%d_%d when { macro High%d | F; Height%d >= %d | F; }%s;\n", i, k, i, i, 100 * k, raised
        printf "    move Busy -> Idle on Step%d_%d when { Lever%d = Off | T; Height%d < %d | T; }%s;\n", i, k, i, i, 50 * k, raised
        printf "    stay Busy on Step%d_%d when { Lever%d = Off | F .; Height%d < %d | . F; }%s;\n", i, k, i, i, 50 * k, raised
      }
      print "  }"
    }
    print "}"
  }'
}

# chains_short: the same events with one transition each, and no guards: the shortest text of such chains.
chains_short() {
  awk 'BEGIN {
    print "specification Short;"
    for (i = 1; i <= 8; i++) printf "event A%d; event B%d; event C%d; event D%d; event E%d; event G%d; receive R%d () raise A%d;\n", i, i, i, i, i, i, i, i
    print "state Short all {"
    split("A B C D E G", name)
    for (i = 1; i <= 8; i++) {
      printf "state P%d one { default S; state S;", i
      for (k = 1; k <= 6; k++) printf " stay S on %s%d when always%s;", name[k], i, k < 6 ? " raise " name[k + 1] i : ""
      print " }"
    }
    print "}"
  }'
}

# chains_deep: 8,192 transitions on 1,024 external events, each of which raises the next; their sources are the 15 states of one line.
chains_deep() {
  awk 'BEGIN {
    print "specification Deep;"
    for (i = 0; i < 16; i++) printf "event E%d [64]; receive R%d [64] () raise E%d[this];\n", i, i, i
    for (d = 0; d < 15; d++) printf "state S%d one { default S%d;\n", d, d + 1
    print "state S15;"
    for (d = 14; d >= 0; d--) {
      for (n = d; n < 8192; n += 15) {
        event = (int(n / 15) * 7 + n % 15 * 331) % 1024; after = event + 1
        printf "stay S%d on E%d[%d] when always%s;\n", d + 1, int(event / 64), event % 64 + 1,
          after < 1024 ? " raise E" int(after / 64) "[" after % 64 + 1 "]" : ""
      }
      print "}"
    }
  }'
}

# chains_wide: the same on 4,033 states, the most that stand side by side in two layers: 2 transitions on each of 3,968, 64 states on a
# line with each event.
chains_wide() {
  awk 'BEGIN {
    print "specification Wide;"
    for (i = 0; i < 16; i++) printf "event E%d [64]; receive R%d [64] () raise E%d[this];\n", i, i, i
    print "state Wide all {"
    for (i = 0; i < 64; i++) {
      printf "state P%d one { default S0;\n", i
      for (k = 0; k < 62; k++) printf "state S%d;", k
      print ""
      for (k = 0; k < 62; k++) for (t = 0; t < 2; t++) {
        event = (i * 124 + k * 2 + t) % 1024; after = event + 1
        printf "stay S%d on E%d[%d] when always%s;\n", k, int(event / 64), event % 64 + 1,
          after < 1024 ? " raise E" int(after / 64) "[" after % 64 + 1 "]" : ""
      }
      print "}"
    }
    print "}"
  }'
}

# comparisons: a function of 31,250 cases in 19,200 comparisons.
comparisons() {
  written 'put("specification A; range R 0 .. 9; input X : R = 0; function G { ")
    for (i = 0; i < 31250; i++) put("X when always; ")
    put("} "); for (m = 0; m < 300; m++) { put("macro M" m " { "); for (i = 0; i < 64; i++) put("function G = 1 | T; "); put("} ") }
    put("state A;")'
}

# many_units: 992 units of four states with eight transitions each, of which two are on the event of the unit; and one component of 30
# states with 64 transitions on an event that does not come.
many_units() {
  awk 'BEGIN {
    print "specification Great; range Level 0 .. 9; event Idle;"
    for (i = 1; i <= 16; i++) print "input Depth" i " [62] : Level = 0; event Go" i " [62]; receive Load" i " [62] (Depth" i "[this]) raise Go" i "[this];"
    print "state Great all {"
    for (i = 1; i <= 16; i++) {
      high = "when { Depth" i "[this] >= 5 | T; };"; low = "when { Depth" i "[this] >= 5 | F; };"
      print "array Unit" i " [62] one { default Off; state Off; state On; state Spare;"
      print "move Off -> On on Go" i "[this] " high " move On -> Off on Go" i "[this] " low
      print "move Off -> Spare on Idle " high " stay Off on Idle " low " move On -> Spare on Idle " high " stay On on Idle " low
      print "move Spare -> Off on Idle " high " stay Spare on Idle " low " }"
    }
    print "state Rest one { default S1;"
    for (k = 1; k <= 30; k++) print "state S" k ";"
    for (k = 1; k <= 64; k++) print "stay S" (k - 1) % 30 + 1 " on Idle when always;"
    print "} }"
  }'
}

# macro_chain: macros that ask one another, as many as may be declared.
macro_chain() {
  written 'put("specification A;event E0;"); inputs(1); put("receive I(X0)raise E0;macro M0{X0<1|T;}")
    for (m = 1; m < 8192; m++) put("macro M" m "{macro M" m - 1 "|T;}")
    put("state A one{default B;state B;stay B on E0 when{macro M8191|T;};stay B on E0 when{macro M8191|F;};}")'
}

# The texts within the limits in which recursions go deepest: 1,024 inputs of the widest range, all read by the guards of one group; 4,044
# states, nearly all of them 14 deep; a chain of macros; 64 units of the demo; and thirty heights that are compared with one.
DEEP_TEXTS="levels states macro_chain demo_64 star_30_mistaken"

# deep_text NAME: one of them.
deep_text() {
  case $1 in
    demo_64) demo 64 ;;
    star_30_mistaken) star 30 mistaken ;;
    *) "$1" ;;
  esac
}
