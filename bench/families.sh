# shellcheck shell=bash
# Families of specifications in which cells meet in sums, for the scripts that measure. Each function writes the one of a size to standard
# output, always the same: FAMILY SIZE [mistaken]. In each a lamp goes on where `Some` is true, and off where `All` is; where `All` is true
# `Some` is not. In a mistaken one the lamp goes off only where another condition is false too.

# columns AT COUNT: so many columns of a row, with T at one place.
columns() {
  local column
  for ((column = 1; column <= $2; column++)); do if [ "$column" = "$1" ]; then printf ' T'; else printf ' .'; fi; done
}

# added FROM COUNT STEP MOST: the sum of so many of the cells Load[1] to Load[MOST], from one on and so far apart.
added() {
  local k sum="Load[$1]"
  for ((k = 1; k < $2; k++)); do sum="$sum + Load[$((($1 - 1 + k * $3) % $4 + 1))]"; done
  printf '%s' "$sum"
}

# switched HEAD ON OFF [ROW]: a component that goes on where one phrase is true, and off where another is, and what the row says.
switched() {
  cat <<TEXT
  $1 one {
    default Off;
    state Off;
    state On;
    move Off -> On on Second when { $2 | T; };
    stay Off on Second when { $2 | F; };
    move On -> Off on Second when { $3 | T; ${4:-}};
    stay On on Second when { $3 | F; };
  }
TEXT
}

# watched CONDITION DECLARATIONS [COMPONENT]: a specification with these declarations and this component beside the lamp. The condition
# is that of a mistaken one, or empty.
watched() {
  printf '%s\n' 'specification Watch;' 'event Second;' 'receive Clock () raise Second;' "$2" 'state Watch all {'
  [ -z "${3:-}" ] || printf '%s\n' "$3"
  switched 'state Lamp' 'macro Some' 'macro All' "${1:-macro Some} | F; "
  echo '}'
}

# The cells of a battery against one of reference, and against thresholds.
battery() {
  watched "${2:+Volt[1] = 4000}" "range Millivolt 0 .. 5000;
input Volt [$1] : Millivolt = 3600;
input Reference : Millivolt = 3600;
receive Cell [$1] (Volt[this]) raise Second;
receive Limit (Reference) raise Second;
macro Above [$1] { Volt[this] - Reference > 30 | T; }
macro Beside [$1] { Volt[this] <= Reference + 10 | T; }
macro Some { some c of $1 : Volt[c] >= 4200 | T .; some c of $1 : Volt[c] < 2500 | . T; }
macro All { every c of $1 : Volt[c] >= 3800 | T; every c of $1 : Volt[c] < 4100 | T; }" \
    "$(switched "array Bleed [$1]" 'macro Above[this]' 'macro Beside[this]')"
}

# The levels of tanks, each against the next.
cascade() {
  local n=$1 k rows=
  for ((k = 1; k < n; k++)); do rows="$rows Level[$k] - Level[$((k + 1))] > 20 |$(columns "$k" $((n - 1)));"; done
  watched "${2:+Level[1] = 50}" "range Centimetre 0 .. 1200;
input Level [$n] : Centimetre = 0;
receive Gauge [$n] (Level[this]) raise Second;
macro Steep {$rows }
macro Some { some k of $n : Level[k] >= 1100 | T; }
macro All { every k of $n : Level[k] < 100 | T; }" \
    "$(switched 'state Slope' 'macro Steep' "some k of $n : Level[k] > 500")"
}

# How quickly temperatures change.
rates() {
  watched "${2:+Temp[1] = 7}" "range Decicelsius -400 .. 1200;
input Temp [$1] : Decicelsius = 200;
receive Sensor [$1] (Temp[this]) raise Second;
macro Fast [$1] { Temp[this] - previous Temp[this] >= 50 | T .; Temp[this] > 450 | . T; }
macro Cooling [$1] { Temp[this] < previous Temp[this] | T; }
macro Some { some k of $1 : macro Fast[k] | T; }
macro All { every k of $1 : Temp[k] <= 400 | T; every k of $1 : macro Cooling[k] | T; }" \
    "$(switched "array Alarm [$1]" 'macro Fast[this]' 'macro Cooling[this]')"
}

# Sums of three and four loads, each of which stands in several.
feeders() {
  local n=$(($1 < 4 ? 4 : $1)) k macros='' some=''
  for ((k = 1; k <= n; k++)); do
    macros="${macros}macro Over_$k { $(added "$k" 3 1 "$n") > 900 | T .; $(added "$k" 4 1 "$n") > 1200 | . T; }"$'\n'
    some="$some macro Over_$k |$(columns "$k" "$n");"
  done
  watched "${2:+$(added 1 3 1 "$n") > 890}" "range Ampere 0 .. 600;
input Load [$n] : Ampere = 0;
receive Meter [$n] (Load[this]) raise Second;
${macros}macro Some {$some }
macro All { every k of $n : Load[k] < 300 | T; }"
}

# Two of three heights that agree.
votes() {
  watched "${2:+some k of $1 : macro Voted[k]}" "range Height -1000 .. 50000;
input A [$1] : Height = 0;
input B [$1] : Height = 0;
input C [$1] : Height = 0;
receive Air [$1] (A[this], B[this], C[this]) raise Second;
macro Voted [$1] { A[this] - B[this] <= 100 | T .; B[this] - A[this] <= 100 | T .; B[this] - C[this] <= 100 | . T; C[this] - B[this] <= 100 | . T; }
macro High [$1] { A[this] > 30000 | T; B[this] > 30000 | T; }
macro Some { some k of $1 : macro High[k] | T; }
macro All { every k of $1 : A[k] < 1000 | T; }" \
    "$(switched "array Channel [$1]" 'macro Voted[this]' 'macro High[this]')"
}

# The first line of which the pressure is above a limit.
relief() {
  local n=$1 k j picks=None cases='' rows=''
  for ((k = 1; k <= n; k++)); do
    picks="$picks, Line_$k"
    cases="$cases  Line_$k when {$rows macro Calls[$k] | T; };"$'\n'
    rows="$rows macro Calls[$k] | F;"
  done
  watched "${2:+Limit = 500}" "range Bar 0 .. 1000;
enumeration Pick { $picks }
input Pressure [$n] : Bar = 0;
input Limit : Bar = 800;
receive Line [$n] (Pressure[this]) raise Second;
receive Set (Limit) raise Second;
macro Calls [$n] { Pressure[this] > Limit | T .; Pressure[this] >= 950 | . T; }
function First {
$cases  None when {$rows };
}
send Valve (Opened) { on Second when always (function First); }
macro Some { some k of $n : macro Calls[k] | T; }
macro All { every k of $n : Pressure[k] < 100 | T; Limit >= 100 | T; }"
}

# Heights of which any two agree.
agreement() {
  local n=$1 i j rows=
  for ((i = 1; i <= n; i++)); do for ((j = i + 1; j <= n; j++)); do
    rows="$rows X[$i] - X[$j] <= 50 | T; X[$j] - X[$i] <= 50 | T;"
  done; done
  watched "${2:+X[1] = 28000}" "range Height 0 .. 50000;
input X [$n] : Height = 0;
receive Air [$n] (X[this]) raise Second;
macro Agree {$rows }
macro Some { some k of $n : X[k] > 30000 | T; }
macro All { macro Agree | T; some k of $n : X[k] < 29000 | T; }"
}

# The sum of at most seven loads against the most that there is.
budget() {
  local n=$1 total
  total=$(added 1 $((n < 7 ? n : 7)) 1 "$n")
  watched "${2:+Most = 500}" "range Watt 0 .. 3000;
input Load [$n] : Watt = 0;
input Most : Watt = 3000;
receive Meter [$n] (Load[this]) raise Second;
receive Grid (Most) raise Second;
macro Over { $total > Most | T; }
macro Some { macro Over | T .; some k of $n : Load[k] > 2000 | . T; }
macro All { every k of $n : Load[k] <= 50 | T; Most >= 350 | T; }"
}

# The greatest of some signals.
greatest() {
  local n=$1 k j rows names=Signal_1 macros='' cases=''
  for ((k = 1; k <= n; k++)); do
    rows=
    for ((j = 1; j <= n; j++)); do
      [ "$j" = "$k" ] || rows="$rows X[$k] $([ "$j" -gt "$k" ] && echo '>=' || echo '>') X[$j] | T;"
    done
    [ "$k" = 1 ] || names="$names, Signal_$k"
    macros="${macros}macro Best_$k {$rows }"$'\n'
    cases="$cases  Signal_$k when { macro Best_$k | T; };"$'\n'
  done
  watched "${2:+macro Best_1}" "range Signal 0 .. 4095;
enumeration Which { $names }
input X [$n] : Signal = 0;
receive Source [$n] (X[this]) raise Second;
${macros}function Best {
$cases}
send Chosen (One) { on Second when always (function Best); }
macro Some { some k of $n : X[k] > 3000 | T; }
macro All { every k of $n : X[k] < 1000 | T; }"
}

# What pumps lack, by functions that name two cells.
pumps() {
  watched "${2:+Want[1] > 1900}" "range Flow 0 .. 2000;
enumeration Mode { Low, Middle, Top }
input Want [$1] : Flow = 0;
input Have [$1] : Flow = 0;
input Kind [$1] : Mode = Low;
receive Pump [$1] (Want[this], Have[this], Kind[this]) raise Second;
function Lack [$1] {
  Want[this] - Have[this] when { Kind[this] = Low | T; };
  Want[this] + 50 - Have[this] when { Kind[this] = Middle | T; };
  Want[this] when { Kind[this] = Top | T; };
}
macro Some { some k of $1 : function Lack[k] > 100 | T; }
macro All { every k of $1 : function Lack[k] <= 0 | T; }"
}

# What users lack, by functions that share one cell.
supplies() {
  watched "${2:+Supply = 1990}" "range Flow 0 .. 2000;
enumeration Mode { Low, High }
input Want [$1] : Flow = 0;
input Kind [$1] : Mode = Low;
input Supply : Flow = 2000;
receive User [$1] (Want[this], Kind[this]) raise Second;
receive Main (Supply) raise Second;
function Lack [$1] {
  Want[this] - Supply when { Kind[this] = Low | T; };
  Want[this] + 50 - Supply when { Kind[this] = High | T; };
}
macro Some { some k of $1 : function Lack[k] > 0 | T; }
macro All { every k of $1 : function Lack[k] <= -100 | T; }"
}

# What goes into tanks and out of them, by functions that name three cells.
flows() {
  watched "${2:+Out[1] = 1900}" "range Flow 0 .. 2000;
enumeration Mode { Both, One, None }
input In_A [$1] : Flow = 0;
input In_B [$1] : Flow = 0;
input Out [$1] : Flow = 0;
input Kind [$1] : Mode = Both;
receive Tank [$1] (In_A[this], In_B[this], Out[this], Kind[this]) raise Second;
function Net [$1] {
  In_A[this] + In_B[this] - Out[this] when { Kind[this] = Both | T; };
  In_A[this] - Out[this] when { Kind[this] = One | T; };
  Out[this] when { Kind[this] = None | T; };
}
macro Some { some k of $1 : function Net[k] > 100 | T; }
macro All { every k of $1 : function Net[k] <= 0 | T; }"
}

# Many bands of six speeds, each of which is compared with the first.
bands() {
  local n=$1 k names=Band_0 rows cases='' step=$((3000 / ($1 + 1)))
  for ((k = 0; k <= n; k++)); do
    rows=
    [ "$k" = 0 ] || { names="$names, Band_$k"; rows=" Speed[this] >= $((100 + (k - 1) * step)) | T;"; }
    [ "$k" = "$n" ] || rows="$rows Speed[this] < $((100 + k * step)) | T;"
    cases="$cases  Band_$k when {$rows };"$'\n'
  done
  watched "${2:+Speed[1] = 50}" "range Rpm 0 .. 4000;
enumeration Band { $names }
input Speed [6] : Rpm = 0;
receive Unit [6] (Speed[this]) raise Second;
function Gear [6] {
$cases}
send Out [6] (Selected) { on Second when always (function Gear[this]); }
macro Slower [6] { Speed[this] - Speed[1] < -200 | T; }
macro Some { some k of 6 : macro Slower[k] | T; }
macro All { every k of 6 : function Gear[k] = Band_0 | T; }"
}

# The rows and columns of a square of loads.
grid() {
  local n=$1 k macros='' some=''
  for ((k = 1; k <= n; k++)); do
    macros="${macros}macro Row_$k { $(added $(((k - 1) * n + 1)) "$n" 1 $((n * n))) > $((100 * n)) | T; }"$'\n'
    macros="${macros}macro Column_$k { $(added "$k" "$n" "$n" $((n * n))) > $((100 * n)) | T; }"$'\n'
    some="$some macro Row_$k |$(columns "$k" $((2 * n))); macro Column_$k |$(columns $((n + k)) $((2 * n)));"
  done
  watched "${2:+Load[1] = 100}" "range Kilogram 0 .. 1000;
input Load [$((n * n))] : Kilogram = 0;
receive Scale [$((n * n))] (Load[this]) raise Second;
${macros}macro Some {$some }
macro All { every k of $((n * n)) : Load[k] <= 100 | T; }"
}

# Halls of sixteen loads, each with the rows and columns of its square: 16 cells for each.
halls() {
  local k macros='' inputs='' cells='' some='' all=''
  for ((k = 1; k <= 16; k++)); do
    inputs="${inputs}input Load_$k [$1] : Kilogram = 0;"$'\n'
    cells="$cells${cells:+, }Load_$k[this]"
    all="$all every h of $1 : Load_$k[h] <= 100 | T;"
  done
  for ((k = 1; k <= 4; k++)); do
    macros="${macros}macro Row_$k [$1] { Load_$((4 * k - 3))[this] + Load_$((4 * k - 2))[this] + Load_$((4 * k - 1))[this] + Load_$((4 * k))[this] > 400 | T; }"$'\n'
    macros="${macros}macro Column_$k [$1] { Load_$k[this] + Load_$((k + 4))[this] + Load_$((k + 8))[this] + Load_$((k + 12))[this] > 400 | T; }"$'\n'
    some="$some macro Row_$k[this] |$(columns "$k" 8); macro Column_$k[this] |$(columns $((4 + k)) 8);"
  done
  watched "${2:+Load_1[1] = 100}" "range Kilogram 0 .. 1000;
${inputs}receive Scale [$1] ($cells) raise Second;
${macros}macro Full [$1] {$some }
macro Some { some h of $1 : macro Full[h] | T; }
macro All {$all }"
}

# Districts of eight feeders, with sums of three and four of them, each of which stands in several: 8 cells for each.
districts() {
  local k j macros='' inputs='' cells='' some='' all='' sum
  for ((k = 1; k <= 8; k++)); do
    inputs="${inputs}input Load_$k [$1] : Ampere = 0;"$'\n'
    cells="$cells${cells:+, }Load_$k[this]"
    all="$all every d of $1 : Load_$k[d] < 300 | T;"
    sum=
    for ((j = 0; j < 3; j++)); do sum="$sum${sum:+ + }Load_$(((k - 1 + j) % 8 + 1))[this]"; done
    macros="${macros}macro Over_$k [$1] { $sum > 900 | T .; $sum + Load_$(((k + 2) % 8 + 1))[this] > 1200 | . T; }"$'\n'
    some="$some macro Over_$k[this] |$(columns "$k" 8);"
  done
  watched "${2:+Load_1[1] + Load_2[1] + Load_3[1] > 890}" "range Ampere 0 .. 600;
${inputs}receive Meter [$1] ($cells) raise Second;
${macros}macro Over [$1] {$some }
macro Some { some d of $1 : macro Over[d] | T; }
macro All {$all }"
}

# Times since which units run, against the time of day.
timers() {
  watched "${2:+Since[1] = 40000}" "range Seconds 0 .. 86400;
input Now : Seconds = 0;
input Since [$1] : Seconds = 0;
receive Day (Now) raise Second;
receive Start [$1] (Since[this]) raise Second;
macro Late [$1] { Now - Since[this] > 900 | T; Since[this] > 0 | T; }
macro Fresh [$1] { Now - Since[this] <= 60 | T; Since[this] > 0 | T; }
macro Some { some k of $1 : macro Late[k] | T; }
macro All { every k of $1 : macro Fresh[k] | T; }" \
    "$(switched "array Unit [$1]" 'macro Late[this]' 'macro Fresh[this]')"
}

# Temperatures within a window that moves.
windows() {
  watched "${2:+Temp[1] = 500}" "range Decicelsius -400 .. 1200;
input Temp [$1] : Decicelsius = 200;
input Low : Decicelsius = 0;
input High : Decicelsius = 400;
receive Zone [$1] (Temp[this]) raise Second;
receive Window (Low, High) raise Second;
macro Hot [$1] { Temp[this] > High | T .; Temp[this] > 900 | . T; }
macro Cold [$1] { Temp[this] < Low | T .; Temp[this] < -200 | . T; }
macro Inside [$1] { Temp[this] <= High - 10 | T; Temp[this] >= Low + 10 | T; Temp[this] <= 900 | T; Temp[this] >= -200 | T; }
macro Some { some k of $1 : macro Hot[k] | T .; some k of $1 : macro Cold[k] | . T; }
macro All { every k of $1 : macro Inside[k] | T; }" \
    "$(switched "array Zone [$1]" 'macro Hot[this]' 'macro Cold[this]')"
}

# Trains that have to stop before a limit: places and braking paths that each meet two cells that all share.
braking() {
  watched "${2:+Path[1] = 50}" "range Metre 0 .. 10000;
input Place [$1] : Metre = 0;
input Path [$1] : Metre = 0;
input Margin : Metre = 50;
input Limit : Metre = 10000;
receive Train [$1] (Place[this], Path[this]) raise Second;
receive Line (Margin, Limit) raise Second;
macro Over [$1] { Place[this] + Path[this] + Margin > Limit | T; }
macro Slow [$1] { Path[this] < 100 | T; Place[this] < 500 | T; }
macro Some { some k of $1 : macro Over[k] | T; }
macro All { every k of $1 : macro Slow[k] | T; Margin < 100 | T; Limit >= 700 | T; }" \
    "$(switched "array Train [$1]" 'macro Over[this]' 'macro Slow[this]')"
}

# The own altitude against others, and each against thresholds.
altitudes() {
  watched "${2:+Other[1] = 7}" "range Feet 0 .. 60000;
input Own : Feet = 0;
input Other [$1] : Feet = 0;
receive Here (Own) raise Second;
receive Seen [$1] (Other[this]) raise Second;
macro Near [$1] { Other[this] - Own < 300 | T; Own - Other[this] < 300 | T; Own >= 1000 | T; }
macro Far [$1] { Other[this] - Own >= 1200 | T .; Own - Other[this] >= 1200 | . T; }
macro Some { some k of $1 : macro Near[k] | T; }
macro All { every k of $1 : Other[k] < 10000 | T; Own >= 20000 | T; }" \
    "$(switched "array Track [$1]" 'macro Near[this]' 'macro Far[this]')"
}

# The middle of three pressures.
middles() {
  watched "${2:+C[1] = 7}" "range Bar 0 .. 1000;
input A [$1] : Bar = 0;
input B [$1] : Bar = 0;
input C [$1] : Bar = 0;
receive Sensor [$1] (A[this], B[this], C[this]) raise Second;
macro Over_A [$1] { A[this] >= B[this] | T F; A[this] >= C[this] | F T; A[this] > 900 | T T; }
macro Over_B [$1] { B[this] > A[this] | T F; B[this] >= C[this] | F T; B[this] > 900 | T T; }
macro Some { some k of $1 : macro Over_A[k] | T .; some k of $1 : macro Over_B[k] | . T; }
macro All { every k of $1 : A[k] < 500 | T; every k of $1 : B[k] < 500 | T; every k of $1 : C[k] < 500 | T; }" \
    "$(switched "array Valve [$1]" 'macro Over_A[this]' 'macro Over_B[this]')"
}

# The codes of units, which are those of their master.
identities() {
  watched "${2:+Code[1] = 8}" "range Number 0 .. 999;
input Master : Number = 0;
input Code [$1] : Number = 0;
receive Key (Master) raise Second;
receive Unit [$1] (Code[this]) raise Second;
macro Some { some k of $1 : Code[k] > Master | T; }
macro All { every k of $1 : Code[k] < 10 | T; Master >= 9 | T; }" \
    "$(switched "array Unit [$1]" 'Code[this] = Master' 'Code[this] != Master')"
}
