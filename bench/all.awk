# The lines of bench/all.sh: what the script that `script` names has printed, as task, ours, peer, ratio and aim.

function line(task, ours, peer, ratio, aim, missed) { printf "%-44s %12s %12s %8s %9s%s\n", task, ours, peer, ratio, aim, missed ? " missed" : "" }
# An aim with a unit is one for what is measured of ours, in the same unit; one without is one for the ratio.
function is_missed(ours, ratio, aim) { return aim == "-" ? 0 : ours !~ /^[0-9]/ ? 1 : aim ~ / / ? ours + 0 > aim + 0 : ratio + 0 > aim + 0 }
function row(task, ours, peer, ratio, aim) { line(script " " task, ours, peer, ratio, aim, is_missed(ours, ratio, aim)) }
function with(unit, value) { return value ~ /^[0-9.]+$/ ? value " " unit : value }

BEGIN { if (script == "head") line("task", "ours", "peer", "ratio", "aim") }

script == "reading" && NF == 8 && $2 ~ /^[0-9]+$/ {
  row("1 MiB", $3 " ms", $4 " ms", $5, $6)
  row("1 MiB, memory", $7 " MB", $8 " MB", $8 > 0 ? sprintf("%.2f", $7 / $8) : "-", "-")
}
script == "rules" && NF == 6 && $4 ~ /^[0-9]/ { row($1, $5 " ms", $4 " ms", $6, "-") }
script == "event_files" {
  if ($3 == "ms") row($1, $2 " ms", $4 " ms", $6, $7)
  if (/^most memory/) row("memory for 5 GB", $3 " KB", "-", "-", "-")
}
script == "diagrams" && $1 ~ /=/ && NF == 7 {
  row($1, $3 " s", $4 " s", $5, "1.00")
  row($1 ", memory of a node", $7 " B", "-", "-", "60 B")
}
script == "guards" && NF == 11 && $2 ~ /^[0-9]/ {
  row($1 ", z3", with("ms", $5), with("ms", $7), $8, "-")
  if ($9 != "-") row($1 ", BuDDy", with("ms", $5), with("ms", $9), $10, "-")
}
script == "clusters" && NF == 10 && $4 ~ /^[0-9]/ && ($2 == 30 || $1 ~ /^(agreement|greatest|grid)$/) {
  row($1 " " $2 ($3 == "mistaken" ? ", mistaken" : ""), with("ms", $7), with("ms", $9), $10,
    $1 ~ /^(agreement|greatest|grid|supplies|feeders)$/ ? "-" : "1000 ms")
}
script == "check" && NF == 8 && $2 ~ /^[0-9]+$/ {
  sums = $1 ~ /^(tcas|intruders|hub)/
  row($1, $6 " ms", $5 " ms", $7, $1 == "states" ? "1000 ms" : $1 == "demo_64" ? "100 ms" : sums ? "-" : "10000 ms")
}
script == "simulate" {
  if ($4 == "ms") {
    row($1, $3 " ms", $5 " ms", $7, $12)
    row($1 ", by one for it alone", $3 " ms", $8 " ms", $10, "-")
  }
  if (/^reactions/) row("reactions of many_units, by the lamp", $3 " ms", $6 " ms", $9 + 0, $NF)
  if ($1 == "lamp" && $4 == "ms") row("lamp, one round", sprintf("%.2f us", 1e6 / $11), "-", "-", "2.00 us")
  if (/most memory/ && few == "") few = $(NF - 1)
  else if (/most memory/) row("memory, by that for 10,000 events", $(NF - 1) " KB", few " KB", sprintf("%.2f", $(NF - 1) / few), "-")
}
script == "demo" && $1 ~ /^[0-9]+$/ { row($1, $2 " ms", "-", "-", $1 == 64 ? "100 ms" : "-") }
script == "migrate" && /ratio/ { row("1 MB", $7 " ms", $4 " ms", $NF, "2.00") }
