# The random event files that scripts share.

# event_file TASK COUNT: one with so many events.
event_file() {
  case $1 in
    lamp) awk -v n="$2" 'BEGIN { srand(1); for (i = 0; i < n; i++) print "Set Lever=" (rand() < 0.5 ? "Up" : "Down") }' ;;
    tcas) awk -v n="$2" 'BEGIN { srand(2); for (i = 0; i < n; i++) if (rand() < 0.1)
        print "Pilot Selector=" (rand() < 0.8 ? "Active" : "Standby") " Own_Alt=" int(rand() * 61001) - 1000
      else print "Radar[" 1 + int(rand() * 30) "] Tau=" int(rand() * 256) }' ;;
    many_units) awk -v n="$2" 'BEGIN { srand(4); for (i = 0; i < n; i++) { k = 1 + int(rand() * 16)
        print "Load" k "[" 1 + int(rand() * 62) "] Depth" k "=" int(rand() * 10) } }' ;;
    demo) awk -v n="$2" 'BEGIN { srand(3); for (i = 0; i < n; i++) print "Load[" 1 + int(rand() * 64) "] Depth=" int(rand() * 1000) }' ;;
  esac
}
