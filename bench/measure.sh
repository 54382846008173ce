# Sourced by the scripts beside it. It gives `program`, the one that SFCMON names, else the proved one of this clone; `folder`, a temporary
# one; and functions that count instructions, those of callgrind, and bytes. In the folder are a chart `chart`, and scripts for it that have
# the number of their scans for a name (`scripts_of`).
# shellcheck shell=bash
bench=$(cd "$(dirname "${BASH_SOURCE[0]}")" && pwd)
program=${SFCMON:-$(dirname "$bench")/crates/sfcmon/out/sfcmon}
export PYTHONDONTWRITEBYTECODE=1
folder=$(mktemp -d)
trap 'rm -rf "$folder"' EXIT

# scripts_of NAME: the chart of this name, and its scripts of 100, 1,100, 2,000 and 6,000 scans: a number is the ring of so many steps, `lamp`
# the lamp of examples, and `tasks` the chart of 16 tasks.
scripts_of() {
  local scans
  for scans in 100 1100 2000 6000; do
    case $1 in
      tasks) python3 "$bench/tasks.py" 16 "$scans" "$folder/chart" "$folder/$scans" ;;
      lamp) python3 "$bench/ring.py" 8 "$scans" "$folder/chart" "$folder/$scans" ;;
      *) python3 "$bench/ring.py" "$1" "$scans" "$folder/chart" "$folder/$scans" ;;
    esac
  done
  [ "$1" != lamp ] || cp "$bench/../examples/lamp.chart" "$folder/chart"
}

# instructions COMMAND..: those of a command, with options of callgrind before it
instructions() {
  valgrind --tool=callgrind --callgrind-out-file=/dev/null "$@" 2>&1 >/dev/null | awk '/Collected :/ {print $4}'
}

# by_scan SCANS FIGURE MORE FIGURE: what a scan makes of the difference; a figure that is missing counts as 0
by_scan() { echo $(((${4:-0} - ${2:-0}) / ($3 - $1))); }

# of_program COMMAND LESS MORE: a scan by `replay` or `wave`
of_program() {
  by_scan "$2" "$(instructions "$program" "$1" "$folder/chart" "$folder/$2")" \
    "$3" "$(instructions "$program" "$1" "$folder/chart" "$folder/$3")"
}

# of_core LESS MORE: a scan in `Resource::apply` and what it calls
of_core() {
  local core='--toggle-collect=*sfc_core::resource::Resource::apply'
  by_scan "$1" "$(instructions "$core" "$program" replay "$folder/chart" "$folder/$1")" \
    "$2" "$(instructions "$core" "$program" replay "$folder/chart" "$folder/$2")"
}

# bytes_by_scan LESS MORE: those that `replay` writes for a scan
bytes_by_scan() {
  by_scan "$1" "$("$program" replay "$folder/chart" "$folder/$1" | wc -c)" "$2" "$("$program" replay "$folder/chart" "$folder/$2" | wc -c)"
}

# text_by_scan LESS MORE: what `replay` takes for a scan beyond `draw --after`
text_by_scan() {
  local played
  played=$(by_scan "$1" "$(instructions "$program" draw --after "$folder/$1" "$folder/chart")" \
    "$2" "$(instructions "$program" draw --after "$folder/$2" "$folder/chart")")
  echo $(($(of_program replay "$1" "$2") - played))
}

# loading, opening: those of `check` of the chart, and of `replay` of an empty script beyond that
loading() { instructions "$program" check "$folder/chart"; }
opening() {
  : >"$folder/empty"
  local both
  both=$(instructions "$program" replay "$folder/chart" "$folder/empty")
  echo $((${both:-0} - $(loading)))
}
