#!/usr/bin/env bash
# check.sh [--set] [--budget FILE]: measures what users run, in instructions of callgrind, and holds each figure to budget.tsv (or FILE). One
# that is more than 3 % above its budget fails; one that is as much below is told. With --set the figures become the budget. The charts are
# the lamp of examples, rings of 8, 64 and 512 steps (ring.py), 16 tasks (tasks.py), and one of 1,024 steps, 2,048 transitions and 64
# instances (opening.py). `Resource::apply`, `replay`, `wave` and `sfc_scan` are measured by the scan: 1,100 scans less 100, and where it
# says `later` 6,000 less 2,000. `sfc_scan` is measured in the program `bench` of the C library, in the folder that SFC_LIBRARY_FOLDER names,
# else build/c, where tools/c-library builds it; where it isn't there, that is said. The last line is 'N passed, M failed'.
# It wants python3 and valgrind; without valgrind nothing is measured.
# shellcheck disable=SC2030,SC2031,SC2317 # each chart is measured in a folder of its own, by a call that is handed over
set -eu
# shellcheck source=bench/measure.sh
. "$(dirname "${BASH_SOURCE[0]}")/measure.sh"
budget=$bench/budget.tsv sets='' passed=0 failed=0
while [ $# -gt 0 ]; do
  case $1 in
    --set) sets=yes ;;
    --budget) budget=$2; shift ;;
    *) echo "usage: check.sh [--set] [--budget FILE]" >&2; exit 2 ;;
  esac
  shift
done
library=${SFC_LIBRARY_FOLDER:-$(dirname "$bench")/build/c}

finish() { echo "$passed passed, $failed failed"; [ "$failed" = 0 ] || exit 1; exit 0; }
if ! command -v valgrind >/dev/null; then echo "skipped: valgrind isn't installed, so nothing is measured"; finish; fi
if [ ! -x "$program" ]; then echo "not as it should be: there is no program $program"; failed=1; finish; fi
[ -x "$library/bench" ] || echo "skipped: $library has no bench, so sfc_scan isn't measured; tools/c-library builds it"

# of_library LESS MORE: a scan in `sfc_scan` and what it calls
of_library() {
  local scan='--toggle-collect=sfc_scan'
  by_scan "$1" "$(instructions "$scan" "$library/bench" "$folder/chart" Main 10000 "$1")" \
    "$2" "$(instructions "$scan" "$library/bench" "$folder/chart" Main 10000 "$2")"
}
line() { printf '%s\t%s\t%s\n' "$1" "$2" "$3"; }

# measure_scans TITLE NAME: the lines of a chart that scripts_of knows
measure_scans() {
  scripts_of "$2"
  line "$1" 'Resource::apply' "$(of_core 100 1100)"
  line "$1" 'Resource::apply, later' "$(of_core 2000 6000)"
  if [ "$2" != tasks ] && [ -x "$library/bench" ]; then line "$1" sfc_scan "$(of_library 100 1100)"; fi
  line "$1" replay "$(of_program replay 100 1100)"
  line "$1" 'replay, later' "$(of_program replay 2000 6000)"
  line "$1" wave "$(of_program wave 100 1100)"
}
# measure_large TITLE: the lines of the large chart
measure_large() {
  python3 "$bench/opening.py" 1024 2048 64 "$folder/chart"
  line "$1" check "$(loading)"
  line "$1" opening "$(opening)"
}
# apart NUMBER CALL..: a call in a folder of its own, beside the others; its lines stand in a file of this number
apart() {
  local number=$1
  shift
  { (trap - EXIT && folder=$folder/$number.folder && mkdir "$folder" && "$@") >"$folder/$number.lines" || touch "$folder/lost"; } &
}

# judge CHART WHAT FIGURE: holds a figure to its budget, and prints the line.
judge() {
  local wanted verdict=''
  wanted=$(awk -F'\t' -v chart="$1" -v what="$2" '$1 == chart && $2 == what { print $3 }' "$budget" 2>/dev/null) || wanted=
  if ((${3:-0} <= 0)); then verdict='not as it should be: nothing was measured; has the program the symbol?'
  elif [ -z "$wanted" ]; then verdict='not as it should be: no budget'
  elif (($3 * 100 > wanted * 103)); then verdict='not as it should be: above the budget'
  elif (($3 * 100 < wanted * 97)); then verdict='below the budget; --set writes it anew'
  fi
  case $verdict in not*) failed=$((failed + 1)) ;; *) passed=$((passed + 1)) ;; esac
  printf '%-14s %-24s %12s %12s  %s\n' "$1" "$2" "$3" "${wanted:--}" "$verdict"
}

# judge_missing: each budget that wasn't measured, but for those of the library where it isn't there
judge_missing() {
  local chart what wanted
  while IFS=$'\t' read -r chart what wanted; do
    if [[ $chart = '#'* ]] || grep -qF "$chart"$'\t'"$what"$'\t' "$folder/lines"; then continue; fi
    if [ "$what" = sfc_scan ] && [ ! -x "$library/bench" ]; then continue; fi
    failed=$((failed + 1))
    echo "not as it should be: $chart, $what has the budget $wanted and isn't measured"
  done <"$budget"
}

# set_budget: the figures become the budget; what the library takes stays where it isn't there.
set_budget() {
  if [ -e "$folder/lost" ] || awk -F'\t' '$3 !~ /^[1-9][0-9]*$/ { wrong = 1 } END { exit !wrong }' "$folder/lines"; then
    echo "check.sh: a figure is missing, so $budget stays as it is" >&2
    exit 1
  fi
  [ -x "$library/bench" ] || grep -s $'\tsfc_scan\t' "$budget" >>"$folder/lines" || true
  { printf '# Chart, what is measured, instructions; written by bench/check.sh --set.\n'; cat "$folder/lines"; } >"$folder/budget"
  cp "$folder/budget" "$budget"
}

apart 1 measure_scans lamp lamp
apart 2 measure_scans '8 steps' 8
apart 3 measure_scans '64 steps' 64
apart 4 measure_scans '512 steps' 512
apart 5 measure_scans '16 tasks' tasks
apart 6 measure_large '1,024 steps'
wait
cat "$folder"/[1-6].lines >"$folder/lines"
if [ -e "$folder/lost" ]; then failed=1; echo "not as it should be: a measurement ended with a fault"; fi
[ -z "$sets" ] || set_budget
printf '%-14s %-24s %12s %12s\n' chart measured instructions budget
while IFS=$'\t' read -r chart what figure; do judge "$chart" "$what" "$figure"; done <"$folder/lines"
[ ! -e "$budget" ] || judge_missing
finish
