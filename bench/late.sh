#!/usr/bin/env bash
# late.sh [SECONDS]: how late `sfcmon run` scans tasks of a millisecond, by its lines, beside a loop in C that sleeps by clock_nanosleep and
# runs at the same time: 1, 4 and 16 tasks, and tasks of 1, 10, 100 and 200 ms together, under the usual scheduler and, where that is allowed, under
# chrt -f 50, each for so many seconds (10 where none is said); then what of a processor an idle run takes. A row for each task. It is for an
# idle machine: what else runs is measured too. It wants a C compiler and python3.
set -u
here=$(cd "$(dirname "${BASH_SOURCE[0]}")" && pwd)
# shellcheck source=tests/common.sh
. "$here/../tests/common.sh"
seconds=${1:-10}
work=$(mktemp -d)
trap 'rm -rf "$work"' EXIT
"${CC:-cc}" -O2 -pthread -o "$work/loop" "$here/late.c" || exit 3

# chart_of INTERVAL..: a chart with a task and a program for each of these intervals
chart_of() {
  local k=0 it tasks='' programs=''
  for it in "$@"; do
    tasks+="TASK T$k(INTERVAL := $it, PRIORITY := 1); "
    programs+="PROGRAM P$k WITH T$k : Blink; "
    k=$((k + 1))
  done
  printf 'PROGRAM Blink VAR n : INT; END_VAR INITIAL_STEP A: Count(N); END_STEP STEP B: END_STEP
TRANSITION FROM A TO B := A.T >= T#5ms; END_TRANSITION TRANSITION FROM B TO A := TRUE; END_TRANSITION
ACTION Count: n := (n + 1) MOD 100; END_ACTION END_PROGRAM
CONFIGURATION C RESOURCE R ON Plc %s %s END_RESOURCE END_CONFIGURATION\n' "$tasks" "$programs"
}

# measure TITLE LOOPS INTERVAL..: the run and beside it so many loops in C, under each scheduler
measure() {
  local title=$1 loops=$2 scheduler micros
  shift 2
  chart_of "$@" >"$work/chart"
  micros=("${@#T#}")
  micros=("${micros[@]/%ms/000}")
  for scheduler in '' 'chrt -f 50'; do
    # shellcheck disable=SC2086 # the scheduler is words
    $scheduler true 2>/dev/null || { echo "not asked, $scheduler isn't allowed: $title"; continue; }
    echo "== $title, ${scheduler:-usual scheduler}"
    # shellcheck disable=SC2086
    $scheduler "$program" run --for "T#${seconds}s" --trace 1 "$work/chart" </dev/null 2>/dev/null \
      | python3 "$here/late.py" "${micros[@]}" &
    # shellcheck disable=SC2086
    $scheduler "$work/loop" "$loops" "$seconds"
    wait
  done
}

ms() { local k; for ((k = 0; k < $1; k++)); do echo T#1ms; done; }
measure '1 task of 1 ms' 1 T#1ms
# shellcheck disable=SC2046 # a word for each task
measure '4 tasks of 1 ms' 4 $(ms 4)
# shellcheck disable=SC2046
measure '16 tasks of 1 ms' 16 $(ms 16)
measure 'tasks of 1, 10, 100 and 200 ms' 1 T#1ms T#10ms T#100ms T#200ms

echo "== an idle run: a task of 200 ms"
chart_of T#200ms >"$work/chart"
"$program" run --forever --trace 0 "$work/chart" </dev/null >"$work/out" 2>&1 &
number=$!
sleep "$seconds"
awk -v seconds="$seconds" -v hertz="$(getconf CLK_TCK)" '{ printf "%.2f %% of a processor\n", 100 * ($14 + $15) / hertz / seconds }' "/proc/$number/stat"
kill "$number"
wait "$number" 2>/dev/null
exit 0
