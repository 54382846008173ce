#!/usr/bin/env bash
# all.sh [quick|full] [--program FILE]: runs every script over the built program, one line for each: what passed, what failed, how long it
# took. `quick`, where nothing is said, takes some three minutes on four processors; `full` has the sizes that README.md names, and takes
# some 35. What measures time or holds back a run is alone; the others stand side by side, as many as there are processors. What a
# script prints about faults is shown below its line, and what it didn't ask since a tool is missing. A script that doesn't end in its time
# counts as one that failed. The program is FILE, else the one that SFCMON names, else the proved one that `rt ci` or `./sfcmon --prove`
# left in this clone; nothing is proved for it. The last line is 'N passed, M failed'.
# shellcheck disable=SC2317 # what runs is called by its name
set -u
tests=$(cd "$(dirname "${BASH_SOURCE[0]}")" && pwd)
mode=quick
while [ $# -gt 0 ]; do
  case $1 in
    quick | full) mode=$1 ;;
    --program) SFCMON=${2:-}; shift ;;
    *) echo "usage: all.sh [quick|full] [--program FILE]" >&2; exit 2 ;;
  esac
  shift
done
export SFCMON=${SFCMON:-$(dirname "$tests")/crates/sfcmon/out/sfcmon}
# shellcheck source=tests/common.sh
. "$tests/common.sh"
export SFCMON=$program
work=$(mktemp -d)
begun=$SECONDS most=$(nproc) count=0 running=0
scripts_passed=0 scripts_failed=0

# stop: what runs is ended, and nothing is left.
stop() {
  local file
  for file in "$work"/*.pid; do [ ! -e "$file" ] || kill "$(cat "$file")" 2>/dev/null; done
  rm -rf "$work"
}
trap stop EXIT
trap 'exit 130' INT TERM HUP

# run NUMBER SECONDS COMMAND..: the command with what it prints, its status and its time in files of this number
run() {
  local number=$1 limit=$2 begin=$SECONDS
  shift 2
  timeout --kill-after=10 "$limit" "$@" >"$work/$number.out" 2>"$work/$number.err" </dev/null &
  echo $! >"$work/$number.pid"
  wait $!
  limit="$? $((SECONDS - begin)) $limit"
  [ ! -d "$work" ] || echo "$limit" >"$work/$number.ended"
  rm -f "$work/$number.pid"
}

# fault_of NUMBER STATUS LIMIT: what is wrong with how a script ended, beside what it counts itself
fault_of() {
  if [ "$2" = 124 ]; then
    echo "no end within $3 seconds"
  elif [ "$2" = 137 ]; then
    echo "it was killed, or didn't end within $3 seconds even when it was asked to"
  elif [[ ! $(tail -n 1 "$work/$1.out") =~ ^[0-9]+\ passed,\ [0-9]+\ failed$ ]]; then
    echo "no last line 'N passed, M failed' (status $2)"
  elif [ "$2" != 0 ] && [[ $(tail -n 1 "$work/$1.out") = *' 0 failed' ]]; then
    echo "status $2"
  fi
}

# report NUMBER: the line of a script that has ended, and below it what is to be shown; its counts are added.
report() {
  local status seconds limit fault before=$failed own
  read -r status seconds limit <"$work/$1.ended"
  fault=$(fault_of "$1" "$status" "$limit")
  own=$passed
  add_counts "$work/$1.out" >/dev/null
  [ -z "$fault" ] || failed=$((failed + 1))
  printf '%-34s %7d passed, %d failed %5d s\n' "$(cat "$work/$1.title")" $((passed - own)) $((failed - before)) "$seconds"
  if [ "$failed" != "$before" ]; then
    scripts_failed=$((scripts_failed + 1))
    [ -z "$fault" ] || echo "  $fault"
    { head -n -1 "$work/$1.out" | head -n 100; tail -n 20 "$work/$1.err"; } | cut -c 1-400 | sed 's/^/  /'
  else
    scripts_passed=$((scripts_passed + 1))
    grep -hE '^(not asked|skipped)' "$work/$1.out" | cut -c 1-400 | sed 's/^/  /'
  fi
  mv "$work/$1.ended" "$work/$1.told"
}

# lose_all: what was started and hasn't ended counts as ended, where no process of it is left.
lose_all() {
  local number
  for ((number = 1; number <= count; number++)); do
    [ -e "$work/$number.ended" ] || [ -e "$work/$number.told" ] || echo "1 0 0" >"$work/$number.ended"
  done
}
# wait_for_one: waits until one ends, and reports all that have.
wait_for_one() {
  local file
  wait -n
  [ $? != 127 ] || lose_all
  for file in "$work"/*.ended; do
    [ -e "$file" ] || continue
    running=$((running - 1))
    file=${file##*/}
    report "${file%.ended}"
  done
}
wait_for_all() { while ((running > 0)); do wait_for_one; done; }

# beside SECONDS TITLE COMMAND..: starts a command once fewer run than there are processors.
beside() {
  while ((running >= most)); do wait_for_one; done
  count=$((count + 1)) running=$((running + 1))
  echo "$2" >"$work/$count.title"
  run "$count" "$1" "${@:3}" &
}
# alone SECONDS TITLE COMMAND..: runs a command with nothing beside it.
alone() { wait_for_all; beside "$@"; wait_for_all; }

# plants MODE COUNT PARTS: random plants of a subject from seed 1 on, in so many parts, which stand side by side
plants() {
  local each=$(($2 / $3)) part first title
  for ((part = 0; part < $3; part++)); do
    first=$((part * each + 1))
    title="plants $1, $first to $((first + each - 1))"
    beside "$limit" "$title" "$tests/reading/compare.sh" --mode "$1" "$(printf %q "$program")" "$each" "$first"
  done
}
# damages WORD COUNT FIRST PARTS: damaged texts (WORD is empty, `why` or `all`) from a seed on, in so many parts
damages() {
  local each=$(($2 / $4)) part first
  for ((part = 0; part < $4; part++)); do
    first=$(($3 + part * each))
    # shellcheck disable=SC2086 # no word where it is empty
    beside "$limit" "damaged.sh ${1:+$1 }$each $first" "$tests/damaged.sh" $1 "$each" "$first"
  done
}

# in_both: what both have, but for sizes, the longest of them first
in_both() {
  beside "$limit" refused.sh "$tests/refused.sh"
  beside "$limit" "damaged.sh bytes" "$tests/damaged.sh" bytes
  beside "$limit" "damaged.sh limits" "$tests/damaged.sh" limits
  beside "$limit" pictures.sh "$tests/pictures.sh"
  beside "$limit" report.sh "$tests/report.sh"
  beside "$limit" editors.sh "$tests/editors.sh"
  beside "$limit" "damaged streams of editors" python3 "$tests/editors/damage.py" "$program" "$streams"
  beside "$limit" mutants.sh "$tests/mutants.sh"
  beside "$limit" "the reading's own cases" python3 "$tests/reading/cases.py" "$top/crates/conformance/data"
  beside "$limit" outline.sh "$tests/outline.sh"
  beside "$limit" scripts.sh "$tests/scripts.sh"
  beside "$limit" tools/check-pages "$top/tools/check-pages"
  beside "$limit" "tools/dev --paths" "$top/tools/dev" --paths
}

quick() {
  limit=1800 streams=400
  # both wait most of the time
  [ ! -x "$tests/launcher.sh" ] || beside "$limit" "launcher.sh quick" "$tests/launcher.sh" quick
  beside "$limit" program.sh "$tests/program.sh"
  alone "$limit" "pressure.sh 10000" "$tests/pressure.sh" 10000
  alone "$limit" "epochs.sh 1200000" "$tests/epochs.sh" 1200000
  in_both
  plants whole 2000 4
  plants steps 40 4
  for kind in control tasks image debug; do plants "$kind" 100 1; done
  damages "" 400 1 2
  damages why 400 1 2
  damages all 400 1 2
  beside "$limit" "cover.sh 2" "$tests/cover.sh" 2
  beside "$limit" "drawing.sh 1" "$tests/drawing.sh" 1
  beside "$limit" "lint.sh 300 10" "$tests/lint.sh" 300 10
  beside "$limit" "reading/tests.py 200" python3 "$tests/reading/tests.py" "$program" 200
  # what builds a page proves, so that the quick part takes one that is there
  [ ! -e "$top/build/web/sfc.wasm" ] || WEB=$top/build/web beside "$limit" "web.sh quick" "$tests/web.sh" quick
  wait_for_all
}

full() {
  local first
  limit=7200 streams=50000
  alone "$limit" program.sh "$tests/program.sh"
  alone "$limit" pressure.sh "$tests/pressure.sh"
  alone "$limit" epochs.sh "$tests/epochs.sh"
  [ ! -x "$tests/launcher.sh" ] || alone "$limit" "launcher.sh full" "$tests/launcher.sh" full
  plants steps 400 8
  for kind in whole control tasks image debug; do plants "$kind" 2000 4; done
  damages "" 10000 200001 4
  damages why 5000 300001 4
  damages all 5000 300001 4
  beside "$limit" "cover.sh 40" "$tests/cover.sh" 40
  for ((first = 1; first < 341; first += 85)); do beside "$limit" "drawing.sh 85 $first" "$tests/drawing.sh" 85 "$first"; done
  beside "$limit" "lint.sh 5000 850" "$tests/lint.sh" 5000 850
  beside "$limit" "reading/tests.py 2000" python3 "$tests/reading/tests.py" "$program" 2000
  in_both
  wait_for_all
  alone "$limit" c_library.sh "$tests/c_library.sh"
  alone "$limit" "web.sh full" "$tests/web.sh" full
  [ ! -x "$tests/release.sh" ] || alone "$limit" release.sh "$tests/release.sh"
  if [ "$program" = "$top/crates/sfcmon/out/sfcmon" ]; then
    alone "$limit" bench/check.sh "$top/bench/check.sh"
  else
    echo "skipped: bench/check.sh, since its budgets are those of the proved program"
  fi
  if command -v afl-fuzz >/dev/null; then
    alone "$limit" "fuzz.sh 300" "$tests/fuzz/fuzz.sh" 300 "$work/fuzz"
  else
    echo "skipped: fuzz.sh, since afl-fuzz isn't installed (afl++)"
  fi
}

# needs TOOL..: what no script can do without
needs() {
  local tool missing=
  for tool in "$@"; do command -v "$tool" >/dev/null || missing+=" $tool"; done
  [ -n "$missing" ] || return 0
  echo "not as it should be: these have to be installed:$missing"
  failed=1
  tell_counts
  exit 1
}
main() {
  needs python3 cc timeout
  echo "$program: $mode, at most $most side by side"
  "$mode"
  echo "$((scripts_passed + scripts_failed)) scripts, $scripts_failed of which have faults, in $((SECONDS - begun)) s"
  tell_counts
}
main; exit
