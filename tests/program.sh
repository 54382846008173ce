#!/usr/bin/env bash
# Runs the built sfcmon on what only the program can show: the words of the command line, files, the text on standard
# error and the exit status. The last line is 'N passed, M failed'.
set -u
here=$(cd "$(dirname "${BASH_SOURCE[0]}")" && pwd)
# shellcheck source=tests/common.sh
. "$here/common.sh"
examples=$top/examples
work=$(mktemp -d)
trap 'rm -rf "$work"' EXIT

# run WORD..: the program with these words; leaves out, err and status
run() { "$program" "$@" >"$work/out" 2>"$work/err" </dev/null; status=$?; }
note() { if [ "$1" = 0 ]; then passed=$((passed + 1)); else failed=$((failed + 1)); echo "not as it should be: $2 (status $status)"; fi; }
ends() { [ "$status" = "$1" ]; }
is_silent() { [ ! -s "$work/out" ]; }
says() { [ "$(cat "$work/err")" = "$1" ]; }
mentions() { grep -qF -- "$1" "$work/$2"; }
# usage TITLE TEXT WORD..: these words are wrong, and the text on standard error says so
usage() { local title=$1 text=$2; shift 2; run "$@"; ends 2 && is_silent && mentions "$text" err; note $? "$title"; }
# fails TITLE STATUS TEXT WORD..: nothing is written, and the whole of standard error is the text
fails() { local title=$1 wanted=$2 text=$3; shift 3; run "$@"; ends "$wanted" && is_silent && says "$text"; note $? "$title"; }

chart=$examples/lamp.chart script=$examples/lamp.script
printf 'PROGRAM Mix\n1' >"$work/faulty.chart"
sed 's/INITIAL_STEP/STEP/' "$chart" >"$work/dark.chart"
# the chart that docs/LANGUAGE.md shows
awk '/^```/ { if (++fence == 2) exit; next } fence == 1' "$top/docs/LANGUAGE.md" >"$work/press.chart"
printf 'T#0s SCAN Main\nT#0s JUMP\n' >"$work/faulty.script"
printf 'T#0s SCAN Fast\n' >"$work/press.script"
printf 'T#0s SCAN Main\nT#1ms SCAN Main\n' >"$work/early.script"

for example in "$examples"/*.chart; do
  run replay "$example" "${example%.chart}.script"
  ends 0 && cmp -s "$work/out" "${example%.chart}.expect" && says ""
  note $? "$(basename "$example")"
done

# the session that README.md shows: its second block, and what it prints but for the variables
awk '/^```/ { fence++; next } fence == 3' "$top/README.md" >"$work/session.script"
awk '/^```/ { fence++; next } fence == 5' "$top/README.md" >"$work/session.expect"
run replay "$examples/pump.chart" "$work/session.script"
ends 0 && says "" && [ -s "$work/session.expect" ] && grep -v '^image' "$work/out" | cmp -s - "$work/session.expect"
note $? "the session of README.md"

usage "no words" "Usage: sfcmon"
usage "no such command" "unrecognized subcommand" play "$chart" "$script"
usage "no files" "<FILE>" replay
usage "no script" "<SCRIPT>" replay "$chart"
usage "a third file" "unexpected argument" replay "$chart" "$script" "$script"
usage "no file to check" "<FILE>" check
usage "a second file to check" "unexpected argument" check "$chart" "$script"
usage "no file to list" "<FILE>" list
usage "a second file to list" "unexpected argument" list "$chart" "$script"
usage "no such option" "unexpected argument" replay --fast "$chart" "$script"
usage "a name that isn't UTF-8" "invalid UTF-8" replay $'caf\xe9.chart' "$script"

run --version
ends 0 && [[ $(cat "$work/out") =~ ^sfcmon\ [0-9.]+$ ]] && says ""
note $? "the version"
run --help
ends 0 && mentions "replay" out && says ""
note $? "the help"
run check --help
ends 0 && mentions "Exit status:" out && mentions "docs/LANGUAGE.md" out && mentions "Example:" out && says ""
note $? "the help on check"
run replay --help
ends 0 && mentions "Exit status:" out && mentions "docs/FORMATS.md" out && mentions "Examples:" out && says ""
note $? "the help on replay"

for example in "$examples"/*.chart "$work/press.chart"; do
  run check "$example"
  ends 0 && [ "$(cat "$work/out")" = ok ] && says ""
  note $? "$(basename "$example"), checked"
done
# a listing is what docs/FORMATS.md shows, is checked without fault, and lists the same again
awk '/^## Listing/ { seen = 1 } seen && /^```/ { if (++fence == 2) exit; next } fence == 1' "$top/docs/FORMATS.md" >"$work/shown.chart"
run list "$work/shown.chart"
ends 0 && cmp -s "$work/out" "$work/shown.chart" && says ""
note $? "the listing that is shown"
for example in "$examples"/*.chart "$work/press.chart"; do
  run list "$example"
  ends 0 && says "" && cp "$work/out" "$work/listed.chart" && run list "$work/listed.chart" && ends 0 \
    && cmp -s "$work/out" "$work/listed.chart" && run check "$work/listed.chart" && ends 0
  note $? "$(basename "$example"), listed"
done
run list --help
ends 0 && mentions "Exit status:" out && mentions "docs/FORMATS.md" out && mentions "Example:" out && says ""
note $? "the help on list"
fails "a chart that is listed, and that the reader refuses" 1 "refused 4 Syntax line 2" list "$work/faulty.chart"
fails "a chart that is listed, and that the loader refuses" 1 "refused 14 NoInitial" list "$work/dark.chart"
fails "a chart to be listed that isn't there" 3 "read fault" list "$work/no.chart"
fails "a chart that is checked, and that the reader refuses" 1 "refused 4 Syntax line 2" check "$work/faulty.chart"
fails "a chart that is checked, and that the loader refuses" 1 "refused 14 NoInitial" check "$work/dark.chart"
fails "a chart to be checked that isn't there" 3 "read fault" check "$work/no.chart"
fails "a chart that the reader refuses" 1 "refused 4 Syntax line 2" replay "$work/faulty.chart" "$script"
fails "a chart that the loader refuses" 1 "refused 14 NoInitial" replay "$work/dark.chart" "$script"
fails "a script that is refused" 1 "script line 2" replay "$chart" "$work/faulty.script"
fails "a chart that isn't there" 3 "read fault" replay "$work/no.chart" "$script"
fails "a script that isn't there" 3 "read fault" replay "$chart" "$work/no.script"
fails "a script that isn't there, with a chart that is refused" 3 "read fault" replay "$work/dark.chart" "$work/no.script"
fails "a folder" 3 "read fault" replay "$work" "$script"

run replay "$work/press.chart" "$work/press.script"
ends 0 && mentions "  Press1 1 steps Open=T#0s cleared - run OpenLamp" out && says ""
note $? "the chart that is shown"
run replay "$chart" "$work/early.script"
ends 0 && mentions "refused 29 NotDue" out && says ""
note $? "a command that is refused leaves status 0"
# strict TITLE STATUS CHART SCRIPT: the output is that without --strict, and the status is this one
strict() {
  run replay "$3" "$4"
  cp "$work/out" "$work/plain"
  run replay --strict "$3" "$4"
  ends "$2" && says "" && cmp -s "$work/out" "$work/plain"
  note $? "$1"
}
strict "nothing is refused, with --strict" 0 "$chart" "$script"
strict "a command that is refused, with --strict" 1 "$chart" "$work/early.script"
sed 's/Lamp(N)/Lamp(L, T#1s); Lamp(D, T#1s)/' "$chart" >"$work/timed.chart"
printf 'T#0s SCAN Main\n' >"$work/one.script"
strict "a scan that ends with a fault, with --strict" 1 "$work/timed.chart" "$work/one.script"
run replay "$chart" "$script" --strict
ends 0 && says ""
note $? "--strict behind the files"
fails "a chart that is refused, with --strict" 1 "refused 14 NoInitial" replay --strict "$work/dark.chart" "$script"
usage "--strict of another command" "unexpected argument" check --strict "$chart"
if [ -e /dev/full ]; then
  "$program" replay "$chart" "$script" >/dev/full 2>"$work/err"
  status=$?
  ends 3 && says "write fault"
  note $? "output that can't be written"
  "$program" replay "$work/dark.chart" "$script" >"$work/out" 2>/dev/full
  status=$?
  ends 1 && is_silent
  note $? "a fault text that can't be written"
fi

# ---- why

for example in "$examples"/*.chart "$work/press.chart"; do
  run why "$example"
  ends 0 && [ "$(cat "$work/out")" = "no fault" ] && says ""
  note $? "$(basename "$example"), asked why"
done
for example in "$examples"/*.chart; do
  run why "$example" "${example%.chart}.script"
  ends 0 && [ "$(cat "$work/out")" = "no fault" ] && says ""
  note $? "$(basename "$example") and its script, asked why"
done
# tells TITLE FIRST WORD..: the first line is this one, standard error is empty, and the status is 1
tells() { local title=$1 first=$2; shift 2; run why "$@"; ends 1 && says "" && [ "$(head -1 "$work/out")" = "$first" ]; note $? "$title"; }
tells "why the reader refuses a chart" "$work/faulty.chart:2:1: 4 Syntax: 1" "$work/faulty.chart"
tells "why the loader refuses a chart" "$work/dark.chart:2:9: 14 NoInitial: Mix" "$work/dark.chart"
tells "why a script is refused" "$work/faulty.script:2:6: script line 2: JUMP" "$chart" "$work/faulty.script"
tells "why a chart is refused, before its script" "$work/dark.chart:2:9: 14 NoInitial: Mix" "$work/dark.chart" "$work/faulty.script"
tells "why a chart is refused, for all of its faults" "$work/faulty.chart:2:1: 4 Syntax: 1" --all "$work/faulty.chart"
printf 'T#0s READ Gone\n' >"$work/warned.script"
run why "$chart" "$work/warned.script"
ends 0 && says "" && [ "$(sed -n '1p;$p' "$work/out")" = "$work/warned.script:1:11: warning 24 UnknownVar: Gone"$'\n'"no fault" ]
note $? "a script without fault that is warned of"
# the report that docs/FORMATS.md shows
sed 's/:= Stop;/:= Stpo AND Start;/' "$examples/pump.chart" >"$work/bad.chart"
awk '/^## Why/ { seen = 1 } seen && /^```/ { if (++fence == 2) exit; next } fence == 1' "$top/docs/FORMATS.md" >"$work/shown"
run why "$work/bad.chart"
ends 1 && says "" && sed "s|^$work/||" "$work/out" | cmp -s - "$work/shown"
note $? "the report that is shown"
# the meaning and the usual cause are those of explain
run explain 9
grep -E '^  (meaning|usual cause): ' "$work/out" | cmp -s - <(grep -E '^  (meaning|usual cause): ' "$work/shown")
note $? "the meaning and the cause are those of explain"
run why --help
ends 0 && mentions "Exit status:" out && mentions "docs/FORMATS.md" out && mentions "Examples:" out && says ""
note $? "the help on why"
run check --help
mentions "sfcmon why" out
note $? "the help on check names why"
run explain --help
mentions "sfcmon why" out
note $? "the help on explain names why"
usage "no file to ask why" "<FILE>" why
usage "a third file to ask why" "unexpected argument" why "$chart" "$script" "$script"
fails "a chart to ask why that isn't there" 3 "read fault" why "$work/no.chart"
fails "a script to ask why that isn't there" 3 "read fault" why "$work/dark.chart" "$work/no.script"
fails "a folder to ask why" 3 "read fault" why "$work"
if [ -e /dev/full ]; then
  "$program" why "$work/dark.chart" >/dev/full 2>"$work/err"
  status=$?
  ends 3 && says "write fault"
  note $? "a report that can't be written"
fi

# ---- test

for example in "$examples"/*.chart; do
  run test --cover 100 "$example" "${example%.chart}.sfctest"
  ends 0 && says "" && mentions "$(grep -c '^TEST ' "${example%.chart}.sfctest") passed, 0 failed" out &&
    grep -q '^total .* 100%$' "$work/out"
  note $? "the tests of $(basename "$example"), which reach all of it"
  run test "$example" "${example%.chart}.script"
  ends 0 || ends 1
  note $? "the script of $(basename "$example") is a file of tests"
done
# what docs/FORMATS.md shows
cat >"$work/pump.sfctest" <<'end'
TEST it starts
INPUT Start TRUE
UNTIL Pump WITHIN T#200ms
TEST it runs on
INPUT Start TRUE
RUN T#1s
INPUT Start FALSE
INPUT Stop TRUE
ALWAYS Pump FOR T#2s
RUN T#5s
end
awk '/^## Test/ { seen = 1 } seen && /^```/ { if (++fence == 2) exit; next } fence == 1' "$top/docs/FORMATS.md" | tail -n +2 >"$work/shown"
run test "$examples/pump.chart" "$work/pump.sfctest"
ends 1 && says "" && [ -s "$work/shown" ] && sed "s|$work/||" "$work/out" | cmp -s - "$work/shown"
note $? "the results that are shown"
# the files of docs/TESTING.md
awk '/^```/ { fence++; next } fence == 1' "$top/docs/TESTING.md" >"$work/first.sfctest"
run test "$examples/pump.chart" "$work/first.sfctest"
ends 0 && says "" && [ "$(tail -n 1 "$work/out")" = "2 passed, 0 failed" ]
note $? "the first test of docs/TESTING.md"
# each pattern of docs/TESTING.md, on the chart that it names
awk -v to="$work/pattern" '/^## Patterns/ { seen = 1 } /^## On a bench/ { exit } !seen { next }
  match($0, /On `[a-z_]+\.chart`:$/) { name = substr($0, RSTART + 4, RLENGTH - 12) }
  /^```/ { if (open) close(file); else file = to "-" ++number "-" name ".sfctest"; open = !open; next }
  open { print >file }' "$top/docs/TESTING.md"
for pattern in "$work"/pattern-*.sfctest; do
  name=${pattern##*-}
  run test "$examples/${name%.sfctest}.chart" "$pattern"
  ends 0 && says "" && mentions "1 passed, 0 failed" out
  note $? "a pattern of docs/TESTING.md on ${name%.sfctest}.chart"
done
# the charts of docs/PATTERNS.md: without a warning, held whole by their tests; and each of its blocks stands in the chart above it
for chart_of in "$examples"/patterns/*.chart; do
  name=$(basename "${chart_of%.chart}")
  run lint --deny all "$chart_of"
  ends 0 && says "" && run test --cover 100 "$chart_of" "${chart_of%.chart}.sfctest"
  ends 0 && says "" && mentions " passed, 0 failed" out && [ "$(grep -c "patterns/$name\.\(chart\|sfctest\|svg\))" "$top/docs/PATTERNS.md")" = 2 ]
  note $? "the pattern $name"
done
awk -v to="$work/block" 'match($0, /^\[Chart\]\(\.\.\/examples\/patterns\/[a-z]+/) { name = substr($0, 30, RLENGTH - 29) }
  /^```/ { if (open) close(file); else file = to "-" ++number "-" name; open = !open; next }
  open { print >file }' "$top/docs/PATTERNS.md"
for block in "$work"/block-*; do
  [ -s "$block" ] && python3 -c 'import sys; sys.exit(open(sys.argv[1]).read() not in open(sys.argv[2]).read())' \
    "$block" "$examples/patterns/${block##*-}.chart"
  note $? "a block of docs/PATTERNS.md on ${block##*-}.chart"
done
# files that include others
mkdir -p "$work/parts/deep"
printf 'LET Soon = T#200ms\n; no case\nINCLUDE deep/never.sfctest\n' >"$work/parts/front.sfctest"
printf 'NEVER Pump AND IdleLamp' >"$work/parts/deep/never.sfctest"
printf '%s\n' 'RUN T#0s' 'INCLUDE parts/front.sfctest  ' 'TEST it starts' 'INPUT Start TRUE' 'UNTIL Pump WITHIN Soon' \
  'EXPECT IdleLamp' >"$work/whole.sfctest"
run test "$examples/pump.chart" "$work/whole.sfctest"
ends 1 && says "" && mentions "whole.sfctest:6:1: EXPECT IdleLamp" out && mentions "0 passed, 1 failed" out
note $? "a file that includes two others"
printf '%s\n' 'INPUT Start TRUE' 'FORCE IdleLamp TRUE' 'INCLUDE parts/front.sfctest' 'TEST it starts' 'UNTIL Pump WITHIN T#1s' \
  >"$work/broken.sfctest"
run test "$examples/pump.chart" "$work/broken.sfctest"
ends 1 && says "" && mentions "parts/deep/never.sfctest:1:1: NEVER Pump AND IdleLamp" out && mentions ", line 5: " out
note $? "what a file says that is included"
printf 'EXPECT Pimp\n' >"$work/parts/deep/never.sfctest"
run test "$examples/pump.chart" "$work/whole.sfctest"
ends 1 && says "$work/parts/deep/never.sfctest: script line 1"
note $? "a faulty line of a file that is included"
printf '\nINCLUDE ../front.sfctest\n' >"$work/parts/deep/never.sfctest"
run test "$examples/pump.chart" "$work/whole.sfctest"
ends 1 && mentions "never.sfctest: script line 2: ../front.sfctest: " err
note $? "a ring of files"
printf 'TEST one\nINCLUDE nowhere.sfctest\n' >"$work/lost.sfctest"
run test "$examples/pump.chart" "$work/lost.sfctest" "$work/first.sfctest"
ends 1 && says "$work/lost.sfctest: script line 2: nowhere.sfctest: it can't be read" && mentions "2 passed, 0 failed" out
note $? "a file that isn't there, included"
# the first case that fails
run test --script "$work/kept.script" --wave "$work/kept.vcd" "$examples/pump.chart" "$work/pump.sfctest"
# shellcheck disable=SC2016 # the word of the dump
ends 1 && says "" && [ "$(tail -n 1 "$work/kept.script")" = "T#2s_200ms SCAN Main" ] && grep -q '^\$enddefinitions' "$work/kept.vcd"
note $? "the script and the signals of the first case that fails"
run replay --strict "$examples/pump.chart" "$work/kept.script"
ends 0 && says "" && mentions "Pump FALSE" out
note $? "the script of a case that has failed, replayed"
run test --cover 100 "$examples/pump.chart" "$work/first.sfctest"
ends 1 && mentions "2 passed, 0 failed" out && says "$(sed -n 's/^total .* \([0-9]*\)%$/\1/p' "$work/out") % is less than 100 %"
note $? "cases that reach too little"
printf 'TEST it starts\nEXPECT Pimp\n' >"$work/misspelt.sfctest"
run test "$examples/pump.chart" "$work/misspelt.sfctest" "$work/first.sfctest"
ends 1 && says "$work/misspelt.sfctest: script line 2" && [ "$(tail -n 1 "$work/out")" = "2 passed, 0 failed" ]
note $? "a file with a faulty line, and one without"
run test --list "$examples/pump.chart" "$work/pump.sfctest"
ends 0 && says "" && [ "$(cat "$work/out")" = $'it starts\nit runs on' ]
note $? "the names of cases"
run test --filter starts "$examples/pump.chart" "$work/pump.sfctest"
ends 0 && says "" && [ "$(cat "$work/out")" = $'ok it starts\n1 passed, 0 failed' ]
note $? "the cases with a word in their names"
run test --tap --junit "$work/junit.xml" "$examples/pump.chart" "$work/pump.sfctest"
ends 1 && says "" && [ "$(grep -E '^(not )?ok |^1' "$work/out")" = $'ok 1 - it starts\nnot ok 2 - it runs on\n1..2' ]
note $? "results in the Test Anything Protocol"
[ "$(python3 -c '
import sys
import xml.etree.ElementTree as tree
suite = tree.parse(sys.argv[1]).getroot()[0]
print(suite.get("tests"), suite.get("failures"), *(f"{it.get('"'name'"')}:{len(it)}" for it in suite))
' "$work/junit.xml")" = "2 1 it starts:0 it runs on:1" ]
note $? "results as the XML of JUnit"
if command -v prove >/dev/null; then
  prove -e "$program test --tap $examples/pump.chart" "$examples/pump.sfctest" >"$work/out" 2>&1 && mentions "Result: PASS" out
  note $? "prove reads the results"
else
  echo "not asked, prove isn't there: prove reads the results"
fi
if pytest=$(command -v pytest-3 || command -v pytest); then
  mkdir "$work/collected" && cp "$examples/pump.chart" "$examples/pump.sfctest" "$work/collected"
  (cd "$work/collected" && SFCMON=$program PYTHONPATH=$top/share/python "$pytest" -q -p pytest_sfctest) >"$work/out" 2>&1
  mentions "4 passed" out
  note $? "pytest collects files of tests"
else
  echo "not asked, pytest isn't there: pytest collects files of tests"
fi
run test --help
ends 0 && mentions "Exit status:" out && mentions "docs/FORMATS.md" out && mentions "Examples:" out && says ""
note $? "the help on test"
usage "no file to test" "<FILE>" test
usage "no tests" "<TESTS>" test "$chart"
fails "a chart that is refused, tested" 1 "refused 14 NoInitial" test "$work/dark.chart" "$work/first.sfctest"
fails "a chart that isn't there, tested" 3 "read fault" test "$work/no.chart" "$work/first.sfctest"
fails "tests that aren't there" 3 "$work/no.sfctest: read fault" test "$chart" "$work/first.sfctest" "$work/no.sfctest"
fails "a folder of tests" 3 "$work: read fault" test "$chart" "$work"
if [ -e /dev/full ]; then
  "$program" test "$examples/pump.chart" "$work/first.sfctest" >/dev/full 2>"$work/err"
  status=$?
  ends 3 && says "write fault"
  note $? "results that can't be written"
fi

# ---- explain

unknown() { fails "$1" 2 "error: no refusal or fault is called '$2'; 'sfcmon explain' lists all" explain "${@:3}"; }
unknown "a number that isn't there" 43 43
unknown "a number that no byte has" 300 300
unknown "a name that isn't there" "No Initial" No Initial
unknown "an empty name" "" ""
usage "explain with an option that isn't there" "unexpected argument" explain --all
run explain --help
ends 0 && mentions "Exit status:" out && mentions "docs/FORMATS.md" out && mentions "Examples:" out && says ""
note $? "the help on explain"
run explain
ends 0 && says "" && cp "$work/out" "$work/listed" && [ "$(wc -l <"$work/listed")" = 51 ]
note $? "all refusals and faults"
# an explanation is what docs/FORMATS.md shows
awk '/^## Refusals/ { seen = 1 } seen && /^```/ { if (++fence == 2) exit; next } fence == 1' "$top/docs/FORMATS.md" >"$work/shown"
for word in 14 014 NoInitial noinitial; do
  run explain "$word"
  ends 0 && says "" && cmp -s "$work/out" "$work/shown"
  note $? "explain $word"
done
run explain out of memory
ends 0 && says "" && [ "$(head -1 "$work/out")" = "out of memory" ] && cp "$work/out" "$work/apart" \
  && run explain "OUT of memory" && ends 0 && cmp -s "$work/out" "$work/apart"
note $? "a name of three words"

# field NAME: what the explanation in $work/page says of it
field() { sed -n "s/^  $1: //p" "$work/page"; }
# each that is listed is told by its number and by its name, with all that is told of one; rows: number|name|from|line
: >"$work/told"
while read -r row; do
  heading=${row%%: *}
  number=${heading%%[!0-9]*} name=${heading#[0-9]* }
  run explain "${number:-$name}"
  ends 0 && says "" && cp "$work/out" "$work/page" && [ "$(head -1 "$work/page")" = "$heading" ] && [ "$row" = "$heading: $(field meaning)" ] \
    && [ -n "$(field 'usual cause')" ] && grep -q '^    [^ ]' "$work/page" && run explain "${name^^}" && ends 0 \
    && { cmp -s "$work/out" "$work/page" || [ "$heading" = "23 Memory" ]; }
  note $? "explain $heading"
  echo "$number|$name|$(field 'told by')|$(field line)" >>"$work/told"
done <"$work/listed"

# the tables of docs/FORMATS.md have the same numbers, names and marks
# shellcheck disable=SC2016 # marks of the page, not commands
sed -nE 's/^\| ([0-9]+) `([A-Za-z]+)`[^|]*\| ([^|]*) \| *([^ |]*) *\|.*/\1|\2|\3|\4/p' "$top/docs/FORMATS.md" \
  | sed 's/|$/|no/' >"$work/rows"
grep '^[0-9]' "$work/told" | diff - "$work/rows"
note $? "the table of refusals in docs/FORMATS.md"
# shellcheck disable=SC2016
awk '/^\| (KIND|Other faults) / { on = 1 } !/^\|/ { on = 0 } on && /^\| `/' "$top/docs/FORMATS.md" | cut -d'|' -f2 | grep -oE '`[^`]+`' \
  | sed -E 's/`//g; s/ [0-9]+$//' >"$work/rows"
grep -v '^[0-9]' "$work/told" | cut -d'|' -f2 | diff - "$work/rows"
note $? "the tables of faults in docs/FORMATS.md"

# the table of limits in docs/LANGUAGE.md has the same numbers
# shellcheck disable=SC2016
sed -nE 's/^\| .* \| ([0-9,]+) \| 22 `Limit ([A-Za-z]+)` \|$/\2 (\1)/p' "$top/docs/LANGUAGE.md" | sort >"$work/rows"
"$program" explain 22 | sed -n 's/^  meaning: //p' | grep -oE '[A-Za-z]+ \([0-9,]+\)' | sort | diff - "$work/rows"
note $? "the table of limits in docs/LANGUAGE.md"

# ---- the examples of explain lead to what they explain

cat >"$work/frame" <<'FRAME'
PROGRAM Mix
  VAR Count : INT := 1; Zero : INT; Delay : TIME := T#1s; END_VAR
@own
  INITIAL_STEP Idle: END_STEP
  STEP Busy: END_STEP
@elements
END_PROGRAM
@types
CONFIGURATION C
  RESOURCE R ON Plc
    VAR_GLOBAL Lamp : BOOL; Start AT %IX0.0 : BOOL; END_VAR
@globals
    TASK Main(INTERVAL := T#10ms, PRIORITY := 1);
    TASK Slow(INTERVAL := T#20ms, PRIORITY := 2);
@tasks
    PROGRAM P WITH Main : Mix;
    PROGRAM Q WITH Slow : Mix;
@instances
  END_RESOURCE
END_CONFIGURATION
FRAME
# framed FILE: the chart of the examples, with the lines of the file where their first words belong
framed() {
  awk '
    FILENAME == ARGV[1] {
      if ($1 ~ /^(VAR|VAR_EXTERNAL)$/) place = "own"
      if ($1 ~ /^(INITIAL_STEP|STEP|TRANSITION|ACTION)$/) place = "elements"
      if ($1 == "PROGRAM") place = /END_PROGRAM/ ? "types" : "instances"
      if ($1 == "VAR_GLOBAL") place = "globals"
      if ($1 == "TASK") place = "tasks"
      text[place] = text[place] $0 "\n"
      next
    }
    /^@/ { printf "%s", text[substr($0, 2)]; next }
    { print }' "$1" "$work/frame"
}
: >"$work/nothing"
framed "$work/nothing" >"$work/framed.chart"
printf 'T#0s SCAN Main\nT#10ms SCAN Main\n' >"$work/framed.script"
mkdir "$work/bin" "$work/there"
ln -s "$program" "$work/bin/sfcmon"
ln -s "$examples" "$work/there/examples"
{ echo 'PROGRAM Mix'; seq -f '  STEP S%.0f: END_STEP' 40000; echo 'END_PROGRAM'; } >"$work/there/large.chart"
# leads NUMBER NAME LINE: the lines of $work/example, which stand in $place, lead to this
leads() {
  local told="refused $1 $2"
  case $place in
    chart)
      [ "$1" != 22 ] || printf '    TASK Another%s(PRIORITY := 1);\n' {1..14} >>"$work/example"
      [ "$1" != 22 ] || told="$told Tasks"
      framed "$work/example" >"$work/example.chart"
      if [ -z "$1" ]; then
        run replay "$work/example.chart" "$work/framed.script"
        ends 0 && grep -qx "  P fault $2" "$work/out"
      else
        run check "$work/example.chart"
        [ "$3" = no ] || told="$told line [0-9]+"
        ends 1 && grep -qxE "$told" "$work/err"
      fi
      ;;
    script)
      : >"$work/more"
      if [ "$1" = 38 ]; then
        printf '  STEP S%s: END_STEP\n' {1..65} >"$work/more"
        { printf 'T#0s BREAK P STEP S%s\n' {1..64}; cat "$work/example"; } >"$work/longer" && mv "$work/longer" "$work/example"
      fi
      framed "$work/more" >"$work/framed.chart"
      run replay "$work/framed.chart" "$work/example"
      if [ -z "$1" ]; then ends 1 && says "$2 1"; else ends 0 && grep -qE "^$told( |$)" "$work/out"; fi
      ;;
    code) # its calls are there
      status=0
      grep -oE '[a-z_]+\(' "$work/example" | while read -r call; do grep -rqF "fn $call" "$top"/crates/*/src || exit 1; done
      ;;
    *)
      (cd "$work/there" && PATH=$work/bin:$PATH bash "$work/example") >"$work/out" 2>"$work/err" </dev/null
      status=$?
      case $2 in
        Memory | "out of memory") ends 4 && says "out of memory" ;;
        TooLong) ends 1 && says "$told line $3" ;;
        *) ends 3 && says "$2" ;;
      esac
      ;;
  esac
}
run check "$work/framed.chart"
ends 0
note $? "the chart into which the examples are put"
while IFS='|' read -r number name _ line; do
  case $name in
    "write fault") [ -e /dev/full ] || continue ;;
  esac
  run explain "${number:-$name}"
  place=$(sed -nE 's/^  example, (in|on) ((a|the) )?([a-z ]+)(, as no script leads to it)?:$/\4/p' "$work/out")
  grep '^    ' "$work/out" >"$work/example"
  leads "$number" "$name" "$line"
  note $? "the example of ${number:+$number }$name"
done <"$work/told"

# ---- docs/TUTORIAL.md: its files, changes and commands, one after the other, give what the page shows

tutorial=$work/tutorial
mkdir "$tutorial" "$work/blocks"
ln -s "$program" "$tutorial/sfcmon"
ln -s "$examples" "$tutorial/examples"
# a file for each block: its kind, the file that the line above names, and its lines
awk -v folder="$work/blocks" '
  /^```/ && block { close(block); block = ""; next }
  /^```/ {
    block = sprintf("%s/%03d", folder, ++count)
    name = match(above, /`[^`]+`:$/) ? substr(above, RSTART + 1, RLENGTH - 3) : ""
    print substr($0, 4) "|" name >block
    next
  }
  block { print >block; next }
  { above = $0 }' "$top/docs/TUTORIAL.md"
# changed FILE BLOCK: the file, with the change that the block shows, of lines that stand there once
changed() {
  awk '
    FILENAME == ARGV[2] {
      mark = substr($0, 1, 1)
      if (FNR > 1 && mark != "+") old = old "\n" substr($0, 2)
      if (FNR > 1 && mark != "-") new = new "\n" substr($0, 2)
      next
    }
    { text = text "\n" $0 }
    END {
      text = text "\n"; old = old "\n"; new = new "\n"
      at = index(text, old)
      if (!at || index(substr(text, at + 1), old)) exit 1
      printf "%s", substr(substr(text, 1, at - 1) new substr(text, at + length(old)), 2)
    }' "$1" "$2"
}
# played BLOCK: each of its commands, with what it prints
played() {
  local line
  while IFS= read -r line; do
    [[ $line != '$ '* ]] || { printf '%s\n' "$line"; (cd "$tutorial" && bash -c "${line#??}" 2>&1 </dev/null); }
  done <"$1"
}
status=0
for block in "$work"/blocks/*; do
  IFS='|' read -r kind name <"$block"
  case $kind in
    console) diff <(tail -n +2 "$block") <(played "$block") ;;
    diff) changed "$tutorial/$name" "$block" >"$work/changed" && cp "$work/changed" "$tutorial/$name" ;;
    *) [ -n "$name" ] && tail -n +2 "$block" >"$tutorial/$name" ;;
  esac
  note $? "the tutorial's block ${block##*/}: $(sed -n 2p "$block")"
done

# ---- completions and the man page have the commands and options of the help

same() { diff <(sort -u "$2") <(sort -u "$3"); note $? "$1"; }
# options WORD..: the options that the help on it shows
options() {
  "$program" "$@" --help | awk '/^Options:/ { on = 1; next } /^$/ { on = 0 } on { sub(/,/, "", $1); print $1; if ($2 ~ /^-/) print $2 }'
}
# section FILE NAME: the names behind each .TP of a section of the man page
section() { awk -v name="$2" '/^\.SH/ { on = $2 == name } on && /^\.TP/ { getline; print }' "$1"; }
share=$top/share manual=$top/share/man/man1/sfcmon.1
"$program" --help | awk '/^Commands:/ { on = 1; next } /^$/ { on = 0 } on { print $1 }' >"$work/commands"
{ options && while read -r command; do [ "$command" = help ] || options "$command"; done <"$work/commands"; } >"$work/options"
cut -d'|' -f2 "$work/told" | grep -v ' ' >"$work/names"

# completed WORD..: what bash completes the last of the words to
completed() {
  # shellcheck source=/dev/null
  (source "$share/completions/sfcmon.bash" && COMP_WORDS=("$@") && COMP_CWORD=$(($# - 1)) && { _sfcmon; printf '%s\n' "${COMPREPLY[@]}"; })
}
bash -n "$share/completions/sfcmon.bash"
note $? "the completion for bash is read"
same "bash completes the commands" "$work/commands" <(completed sfcmon "")
same "bash completes the commands behind help" "$work/commands" <(completed sfcmon help "")
same "bash completes the options" <(options) <(completed sfcmon -)
while read -r command; do
  [ "$command" = help ] || same "bash completes the options of $command" <(options "$command") <(completed sfcmon "$command" -)
done <"$work/commands"
same "bash completes the names of explain" "$work/names" <(completed sfcmon explain "")
same "bash completes a name that is begun" <(printf 'NoInitial\n') <(completed sfcmon explain NoI)
same "bash completes files" <(printf '%s\n' "$examples"/lamp.*) <(completed sfcmon replay "$examples/lamp")

file=$share/completions/_sfcmon
same "zsh has the commands" "$work/commands" <(sed -nE "/commands=\(/,/^  \)/s/^ *'([a-z]+):.*/\1/p" "$file")
same "zsh has the options" "$work/options" <(grep -oE '\{-[A-Za-z],--[a-z-]+\}|--[a-z-]+\[' "$file" | tr -d '{}[' | tr ',' '\n')
same "zsh has the names of explain" "$work/names" <(sed -n '/names=(/,/^  )/p' "$file" | grep -v '[()]' | tr -s ' ' '\n' | grep .)
file=$share/completions/sfcmon.fish
same "fish has the commands" "$work/commands" <(sed -nE 's/.*__fish_use_subcommand -a ([a-z]+) .*/\1/p' "$file")
same "fish has the list of commands" "$work/commands" <(sed -n 's/^set -l commands //p' "$file" | tr ' ' '\n')
same "fish has the options" "$work/options" \
  <(grep '^complete' "$file" | grep -oE -- '-(s [A-Za-z]|l [a-z-]+) ' | sed 's/^-s /-/; s/^-l /--/; s/ $//')
same "fish has the names of explain" "$work/names" \
  <(sed -n '/^set -l names/,/[^\\]$/p' "$file" | sed 's/^set -l names//; s/\\$//' | tr -s ' ' '\n' | grep .)
same "the man page has the commands" "$work/commands" <(section "$manual" COMMANDS | cut -d' ' -f2)
same "the man page has the options" "$work/options" <(section "$manual" OPTIONS | tr -d '\\,"' | sed 's/^\.BR\? //' | tr -s ' ' '\n')
grep -qF "\"$("$program" --version)\"" "$manual"
note $? "the man page has the version"
[ "$("$program" --version)" = "sfcmon $("$top/tools/version")" ] && "$top/tools/version" --check >"$work/out"
note $? "the version is the same everywhere: $(grep -v ' passed, ' "$work/out")"
# read_by TITLE TOOL WORD..: the tool has nothing to say; it need not be there
read_by() {
  local title=$1; shift
  if ! command -v "$1" >/dev/null; then echo "not asked, $1 isn't there: $title"; return; fi
  "$@" >"$work/out" 2>"$work/err" </dev/null
  status=$?
  ends 0 && is_silent && says ""
  note $? "$title"
}
read_by "zsh reads its completion" zsh -n "$share/completions/_sfcmon"
read_by "fish reads its completion" fish -n "$share/completions/sfcmon.fish"
read_by "groff sets the man page" groff -man -ww -z "$manual"
read_by "mandoc has nothing to say of the man page" mandoc -Tlint "$manual"

# ---- run

# live SESSION WORD..: run with these words and this session, from a pipe; leaves out, err and status
live() { local session=$1; shift; printf '%s' "$session" | "$program" run "$@" >"$work/out" 2>"$work/err"; status=${PIPESTATUS[1]}; }
last() { [ "$(tail -n 1 "$work/out")" = "$1" ]; }
# calm: standard error has nothing but overruns, which a busy machine brings
calm() { ! grep -qvE '^[0-9]+ T#[^ ]+ SCAN [^ ]+ overruns [0-9]+$' "$work/err"; }
# counted: the lines before the last are numbered from 1 without a gap, and the last tells how many they are
counted() {
  local lines=$(($(wc -l <"$work/out") - 1))
  last "audit ok $lines" && head -n "$lines" "$work/out" | awk '$1 != NR { wrong = 1 } END { exit wrong }'
}
# its one task is scanned by an edge alone, which never comes
sed 's/TASK Main(.*PRIORITY := 1)/TASK Main(SINGLE := Go, PRIORITY := 1)/; s/VAR_GLOBAL/VAR_GLOBAL Go AT %IX0.7 : BOOL;/' \
  "$chart" >"$work/edge.chart"
run check "$work/edge.chart"
ends 0
note $? "the chart of an edge"
live '' --trace 0 "$work/edge.chart"
ends 0 && says "" && [ "$(cat "$work/out")" = "audit ok 1" ]
note $? "a run without commands"
# The lamp's own task is due at once, so a busy machine may scan it before the input is seen to end; of twenty runs one at least ends first.
first=0
for ((n = 0; n < 20; n++)); do
  run run --trace 0 "$chart"
  ends 0 && calm && grep -qxE 'audit ok [1-9][0-9]*' "$work/out" && [ "$(wc -l <"$work/out")" = 1 ]
  note $? "the lamp in real time, without commands"
  if last "audit ok 1"; then first=$((first + 1)); fi
done
[ "$first" -gt 0 ]
note $? "the lamp in real time, with no command and no scan"
live $'STOP\nREAD Lamp\nFORCE Lamp TRUE\n\n ; a note\nREAD Lamp\nRELEASE Lamp\nGO' "$work/edge.chart"
ends 0 && says "" && counted && last "audit ok 7" && [ "$(sed 's/T#[^ ]* //' "$work/out" | head -n 7)" = "1 STOP
2 READ Lamp FALSE
3 FORCE Lamp TRUE
4 READ Lamp TRUE
5 RELEASE Lamp
6 GO
7 END" ]
note $? "a session whose commands are all accepted"
live $'JUMP\nGO\nT#0s STOP\nEPOCH\nREAD Lamp\nEND\nREAD Lamp\n' --trace 32 "$work/edge.chart"
ends 0 && [ "$(cat "$work/err")" = "script line 1
refused 36 NotStopped
script line 3
refused 40 Ended" ] && [ "$(sed 's/T#[^ ]* //' "$work/out")" = "1 EPOCH
3 END
audit ok 3" ]
note $? "lines that are no commands, refusals, an epoch, and no second END"
live $'BREAK Lamp1 STEP On WHEN TRUE\r\nread lamp\r\n' --trace 64 "$work/edge.chart"
ends 0 && says "script line 1" && [ "$(sed 's/T#[^ ]* //' "$work/out")" = "1 READ Lamp FALSE
audit ok 2" ]
note $? "a condition is no command of a session, and CR LF ends a line"
"$program" run --trace 0 "$work/edge.chart" <"$work" >"$work/out" 2>"$work/err"
status=$?
ends 3 && says "read fault" && [ "$(cat "$work/out")" = "audit ok 1" ]
note $? "a session that can't be read"
{ yes '; no command' | head -c 2000000; printf '\nREAD Lamp\n'; } | "$program" run --trace 0 "$work/edge.chart" >"$work/out" 2>"$work/err"
status=${PIPESTATUS[1]}
ends 0 && says "" && [ "$(cat "$work/out")" = "audit ok 2" ]
note $? "a session of more bytes than a script may have"
{ printf 'READ Lamp\n'; head -c 1048576 /dev/zero | tr '\0' x; printf '\nREAD Lamp\n'; } \
  | "$program" run --trace 0 "$work/edge.chart" >"$work/out" 2>"$work/err"
status=${PIPESTATUS[1]}
ends 0 && says "script line 2" && [ "$(cat "$work/out")" = "audit ok 3" ]
note $? "a line of 1,048,576 bytes, and one behind it"
{ printf 'READ Lamp\n'; head -c 1100000 /dev/zero | tr '\0' x; printf '\nREAD Lamp\n'; } \
  | "$program" run --trace 0 "$work/edge.chart" >"$work/out" 2>"$work/err"
status=${PIPESTATUS[1]}
ends 0 && says "script line 2" && [ "$(cat "$work/out")" = "audit ok 2" ]
note $? "a line that is too long ends a session"
fails "a chart that is refused, run" 1 "refused 14 NoInitial" run "$work/dark.chart"
fails "no such chart, run" 3 "read fault" run "$work/no.chart"
for mask in 128 -1 x ''; do usage "--trace '$mask'" "error:" run --trace "$mask" "$chart"; done
usage "no file to run" "<FILE>" run
for time in 0 T#0s T#-1s 8h T#1s_ ''; do usage "--for '$time'" "error:" run --for "$time" "$chart"; done
usage "--for and --forever" "error:" run --for T#1s --forever "$chart"
for count in 0 65535 1048577 x; do usage "--history $count" "error:" run --history "$count" "$chart"; done
run help run
ends 0 && mentions "Exit status:" out && mentions "docs/FORMATS.md" out && mentions "GO" out && says ""
note $? "the help on run"
if [ -e /dev/full ]; then
  printf 'STOP\n' | "$program" run "$work/edge.chart" >/dev/full 2>"$work/err"
  status=${PIPESTATUS[1]}
  ends 3 && says "write fault"
  note $? "lines of a run that can't be written"
  printf 'JUMP\n' | "$program" run --trace 0 "$work/edge.chart" >"$work/out" 2>/dev/full
  status=${PIPESTATUS[1]}
  ends 0 && [ "$(cat "$work/out")" = "audit ok 1" ]
  note $? "faults of a run that can't be told"
fi
# two seconds of the pump: it is started, halted and let go, and each accepted command has a line
pump() {
  { sleep 0.5; echo 'INPUT Start TRUE'; sleep 0.7; echo STOP; echo 'READ Pump'; sleep 0.3; echo GO; sleep 0.5; } \
    | "$program" run "$examples/pump.chart" >"$work/out$1" 2>"$work/err$1"
  echo "${PIPESTATUS[1]}" >"$work/status$1"
}
for n in 0 1 2 3 4 5 6 7 8 9; do pump "$n" & done
wait
for n in 0 1 2 3 4 5 6 7 8 9; do
  cp "$work/out$n" "$work/out"
  cp "$work/err$n" "$work/err"
  status=$(cat "$work/status$n")
  ends 0 && calm && counted && [ "$(grep -c ' SCAN Main overruns ' "$work/out")" -ge 7 ] && mentions " READ Pump TRUE" out \
    && ! sed -n '/ STOP$/,/ GO$/p' "$work/out" | grep -q SCAN
  note $? "the pump in real time, one of ten side by side"
done
{ sleep 0.2; echo STOP; sleep 0.2; echo GO; } | "$program" run "$examples/pump.chart" 2>"$work/err" | head -n 1 >"$work/out"
status=${PIPESTATUS[1]}
ends 3 && [ "$(tail -n 1 "$work/err")" = "write fault" ]
note $? "a pipe that is closed ends a run with its session"
# ---- runs that last

# since: milliseconds
since() { echo $((($(date +%s%N) - $1) / 1000000)); }
begin=$(date +%s%N)
run run --for T#1s --trace 0 "$examples/pump.chart"
took=$(since "$begin")
ends 0 && calm && grep -qxE 'audit ok [1-9][0-9]*' "$work/out" && [ "$(cut -d' ' -f3 "$work/out")" -ge 5 ] && [ "$took" -ge 1000 ]
note $? "a second without a session"
mkfifo "$work/input"
exec 7<>"$work/input"
printf 'READ Pump\n' >&7
begin=$(date +%s%N)
"$program" run --for T#1s --history 65536 "$examples/pump.chart" <"$work/input" >"$work/out" 2>"$work/err"
status=$?
took=$(since "$begin")
exec 7<&-
ends 0 && calm && counted && mentions " READ Pump FALSE" out && [ "$took" -ge 1000 ] &&
  tail -n 2 "$work/out" | head -n 1 | grep -qE ' T#1s[^ ]* END$'
note $? "a second with a session that doesn't end"
begin=$(date +%s%N)
printf 'READ Pump' | "$program" run --for T#1s --trace 64 "$examples/pump.chart" >"$work/out" 2>"$work/err"
status=${PIPESTATUS[1]}
took=$(since "$begin")
ends 0 && calm && mentions " READ Pump FALSE" out && [ "$took" -ge 1000 ]
note $? "a second with a session that ends before, without the end of its last line"
begin=$(date +%s%N)
{ printf 'READ Pump\n end \nREAD Pump\n'; sleep 3; } | "$program" run --forever --trace 96 "$examples/pump.chart" >"$work/out" 2>"$work/err"
status=${PIPESTATUS[1]}
ends 0 && calm && [ "$(grep -c ' READ Pump ' "$work/out")" = 1 ] && [ "$(grep -c ' END$' "$work/out")" = 1 ]
note $? "a line END ends what lasts"
"$program" run --forever --trace 0 "$examples/pump.chart" </dev/null >"$work/out" 2>"$work/err" &
number=$!
sleep 1.5
kill -0 "$number" && kill -TERM "$number"
wait "$number"
status=$?
[ "$status" = 143 ] && calm && [ ! -s "$work/out" ]
note $? "without a session until a signal"
# the scans of two tasks, one of them by an edge that comes twice, as their lines have them
sed 's/TASK Main(.*PRIORITY := 1);/TASK Main(INTERVAL := T#20ms, PRIORITY := 1); TASK Edge(SINGLE := Start, PRIORITY := 2);/
  s/PROGRAM Pump1 WITH Main : PumpControl;/PROGRAM Pump1 WITH Main : PumpControl; PROGRAM Pump2 WITH Edge : PumpControl;/' \
  "$examples/pump.chart" >"$work/timed.chart"
for line in 'INPUT Start TRUE' 'INPUT Start FALSE' 'INPUT Start TRUE' STOP 'SINGLE Main T#20ms' GO; do sleep 0.1; echo "$line"; done \
  | "$program" run --timing "$work/timed.chart" >"$work/out" 2>"$work/err"
status=${PIPESTATUS[1]}
number='-?[0-9]+'
ends 0 && grep -qxE "Main had $(grep -cE ' (SCAN|SINGLE) Main ' "$work/out") scans, $(grep -E ' (SCAN|SINGLE) Main ' "$work/out" | tail -n 1 | sed 's/.* //') overruns, \
late by $number least, (over )?[0-9]+ median, (over )?[0-9]+ of 99 %, $number greatest microseconds" "$work/err" \
  && grep -qxE 'Edge had (2 scans, 0|1 scans, 1) overruns' "$work/err" \
  && sed -nE "s/^Main .* late by ($number) least, ([0-9]+) median, ([0-9]+) of 99 %, ($number) greatest.*/\\1 \\2 \\3 \\4/p" "$work/err" \
  | awk '0 <= $1 && $1 <= $2 && $2 <= $3 && $3 <= $4 && $4 < 1000000 { good = 1 } END { exit !good }'
note $? "how late scans were"
[ "$(sed -nE 's/^the longest scan of (Main|Edge) took [0-9]{1,6} microseconds$/\1/p' "$work/err")" = $'Main\nEdge' ]
note $? "how long scans took"
# a program divides by an input once it is started; another one goes on
cat >"$work/dying.chart" <<'CHART'
PROGRAM Divide
  VAR n : INT := 7; END_VAR
  INITIAL_STEP Rest: END_STEP
  STEP Share: Work(N); END_STEP
  TRANSITION FROM Rest TO Share := Start; END_TRANSITION
  TRANSITION FROM Share TO Rest := NOT Start; END_TRANSITION
  ACTION Work: n := n / Parts; END_ACTION
END_PROGRAM
PROGRAM Blink
  INITIAL_STEP Dark: END_STEP
  STEP Lit: Lamp(N); END_STEP
  TRANSITION FROM Dark TO Lit := TRUE; END_TRANSITION
  TRANSITION FROM Lit TO Dark := TRUE; END_TRANSITION
END_PROGRAM
CONFIGURATION C RESOURCE R ON Plc
VAR_GLOBAL Start AT %IX0.0 : BOOL; Parts AT %IW1 : INT; Lamp AT %QX0.0 : BOOL; END_VAR
TASK Main(INTERVAL := T#20ms, PRIORITY := 1);
PROGRAM Divide1 WITH Main : Divide;
PROGRAM Blink1 WITH Main : Blink;
END_RESOURCE END_CONFIGURATION
CHART
run check "$work/dying.chart"
ends 0
note $? "the chart that divides"
# dying LINE ..: a run of it with these lines, a fifth of a second after one another; no line is asked for
dying() {
  for line in "$@"; do sleep 0.2; echo "$line"; done | "$program" run --trace 0 "$work/dying.chart" >"$work/out" 2>"$work/err"
  status=${PIPESTATUS[1]}
  # without instants and numbers, and without overruns alone
  grep -vE '^[0-9]+ T#[^ ]+ SCAN Main overruns [0-9]+$' "$work/err" >"$work/rest"
  grep -B1 -E '^(  |; )' "$work/err" | sed -E 's/^[0-9]+ T#[^ ]+ //; s/overruns [0-9]+/overruns/; s/ [0-9]+ steps .*/ .. steps/' >"$work/told"
}
dying 'INPUT Start TRUE' '; it stands' '; and stands'
ends 1 && grep -qxE 'audit ok [1-9][0-9]*' "$work/out" && [ "$(wc -l <"$work/out")" = 1 ] && [ "$(cat "$work/told")" = "SCAN Main overruns
  Divide1 fault DivZero
  Blink1 .. steps
; Divide1 ended with DivZero in statement 1 of action Work, and isn't scanned until RESET Divide1" ] \
  && [ "$(tail -n 1 "$work/err")" = "a program stood faulted at the end" ]
note $? "a program that dies is told once, with where its fault is and the others of its scan, and the status is 1"
dying 'INPUT Start TRUE' 'INPUT Parts 2' 'RESET Divide1' '; it lives'
ends 0 && [ "$(grep -c 'fault DivZero' "$work/err")" = 1 ] && ! grep -q 'stood faulted' "$work/err"
note $? "a program that is reset behind its fault, and goes on"
dying 'INPUT Parts 2' 'BREAK Blink1 STEP Lit' '; it stands still'
ends 0 && [ "$(cat "$work/told")" = "SCAN Main overruns hit
  Divide1 .. steps
  Blink1 .. steps" ]
note $? "a breakpoint that is hit is told, whatever is picked"
{ sleep 0.4; echo 'INPUT Start TRUE'; sleep 0.4; } | "$program" run "$work/dying.chart" 2>"$work/err" | head -n 1 >"$work/out"
status=${PIPESTATUS[1]}
ends 3 && [ "$(grep -c '^  Divide1 fault DivZero$' "$work/err")" = 1 ] && [ "$(tail -n 2 "$work/err")" = "write fault
a program stood faulted at the end" ]
note $? "a program that dies is told behind a closed standard output"

# ---- what changes is shown

# changes: what is shown, without numbers and instants
changes() { sed -E 's/^[0-9]+ T#[^ ]+ //; s/ overruns [0-9]+/ overruns/; s/ [0-9]+ steps / .. steps /; s/=T#[^ ,]*/=../g' "$work/out"; }
# shown WORD..: half a second each of the pump at rest and pumping, and a little more of it pumping on, with these words
shown() {
  { for line in 'INPUT Start TRUE' 'INPUT Stop TRUE' '; and on'; do sleep 0.5; echo "$line"; done; sleep 0.25; } \
    | "$program" run "$@" "$examples/pump.chart" >"$work/out" 2>"$work/err"
  status=${PIPESTATUS[1]}
}
shown --show changes
ends 0 && calm && [ "$(changes | sed 's/^audit ok .*/audit ok/')" = "SCAN Main overruns
  Pump1 .. steps Idle=.. cleared - run IdleLamp
IdleLamp TRUE
SCAN Main overruns
  Pump1 .. steps Pumping=.. cleared 1 run IdleLamp,Pump
Pump TRUE
IdleLamp FALSE
SCAN Main overruns
  Pump1 .. steps Pumping=.. cleared - run Pump
SCAN Main overruns
  Pump1 .. steps RunningOn=.. cleared 2 run Pump,RunOnLamp
RunOnLamp TRUE
SCAN Main overruns
  Pump1 .. steps RunningOn=.. cleared - run Pump,RunOnLamp
audit ok" ]
note $? "what changes is shown, and nothing else"
shown --watch Pump --watch pump1.x,IdleLamp
ends 1 && says "there is no variable to be watched of this name: pump1.x" && [ ! -s "$work/out" ]
note $? "a name that is none isn't watched"
shown --watch pump,IDLELAMP --at-end Pump=FALSE,Start=1
ends 0 && calm && [ "$(changes | sed 's/^audit ok .*/audit ok/')" = "SCAN Main overruns
IdleLamp TRUE
SCAN Main overruns
Pump TRUE
IdleLamp FALSE
END
Pump FALSE
Start TRUE
audit ok" ]
note $? "variables that are watched, and what is shown at the end"
for word in Pump Pupm=TRUE Pump=3 Pump= =TRUE 'Pump=TRUE FALSE'; do
  fails "--at-end '$word'" 1 "there is no such variable and value of its type, as Pump=FALSE: $word" run --at-end "$word" "$examples/pump.chart"
done
usage "--show pictures" "--show wants the word 'changes'" run --show pictures "$examples/pump.chart"
shown --watch Pump --trace 2
ends 0 && calm && [ "$(changes | sed 's/^audit ok .*/audit ok/')" = "INPUT Start TRUE
SCAN Main overruns
Pump TRUE
INPUT Stop TRUE
audit ok" ]
note $? "what changes beside the lines that are picked"
{ for line in 'INPUT Parts 2' 'INPUT Start TRUE' 'FORCE Lamp TRUE' 'INPUT Parts 0' '; it stands'; do sleep 0.2; echo "$line"; done; } \
  | "$program" run --watch Divide1.n,Parts --at-end Lamp=FALSE "$work/dying.chart" >"$work/out" 2>"$work/err"
status=${PIPESTATUS[1]}
ends 1 && [ "$(changes | sed 's/^audit ok .*/audit ok/')" = "INPUT Parts 2
Parts 2
SCAN Main overruns
Divide1.n 3
SCAN Main overruns
Divide1.n 1
SCAN Main overruns
Divide1.n 0
INPUT Parts 0
Parts 0
SCAN Main overruns
Lamp FALSE
END
Lamp FALSE
audit ok" ] && mentions "  Divide1 fault DivZero" err
note $? "a fault shows what is safe, and so does the end"

# ---- runs that are recorded

if command -v python3 >/dev/null; then
  python3 "$here/recorded.py" "$program" 2 "$(date +%s)" >"$work/out" 2>"$work/err"
  status=$?
  add_counts "$work/out" || note 1 "runs that are recorded"
else
  echo "not asked, python3 isn't there: runs that are recorded"
fi
usage "--record-size without --record" "error:" run --record-size 4096 "$chart"
for size in 1023 x ''; do usage "--record-size '$size'" "error:" run --record "$work/unmade" --record-size "$size" "$chart"; done

# ---- words that ask

# asked LINE ..: a run of the pump with these lines, a quarter of a second after one another; leaves what is answered, without instants, and
# of programs their active steps alone
asked() {
  for line in "$@"; do sleep 0.25; echo "$line"; done | "$program" run --trace 0 "$examples/pump.chart" >"$work/out" 2>"$work/err"
  status=${PIPESTATUS[1]}
  sed -E 's/T#[^ ,]+/../g; s/ [0-9]+ steps/ .. steps/; s/ cleared .*//; s/^[0-9]+ \.\./.. ../; s/ overruns [0-9]+/ overruns ../; s/^audit ok .*/audit ok/' "$work/out" >"$work/answers"
}
asked show 'INPUT Start TRUE' '; wait' SHOW ' image pump' 'IMAGE Pupm' STOP 'Show' 'TRACE 1' 'why Pump1 1' 'SHOWN'
ends 0 && says "script line 11" && [ "$(cat "$work/answers")" = "instant .. run .. running
task Main next .. overruns ..
  Pump1 .. steps Idle=..
instant .. run .. running
task Main next .. overruns ..
  Pump1 .. steps Pumping=..
image Pump TRUE
; no variable Pupm
instant .. run .. halted
task Main next .. overruns ..
  Pump1 .. steps Pumping=..
.. .. STOP
Pump1 TRANSITION 1 not enabled
  step Idle isn't active
  condition TRUE: Start AND NOT Stop
    Start TRUE
    Stop FALSE
audit ok" ]
note $? "words that ask in a run"
asked POINTS 'BREAK Pump1 STEP Pumping' 'BREAK Pump1 TRANSITION 2' 'UNBREAK Pump1 STEP Pumping' 'BREAK Pump1 STEP Idle' points
ends 0 && calm && [ "$(cat "$work/answers")" = "; no breakpoint is set
.. BREAK Pump1 TRANSITION 2
.. BREAK Pump1 STEP Idle
audit ok" ]
note $? "the breakpoints that are set in a run"
asked LIST EXPLAIN 'EXPLAIN 36' help 'TRACE x'
ends 0 && says "" && "$program" list "$examples/pump.chart" >"$work/listing" \
  && head -n "$(wc -l <"$work/listing")" "$work/out" | cmp -s - "$work/listing" \
  && mentions NotStopped out && mentions "Beside commands a session may ask" out && mentions "; TRACE, or TRACE and a number from 1 to 1024" out
note $? "a listing, an explanation and help in a run"

if command -v python3 >/dev/null; then
  PYTHONPATH=$top/share/python timeout 60 python3 "$examples/python/tank.py" "$program" >"$work/out" 2>"$work/err"
  status=$?
  ends 0 && calm && last "batches 1 status 0" && [ "$(grep '^Mixer' "$work/out" | tail -n 2)" = "Mixer True
Mixer False" ]
  note $? "a simulated tank beside a run"
  # values of the page on formats, and of the C library's tests, as a program beside a run reads and writes them
  PYTHONPATH=$top/share/python python3 -c 'from sfcmon import text_of, value_of
for text, value in {"TRUE": True, "FALSE": False, "-32768": -32768, "T#0s": 0, "T#1d_2h_3m_4s_5.25ms": 93_784_005_250, "T#-1s_500ms": -1_500_000}.items():
    assert value_of(text) == value and type(value_of(text)) is type(value), text
assert [text_of(it) for it in (True, False, -7, "T#1s")] == ["TRUE", "FALSE", "-7", "T#1s"]' >"$work/out" 2>"$work/err"
  status=$?
  ends 0 && says ""
  note $? "values that a program beside a run reads and writes"
fi

# at_terminal TITLE FILE WORD..: what a script of Python counts that runs the program at a terminal of its own
at_terminal() {
  local title=$1; shift
  if ! command -v python3 >/dev/null; then echo "not asked, python3 isn't there: $title"; return; fi
  python3 "$@" >"$work/out" 2>"$work/err"
  status=$?
  add_counts "$work/out" || note 1 "$title"
}
at_terminal "runs at a terminal" "$here/terminal.py" "$program" "$work/edge.chart"

# ---- debug

# typed SESSION CHART: debug with this session, from a pipe; leaves out, err and status
typed() { printf '%s' "$1" | "$program" debug "$2" >"$work/out" 2>"$work/err"; status=${PIPESTATUS[1]}; }
# the scripts of the examples, line by line, are answered as a replay of them, but for notes; so is what the session saves, but for what was
# refused
for example in "$examples"/*.chart; do
  { cat "${example%.chart}.script"; printf '\nIMAGE\nSAVE %s!\n' "$work/saved.script"; } | sed '/^ *$/d' >"$work/session"
  "$program" debug "$example" <"$work/session" >"$work/out" 2>"$work/err"
  status=$?
  ends 0 && says "" && last "; saved to $work/saved.script" && grep -v '^;' "$work/out" | cmp -s - "${example%.chart}.expect"
  note $? "$(basename "$example"), by hand"
  run replay "$example" "$work/saved.script"
  ends 0 && says "" && grep -v '^refused' "${example%.chart}.expect" | cmp -s - "$work/out"
  note $? "$(basename "$example"), by hand and saved"
done
# sessions whose lines have no instants are saved as scripts that a replay answers alike, but for refusals, notes and what is shown; what is
# recorded meanwhile is the same script
while read -r name session; do
  # shellcheck disable=SC2059 # its line ends
  { printf "$session"; printf 'IMAGE\nSAVE %s !\n' "$work/saved.script"; } >"$work/session"
  rm -f "$work/recorded.script"
  "$program" debug --record "$work/recorded.script" "$examples/$name.chart" <"$work/session" 2>"$work/err" | grep -v '^[;r]' >"$work/played"
  run replay "$examples/$name.chart" "$work/saved.script"
  ends 0 && says "" && [ -s "$work/saved.script" ] && cmp -s "$work/played" "$work/out" && cmp -s "$work/saved.script" "$work/recorded.script"
  note $? "a session with $name.chart, saved"
done <<'SESSIONS'
mixing SCAN\nINPUT Start TRUE\nINPUT Full TRUE\nALL UNTIL Mixing.X\nSTOP\nSINGLE Main T#70ms\n\nSINGLE Main\n\nGO\nall again 7\nSCAN Main\n
pump BREAK Pump1 STEP Pumping WHEN Start\nINPUT Start TRUE\nAGAIN\nALL UNTIL FALSE\nGO\nEPOCH\nINPUT Stop TRUE\nALL AGAIN 3\nT#1h SCAN Main\nSCAN\n
press break press1 step Open when TRUE (* at once *)\nbreak press1 step Open when not TRUE\nSCAN\nGO\nFOO\nEND\nSCAN\n
commissioning SCAN\nALL AGAIN 20\nT#1m READ nothing\n\n\n
SESSIONS
# without ALL some scans aren't shown, which stand in the script; each other line is that of a replay
typed $'SCAN\nAGAIN 9\nINPUT Start TRUE\nINPUT Full TRUE\nUNTIL Mixing.X\nIMAGE\nSAVE '"$work/saved.script!" "$examples/mixing.chart"
grep -v '^;' "$work/out" >"$work/played"
run replay "$examples/mixing.chart" "$work/saved.script"
ends 0 && says "" && ! diff "$work/played" "$work/out" | grep -q '^<' && [ "$(grep -c SCAN "$work/played")" -lt "$(grep -c SCAN "$work/out")" ]
note $? "scans that aren't shown"
cp "$chart" "$work/kept.chart"
run debug --record "$work/kept.chart" "$chart"
ends 3 && is_silent && says "error: $work/kept.chart is there; --record writes a new file" && cmp -s "$chart" "$work/kept.chart"
note $? "a session isn't recorded over a file"
rm -f "$work/recorded.script"
run debug --record "$work/recorded.script" "$work/dark.chart"
ends 1 && is_silent && [ ! -e "$work/recorded.script" ]
note $? "a chart that is refused leaves no record"
printf 'SCAN\nSAVE %s!\nSCAN\n' "$work/recorded.script" | "$program" debug --record "$work/recorded.script" "$chart" >"$work/out" 2>"$work/err"
status=$?
ends 0 && says "" && mentions "; saved to $work/recorded.script" out && [ "$(wc -l <"$work/recorded.script")" = 2 ]
note $? "a session that is saved where it is recorded"
fails "a session that can't be recorded" 3 "/nowhere/at/all: write fault" debug --record /nowhere/at/all "$chart"
# a session that is killed has been recorded up to its last answer
mkfifo "$work/typing"
rm -f "$work/recorded.script"
"$program" debug --record "$work/recorded.script" "$chart" <"$work/typing" >"$work/out" 2>"$work/err" &
held=$!
exec 9>"$work/typing"
printf 'SCAN\nREAD Lamp\nSCAN\n' >&9
for _ in {1..100}; do [ "$(grep -c SCAN "$work/out")" = 2 ] && break; sleep 0.1; done
kill -9 "$held"
wait "$held" 2>/dev/null
exec 9>&-
run replay "$chart" "$work/recorded.script"
ends 0 && says "" && [ "$(wc -l <"$work/recorded.script")" = 3 ] && [ "$(grep -vc '^image' "$work/out")" -ge 3 ]
note $? "a session that was killed is recorded"
typed $'SCAN\nSAVE /nowhere/at/all\nREAD Lamp' "$chart"
ends 0 && says "" && mentions "; can't be saved to /nowhere/at/all: the folder isn't there" out && last "T#0s READ Lamp TRUE"
note $? "a script that can't be saved, and a session that goes on"
typed $'SAVE caf\xe9\n' "$chart"
ends 0 && says "" && last $'; can\'t be saved to caf\xe9: the name isn\'t UTF-8'
note $? "a name of a file that isn't UTF-8"
cp "$chart" "$work/kept.chart"
typed "SCAN
SAVE $work/kept.chart
SAVE $work/new.script
SCAN
SAVE $work/new.script" "$work/kept.chart"
ends 0 && says "" && mentions "; can't be saved to $work/kept.chart: it is there, and wasn't saved here; a ! behind the name replaces it" out \
  && last "; saved to $work/new.script" && cmp -s "$chart" "$work/kept.chart" && [ "$(grep -c SCAN "$work/new.script")" = 2 ]
note $? "the chart isn't overwritten by SAVE, what was saved is"
typed "SCAN
SAVE $work/kept.chart !" "$chart"
ends 0 && says "" && last "; saved to $work/kept.chart" && [ "$(cat "$work/kept.chart")" = "T#0s SCAN Main" ]
note $? "a ! behind the name of a file replaces it"
typed '' "$chart"
ends 0 && is_silent && says ""
note $? "a session without lines"
fails "a chart that is refused, by hand" 1 "refused 14 NoInitial" debug "$work/dark.chart"
fails "no such chart, by hand" 3 "read fault" debug "$work/no.chart"
usage "no file to step" "<FILE>" debug
usage "a second file to step" "unexpected argument" debug "$chart" "$script"
"$program" debug "$chart" <"$work" >"$work/out" 2>"$work/err"
status=$?
ends 3 && is_silent && says "read fault"
note $? "lines that can't be read"
run debug --help
ends 0 && mentions "Exit status:" out && mentions "docs/FORMATS.md" out && mentions "UNTIL" out && says ""
note $? "the help on debug"
# what docs/FORMATS.md shows of it: a command, and what it prints
awk '/^## Debug/ { seen = 1 } seen && /^```/ { if (++fence == 2) exit; next } fence == 1' "$top/docs/FORMATS.md" >"$work/shown"
# shellcheck disable=SC2016 # the mark of a command
(cd "$top" && PATH=$work/bin:$PATH bash -c "$(sed -n '1s/^\$ //p' "$work/shown")") >"$work/out" 2>"$work/err"
status=$?
ends 0 && says "" && tail -n +2 "$work/shown" | cmp -s - "$work/out"
note $? "the session that docs/FORMATS.md shows"
if [ -e /dev/full ]; then
  printf 'SCAN\n' | "$program" debug "$chart" >/dev/full 2>"$work/err"
  status=${PIPESTATUS[1]}
  ends 3 && says "write fault"
  note $? "answers that can't be written"
fi
{ echo SCAN; sleep 0.3; echo SCAN; sleep 0.3; echo SCAN; } | "$program" debug "$chart" 2>"$work/err" | head -n 1 >"$work/out"
status=${PIPESTATUS[1]}
ends 3 && says "write fault" && last "T#0s SCAN Main overruns 0"
note $? "a pipe that is closed ends a session"
yes SCAN | head -n 20000 | "$program" debug "$chart" >"$work/out" 2>"$work/err"
status=${PIPESTATUS[2]}
ends 0 && says "" && [ "$(wc -l <"$work/out")" = 40000 ]
note $? "a session of many lines"
at_terminal "a prompt at a terminal" "$here/prompt.py" "$program" "$chart" "$work"

tell_counts
