#!/usr/bin/env bash
# Proves and builds the C library (tools/c-library), and tries it: the header, the loop and the bench, the scripts of examples/ by C and by
# Python, misuse, damaged texts, two threads, and valgrind where it is there. SFC_LIBRARY_FOLDER, where it is set, is a folder with the
# library, and nothing is built. The last line is 'N passed, M failed'.
set -u
here=$(cd "$(dirname "${BASH_SOURCE[0]}")" && pwd)
top=$(dirname "$here")
build=${SFC_LIBRARY_FOLDER:-$top/build/c}
if [ -z "${SFC_LIBRARY_FOLDER:-}" ] && ! "$top/tools/c-library" >/dev/null; then
  echo "not as it should be: tools/c-library builds no library"
  echo "0 passed, 1 failed"
  exit 1
fi
work=$(mktemp -d)
trap 'rm -rf "$work"' EXIT
passed=0 failed=0
note() { if [ "$1" = 0 ]; then passed=$((passed + 1)); else failed=$((failed + 1)); echo "not as it should be: $2"; fi; }

"$top/tools/prototypes" "$top/crates/sfc_c" "$build/sfc.h"; note $? "the header"
sed 's/uint8_t task, int64_t t/uint16_t task, int64_t t/' "$build/sfc.h" >"$work/other.h"
! "$top/tools/prototypes" "$top/crates/sfc_c" "$work/other.h" >/dev/null; note $? "a header that differs is told"
exported=$("$top/tools/prototypes" "$top/crates/sfc_c" | sed 's/.* \(sfc_[a-z_]*\)(.*/\1/' | sort)
[ "$exported" = "$(nm -D --defined-only "$build/libsfc.so" | awk '{print $3}' | grep -v '^SFC_1$' | sed 's/@.*//' | sort)" ]
note $? "what libsfc.so exports"
echo '#include "sfc.h"' | c++ -x c++ -Wall -Wextra -Werror -pedantic -I "$build" -fsyntax-only -; note $? "the header as C++"

wraps=-Wl,--wrap=malloc,--wrap=realloc,--wrap=free
cc -O1 -Wall -Wextra -Werror -pedantic -std=c11 -I "$build" "$here/c_library.c" "$build/libsfc.a" "$wraps" -lpthread -o "$work/try"
note $? "c_library.c"
"$work/try" misuse "$top/examples/pump.chart"; note $? "misuse"
"$work/try" fields "$top/examples/pump.chart"; note $? "each field of the structs"
"$work/try" texts "$top/examples/pump.chart"; note $? "names, counts and texts"
"$work/try" panel "$top/examples/mixing.chart"; note $? "types and locations"
"$work/try" places "$top/examples/pump.chart"; note $? "each type, area and size"
"$work/try" tasks "$top/examples/belt.chart"; note $? "two tasks, by what comes next and up to an instant"
"$work/try" ends "$top/examples/pump.chart"; note $? "a hit and a fault end it, with conditions that are read then"
"$work/try" faults "$top/examples/pump.chart"; note $? "where the fault of a scan is, also behind resets and what was saved"
"$work/try" saves "$top/examples/pump.chart"; note $? "what was saved is there again"
"$work/try" forks "$top/examples/pump.chart"; note $? "1000 runs from one snapshot, each as from the opening"
"$work/try" refusals "$top/examples/pump.chart"; note $? "each call with the n-th request for memory refused"
for chart in "$top"/examples/*.chart; do
  "$work/try" play "$chart" "${chart%.chart}.script" >"$work/played" && cmp -s "$work/played" "${chart%.chart}.expect"
  note $? "the script of $(basename "$chart") by C, to the byte"
done
sed 's/Pumping TO RunningOn/Pumpin TO RunningOn/' "$top/examples/pump.chart" >"$work/chart"
"$work/try" why "$work/chart" >"$work/why"; note $? "the report of a chart"
sed -n 1p "$work/why" | grep -qE '^chart:15:19: 15 UnknownStep: Pumpin; near: Pumping$'; note $? "what it says"
if [ -n "${SFCMON:-}" ]; then
  (cd "$work" && "$SFCMON" why chart >"$work/told"); cmp -s "$work/why" "$work/told"; note $? "the report is that of sfcmon why"
else
  echo "not asked, SFCMON names no program: the report is that of sfcmon why"
fi
"$work/try" damaged "$top/examples/mixing.chart" 10000; note $? "10000 damaged texts"
"$work/try" threads "$top/examples/pump.chart"; note $? "two handles in two threads"
# clean WORD CHART..: a part of c_library.c under valgrind
clean() { valgrind -q --error-exitcode=9 --leak-check=full --show-leak-kinds=all "$work/try" "$@"; }
if command -v valgrind >/dev/null; then
  clean opens "$top/examples/lamp.chart" 100000; note $? "100000 openings under valgrind"
  for part in misuse fields texts ends faults saves refusals; do clean "$part" "$top/examples/pump.chart"; note $? "$part under valgrind"; done
  clean tasks "$top/examples/belt.chart"; note $? "tasks under valgrind"
else
  echo "not asked, valgrind isn't there: openings and each part under valgrind"
fi
if cc -fsanitize=address,undefined -O1 -std=c11 -I "$build" "$here/c_library.c" "$build/libsfc.a" "$wraps" -lpthread -o "$work/sane" 2>/dev/null; then
  for part in misuse fields texts ends faults saves forks; do "$work/sane" "$part" "$top/examples/pump.chart"; note $? "$part with sanitizers"; done
  "$work/sane" tasks "$top/examples/belt.chart" && "$work/sane" panel "$top/examples/mixing.chart"; note $? "tasks and types with sanitizers"
  "$work/sane" damaged "$top/examples/mixing.chart" 2000; note $? "2000 damaged texts with sanitizers"
else
  echo "not asked, the compiler has no sanitizers: each part with them"
fi
if command -v c++ >/dev/null; then
  c++ -Wall -Wextra -Werror -pedantic -std=c++17 -I "$build" "$here/c_library.cpp" "$build/libsfc.a" -o "$work/wrapped"; note $? "c_library.cpp"
  "$work/wrapped" "$top/examples/pump.chart" "$top/examples/belt.chart"; note $? "the wrappers of sfc.hpp"
fi
[ "$("$build/bench" "$top/examples/pump.chart" Main 200000 1000000 2>/dev/null)" = "1000000 scans, 0 overruns" ]; note $? "the bench"
printf '' | timeout 20 "$build/loop" "$top/examples/pump.chart" >"$work/loop"; note $? "the loop"
grep -q '^[0-9]* us: pump off, 0 overruns$' "$work/loop"; note $? "what the loop prints"
export PYTHONPATH=$build
python3 "$top/examples/python/test_mixing.py" >/dev/null; note $? "the tests of the mixing station"
python3 "$here/c_library.py" "$top"/examples/*.chart; note $? "the scripts of examples/ by Python"
python3 "$here/python_bench.py" "$top"; note $? "what sfc.py is for a bench"
for example in response interlock two_tasks snapshots; do
  python3 "$top/examples/python/$example.py" >"$work/example"; note $? "examples/python/$example.py"
done
# The python3 that has hypothesis and pytest: that of the path, or the system's.
tester=''
for it in python3 /usr/bin/python3; do
  if [ -z "$tester" ] && "$it" -c 'import hypothesis, pytest' 2>/dev/null; then tester=$it; fi
done
if [ -n "$tester" ]; then
  (cd "$work" && "$tester" "$top/examples/python/planted_fault.py" >"$work/planted"); note $? "examples/python/planted_fault.py finds the planted fault"
  (cd "$work" && "$tester" -m pytest -q -p no:cacheprovider "$top/examples/python/test_mixing.py" "$top/examples/python/test_any_input.py" \
    >"$work/pytest"); note $? "the tests under pytest, with any inputs"
  (cd "$work" && "$tester" "$here/python_hypothesis.py" "$top"); note $? "what sfc_hypothesis.py draws, and what it tells of a failure"
  mkdir "$work/collected" && cp "$top/examples/pump.chart" "$here/pytest_plc.py" "$work/collected"
  (cd "$work/collected" && "$tester" -m pytest -q -p no:cacheprovider -p pytest_sfctest pytest_plc.py >"$work/pytest")
  [ $? = 1 ] && grep -q '^1 failed, 2 passed' "$work/pytest" && grep -q 'latest scans of plc' "$work/pytest" \
    && grep -q '^T#200ms SCAN Main overruns 0$' "$work/pytest"; note $? "the fixture plc of pytest_sfctest, and the latest scans of a failure"
else
  echo "not asked, hypothesis and pytest aren't there: the tests that they run"
fi

echo "$passed passed, $failed failed"
[ "$failed" = 0 ]
