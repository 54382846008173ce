#!/usr/bin/env bash
# flat.sh [STEPS ..]: what a scan of the ring of ring.py takes as flat C (flat.py, `cc -O2`), in the core (`Resource::apply` and what it
# calls), and in `sfcmon replay` and `sfcmon wave`, for rings of so many steps (8, 64 and 512 where none is said); `lamp` in place of a
# number is the lamp of examples, which has no flat C. Instructions are those of callgrind: 1,100 scans less those of 100, by the scan.
# `text` is what `replay` takes beyond `draw --after`, which plays the same script and writes nothing of its commands; `bytes` are those
# that `replay` writes for a scan. `later` is the text of 6,000 scans less that of 2,000, when each kind of scan has been seen before, and
# `bytes` behind it are those of these scans. At the end of 1,100 scans flat C and `replay` have to have the same values, and that is said
# too: where they differ, the status is 1.
# It wants python3, cc and valgrind.
set -eu
# shellcheck source=bench/measure.sh
. "$(dirname "${BASH_SOURCE[0]}")/measure.sh"
[ $# -gt 0 ] || set -- 8 64 512
status=0

row() {
  printf '%8s %8s %8s %8s %8s %8s %8s %8s %8s  %s\n' "$@"
}

# of_flat STEPS: compiles flat C; leaves its instructions for a scan and whether it ends with the values of `replay`.
of_flat() {
  python3 "$bench/flat.py" "$1" "$folder/flat.c"
  cc -O2 -o "$folder/flat" "$folder/flat.c"
  flat=$(by_scan 100 "$(instructions "$folder/flat" 100)" 1100 "$(instructions "$folder/flat" 1100)")
  "$folder/flat" 1100 >"$folder/by_flat"
  "$program" replay "$folder/chart" "$folder/1100" | grep '^image ' >"$folder/by_replay"
  values=same
  cmp -s "$folder/by_flat" "$folder/by_replay" || { values=differ; status=1; }
}

row steps flat core text bytes later bytes replay wave values
for steps in "$@"; do
  flat=- values=-
  scripts_of "$steps"
  [ "$steps" = lamp ] || of_flat "$steps"
  row "$steps" "$flat" "$(of_core 100 1100)" "$(text_by_scan 100 1100)" "$(bytes_by_scan 100 1100)" "$(text_by_scan 2000 6000)" \
    "$(bytes_by_scan 2000 6000)" "$(of_program replay 100 1100)" "$(of_program wave 100 1100)" "$values"
done
exit $status
