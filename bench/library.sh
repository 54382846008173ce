#!/usr/bin/env bash
# library.sh [SCANS] [RESOURCES]: what scans take by C and by Python, one by one and as one call, of the pump and of the ring with 64 steps;
# two threads with a handle each; what is saved, and the memory of so many resources in one process. 1,000,000 scans and 1,000 resources where
# nothing is said. It wants the library (tools/c-library, or SFC_LIBRARY_FOLDER), a C compiler and python3, and an idle machine.
set -u
here=$(cd "$(dirname "${BASH_SOURCE[0]}")" && pwd)
top=$(dirname "$here")
build=${SFC_LIBRARY_FOLDER:-$top/build/c}
scans=${1:-1000000} resources=${2:-1000}
work=$(mktemp -d)
trap 'rm -rf "$work"' EXIT
export PYTHONPATH=$build PYTHONDONTWRITEBYTECODE=1
"${CC:-cc}" -O2 -Wall -Wextra -std=c11 -I "$build" "$here/library.c" "$build/libsfc.a" -lpthread -o "$work/library" || exit 3
python3 "$here/ring.py" 64 100 "$work/ring.chart" "$work/script"
# of CHART TASK INTERVAL
of() {
  echo "== $(basename "$1" .chart)"
  "$work/library" "$@" "$scans" "$resources"
  python3 "$here/library.py" "$@" "$scans"
}
of "$top/examples/pump.chart" Main 200000
of "$work/ring.chart" "$(sed -nE 's/.*TASK ([A-Za-z0-9_]+)\(.*/\1/p' "$work/ring.chart" | head -n 1)" \
  "$(sed -nE 's/.*INTERVAL := T#([0-9]+)ms.*/\1000/p' "$work/ring.chart" | head -n 1)"
