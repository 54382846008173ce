#!/usr/bin/env bash
# web.sh [quick|full]: the runtime in a page. `quick` compares the module with the program under node, to the byte; `full` has more plants,
# and uses the page in Chromium and Firefox, without a window. WEB, where it is set, is a folder with sfc.wasm and index.html; else tools/web
# builds them, which wants the proved libraries. What isn't installed is told and passed over. The last line is 'N passed, M failed'.
set -u
# shellcheck source=tests/common.sh
. "$(dirname "${BASH_SOURCE[0]}")/common.sh"
here=$top/tests/web
mode=${1:-quick}
work=$(mktemp -d)
trap 'rm -rf "$work"' EXIT

# skip WHAT TOOL: tells what isn't asked
skip() { echo "not asked, since there is no $2: $1"; }
# try NAME COMMAND..: a part that ends with its counts
try() {
  local name=$1
  shift
  "$@" >"$work/part" 2>"$work/errors"
  add_counts "$work/part" && return
  failed=$((failed + 1))
  echo "not as it should be: $name ends without counts: $(tail -c 400 "$work/errors")"
}

web=${WEB:-$top/build/web}
if [ -z "${WEB:-}" ]; then
  if ! command -v wasm-opt >/dev/null; then
    skip 'all of it' wasm-opt
    tell_counts
    exit 0
  fi
  if ! "$top/tools/web" >"$work/build" 2>&1; then
    echo "not as it should be: tools/web builds no page: $(tail -n 3 "$work/build")"
    failed=1
    tell_counts
    exit 1
  fi
fi

case $mode in quick) count=60 ;; full) count=2000 ;; *) echo "usage: web.sh [quick|full]" >&2; exit 2 ;; esac
if command -v node >/dev/null; then
  try 'the module beside the program' python3 "$here/same.py" "$program" "$web/sfc.wasm" "$count"
  try 'the sources of the page' node "$here/parts.mjs"
else
  skip 'the module beside the program' node
fi
if [ "$mode" = full ]; then
  for browser in chromium firefox; do
    command=${browser/firefox/firefox-esr}
    command -v "$command" >/dev/null || { skip "the page in $browser" "$command"; continue; }
    try "the page in $browser" python3 "$here/drive.py" "$browser" "$web/index.html" "$program"
    try "the tutorial in $browser" python3 "$here/tutorial.py" "$browser" "$web/index.html"
  done
  if command -v chromium >/dev/null; then
    try 'large charts and long scripts' python3 "$here/large.py" "$web/index.html"
    try 'a run in the page' python3 "$here/panel.py" "$web/index.html" "$program"
  fi
fi
tell_counts
