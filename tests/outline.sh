#!/usr/bin/env bash
# outline.sh [COUNT] [SEED]: holds the outlines of charts (crates/outlines prints them) to an independent search (outline.py): those of the
# examples, of the pages and of the cases, and of COUNT random plants of each subject. The program is the one that OUTLINES names, else the
# proved one that `rt ci` left in this clone, else one that is built without proof. The last line is 'N passed, M failed'.
set -u
here=$(cd "$(dirname "${BASH_SOURCE[0]}")" && pwd)
program=${OUTLINES:-$here/../crates/outlines/out/outlines}
[ -x "$program" ] || program=$("$here/../tools/unproved" --quiet --crate outlines) || exit 1
PYTHONDONTWRITEBYTECODE=1 exec python3 "$here/outline.py" "$program" "$@"
