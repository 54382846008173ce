#!/usr/bin/env bash
# pressure.sh [N]: runs 16 tasks of 1 ms by 16 workers in `sfcmon run`, until N commands are accepted (1,000,000 where none is given,
# 1,500 at least). A session on a pipe sends STOP, GO and EPOCH, each once in a thousand commands. The lines are to have rising
# numbers, and no scan between a STOP and its GO; the run is to end with status 0, nothing on standard error but overruns and lost lines,
# and a right audit of all; its memory is to stay below 16 MB, and not to grow once the feed has gone round, after 70,000 commands; with
# fewer than that it says that this isn't asked. The last line is 'N passed, M failed'; before it stand the figures.
set -u
here=$(cd "$(dirname "${BASH_SOURCE[0]}")" && pwd)
# shellcheck source=tests/common.sh
. "$here/common.sh"
exec python3 "$here/pressure.py" "$program" "${1:-1000000}"
