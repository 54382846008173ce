#!/usr/bin/env bash
# epochs.sh [N]: runs a task of a microsecond in `sfcmon run`, which so is scanned one scan behind the other, until N commands are accepted
# (3,000,000 where none is given; 1,200,000 at least, since 1,048,576 are held at most), without an EPOCH of its session. The run is to end
# with status 0, nothing on standard error but overruns and lost lines, and a right audit of all; its memory is not to grow once the history
# was cut for the first time. 86400000 are as many as a task of a millisecond has in a day. The last line is 'N passed, M failed'; before it
# stand the figures.
set -u
here=$(cd "$(dirname "${BASH_SOURCE[0]}")" && pwd)
# shellcheck source=tests/common.sh
. "$here/common.sh"
exec python3 "$here/epochs.py" "$program" "${1:-3000000}"
