#!/usr/bin/env bash
# cover.sh [N [SEED]]: holds `sfcmon cover` to `sfcmon replay` and to the second reading of the rules (tests/reading), on all of
# examples/, on all replays among the cases of crates/conformance/data, and on N random plants of each mode of the reading (40 where N is
# left out) from a seed on. By the lines of `replay`: the steps, cleared transitions and executed actions that are seen there are as many as are told to be
# reached, and none of them is told to be missed; so are scans and faults. By the reading the whole report, to the byte, so also which
# transitions were never enabled or never TRUE, who took a token, and which branches were taken. Then command lines, with exit statuses and
# what is told of a file. The last line is 'N passed, M failed'.
set -u
here=$(cd "$(dirname "${BASH_SOURCE[0]}")" && pwd)
# shellcheck source=tests/common.sh
. "$here/common.sh"
exec python3 "$here/cover/cover.py" "$program" "$@"
