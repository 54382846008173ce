#!/usr/bin/env bash
# report.sh: opens the pages of `sfcmon report` in a headless Chromium (Debian's chromium; where it isn't installed, that is said), and holds
# what they show to `replay`, `list` and `cover`: on all of examples/, at up to 25 places of each script, active steps with their times,
# cleared transitions, executed actions, forces and values; files with their sums, outcomes, coverage; two scripts, buttons, events; names
# that look like markup; 20,000 scans within two seconds, or two of the page's own where others keep the machine busy. No message on the
# console, no request to anywhere. The last line is
# 'N passed, M failed'.
set -u
here=$(cd "$(dirname "${BASH_SOURCE[0]}")" && pwd)
# shellcheck source=tests/common.sh
. "$here/common.sh"
exec python3 "$here/report/report.py" "$program"
