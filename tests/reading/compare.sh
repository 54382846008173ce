#!/usr/bin/env bash
# compare.sh [--mode MODE] COMMAND N [SEED]: plays N random plants by `COMMAND replay CHART SCRIPT` and by the reading, and prints what
# differs. COMMAND may have words (quoted as one). Charts, scripts and both outputs that differ are kept in the folder DIFFERENCES, a new
# temporary one where that isn't set. The last line is 'N passed, M failed'; the status is 1 where one differs.
set -u
here=$(cd "$(dirname "${BASH_SOURCE[0]}")" && pwd)
export PYTHONDONTWRITEBYTECODE=1
exec python3 "$here/compare.py" "$@"
