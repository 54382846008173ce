#!/usr/bin/env bash
# lint.sh [CHARTS] [PLANTS] [SEED]: holds `sfcmon lint` to a search of its own (lint/lint.py): on so many random small charts what is told of
# networks, and on so many random plants of each mode of the second reading that no step that is told to be unreachable is ever active; 300,
# 10 and 1 where they are left out. Then to the charts of lint/kinds.txt, and to the examples, which have no warning that they don't allow.
# The last line is 'N passed, M failed'.
set -u
here=$(cd "$(dirname "${BASH_SOURCE[0]}")" && pwd)
# shellcheck source=tests/common.sh
. "$here/common.sh"
PYTHONDONTWRITEBYTECODE=1 exec python3 "$here/lint/lint.py" "$program" "${1:-300}" "${2:-10}" "${3:-1}"
