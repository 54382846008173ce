#!/usr/bin/env bash
# mutants.sh: whether the tests of examples/ and examples/patterns/ find what is wrong with a chart. Each chart is changed in one place: the
# condition of a transition is negated, a time is doubled (that of a task apart), or an association is left out. One of its cases has to
# fail then. The last line is 'N passed, M failed'.
set -u
here=$(cd "$(dirname "${BASH_SOURCE[0]}")" && pwd)
# shellcheck source=tests/common.sh
. "$here/common.sh"
exec python3 "$here/mutants.py" "$program" "$top/examples" "$top/examples/patterns"
