#!/usr/bin/env bash
# Runs the built sfcmon with its allocations, reads and writes failing one by one, and says what is not as it should be:
# a refused allocation gives status 4, `out of memory` and a front of the output, or the undisturbed run; a refused read, and
# files that fail after k bytes, status 3, `read fault` and no output; an output that fails after k bytes, or takes no byte
# more, status 3, `write fault` and exactly those k bytes; reads and writes of one byte change nothing. Where the chart is
# refused, a script that fails changes nothing. Then the same, of allocations, with tests in code, where rt ci or rt test has built
# them: those that refused.py names, and each test below a comment that begins with `tests/refused.sh refuses each allocation`.
# As many runs stand side by side as there are processors. The last line is 'N passed, M failed'. It wants cc.
set -u
here=$(cd "$(dirname "${BASH_SOURCE[0]}")" && pwd)
# shellcheck source=tests/common.sh
. "$here/common.sh"
exec python3 "$here/refused.py" "$program"
