#!/usr/bin/env bash
# damaged.sh N SEED       N damaged charts and scripts, one for each seed from SEED on; `damaged.sh 1 17` is the one of seed 17
# damaged.sh bytes        every prefix of a chart, and the chart with each of its bytes replaced in turn by each of five others
# damaged.sh limits       a chart or a script at each limit, and one beyond it
# damaged.sh why N SEED   asks `why` of N damaged charts and scripts, as with N and SEED alone
# damaged.sh all N SEED   asks `why --all` of N damaged charts
# damaged.sh files FOLDER inputs of a folder, in which a line `====` parts chart and script, as a fuzzer leaves them (tests/fuzz)
#
# Each is checked and replayed by the built program. It has to answer within a second of processor time, with status 0 or 1, nothing on
# standard error or exactly one stated text, and as the second reading of the rules (tests/reading) answers: the same refusal and line,
# and where the script has at most 250 commands on a plant that isn't large, the same output. A chart without fault is listed, and the
# listing lists and plays the same. What differs is kept in a folder `damaged` among the temporary files, and told with the command that
# runs it again. What `why` tells has to be what check and replay refuse the texts for, at a place that lies in them. `why --all` has to begin
# with that, and to tell at most 100 faults behind one another, none twice. Before the last line, how many inputs had which answer; the last
# line is 'N passed, M failed'.
set -u
here=$(cd "$(dirname "${BASH_SOURCE[0]}")" && pwd)
# shellcheck source=tests/common.sh
. "$here/common.sh"
ulimit -c 0
exec python3 "$here/damage/damaged.py" "$program" "$@"
