#!/usr/bin/env bash
# pictures.sh [make]: holds `sfcmon wave` and `sfcmon draw --dot` to what `sfcmon replay` and `sfcmon list` say, on all of examples/ and on the cases of
# tests/pictures/. Of a waveform each step, action, variable, task and mode at each accepted command, with run instants and with those of
# the script; of a drawing its steps, transitions and action blocks, and behind a script what is active and what was cleared. The texts
# of tests/pictures/ are compared to the byte. Where they are installed, vcd2fst (Debian's gtkwave) has to take each waveform and dot
# (graphviz) each drawing, without a word; where not, that is said. The pictures of docs/pictures
# are what their commands make; `make` makes them anew. The last line is 'N passed, M failed'.
set -u
here=$(cd "$(dirname "${BASH_SOURCE[0]}")" && pwd)
# shellcheck source=tests/common.sh
. "$here/common.sh"
exec python3 "$here/pictures/pictures.py" "$program" "$@"
