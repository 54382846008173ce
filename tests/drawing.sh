#!/usr/bin/env bash
# drawing.sh [N [SEED]]: holds the pictures of `sfcmon draw` to listings, replays and reports of coverage, by a reader of SVG that knows no
# layout: on all of examples/, on each chart among the cases of crates/conformance/data that loads, on N random plants of each mode of the
# second reading (10 where N is left out) from a seed on, and on large charts. Of each: well-formed; ids once; each step, association,
# transition, link and body there, with its title, its texts and its marks; no boxes or texts that overlap, no line through a box, a text
# or another line; texts within their boxes; lines that begin and end at their nodes; jumps with the right name, and their sources told
# where they lead; branches in the order of their rank; nothing outside the page; marks that move nothing; the same bytes for the same
# chart. Where it is installed, rsvg-convert (Debian's librsvg2-bin) has to take each picture of an example without a word; where not,
# that is said. The last line is 'N passed, M failed'.
set -u
here=$(cd "$(dirname "${BASH_SOURCE[0]}")" && pwd)
# shellcheck source=tests/common.sh
. "$here/common.sh"
exec python3 "$here/drawing/drawing.py" "$program" "$@"
