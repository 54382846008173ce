#!/usr/bin/env bash
# opening.sh: what it takes to load a chart (`sfcmon check`) and to open it (`sfcmon replay` with an empty script, less that), for the
# charts of opening.py at several sizes: each row but the first of its group has something twice as large as the row before, and behind its
# figures by how much they are larger. Opening has the lines of the image at the end too, 32 for each instance. Instructions are those of
# callgrind.
# It wants python3 and valgrind.
set -eu
# shellcheck source=bench/measure.sh
. "$(dirname "${BASH_SOURCE[0]}")/measure.sh"

# A row, and by how much it is larger than the row before.
row() {
  python3 "$bench/opening.py" "$1" "$2" "$3" "$folder/chart"
  load=$(loading) open=$(opening)
  awk -v a="$1" -v b="$2" -v c="$3" -v load="$load" -v open="$open" -v load_before="${4:-}" -v open_before="${5:-}" 'BEGIN {
    printf "%6d %12d %10d %12d %12d", a, b, c, load, open
    if (load_before) printf "  %.2f %.2f", load / load_before, open / open_before
    print ""
  }'
}

printf '%6s %12s %10s %12s %12s\n' steps transitions instances loading opening
for group in '128,128,1 256,256,1 512,512,1 1024,1024,1' '256,256,1 256,512,1 256,1024,1 256,2048,1' \
  '16,16,1 16,16,2 16,16,4 16,16,8 16,16,16 16,16,32 16,16,64'; do
  load='' open=''
  for sizes in $group; do
    IFS=, read -r steps transitions instances <<<"$sizes"
    row "$steps" "$transitions" "$instances" "$load" "$open"
  done
done
