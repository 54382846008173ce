# Sourced by the scripts beside it. It gives `top`, the repository, and `program`, which they run: the one that SFCMON names, and where
# that isn't set the proved one of this clone, which is proved and built first where it isn't. And it counts for their last line.
# shellcheck shell=bash
# shellcheck disable=SC2034 # what it gives is used by those that source it
top=$(cd "$(dirname "${BASH_SOURCE[0]}")/.." && pwd)
export PYTHONDONTWRITEBYTECODE=1
passed=0 failed=0

# tell_counts: prints the last line; the status is 1 where something failed.
tell_counts() { echo "$passed passed, $failed failed"; [ "$failed" = 0 ]; }

# add_counts FILE: adds what the last line of a script's output counts, and shows the lines before it; 1 where it counts nothing.
add_counts() {
  [[ $(tail -n 1 "$1") =~ ^([0-9]+)\ passed,\ ([0-9]+)\ failed$ ]] || return 1
  passed=$((passed + BASH_REMATCH[1])) failed=$((failed + BASH_REMATCH[2]))
  sed '$d' "$1"
}

# find_program: which program is run; it ends the script where there is none.
find_program() {
  if [ -z "${SFCMON:-}" ]; then "$top/sfcmon" --prove || exit 1; fi
  program=$(command -v -- "${SFCMON:-$top/crates/sfcmon/out/sfcmon}") && program=$(realpath -s -- "$program") && return
  echo "not as it should be: there is no program ${SFCMON:-$top/crates/sfcmon/out/sfcmon}"
  failed=1
  tell_counts
  exit 1
}
find_program
