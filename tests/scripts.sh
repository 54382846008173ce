#!/usr/bin/env bash
# Holds each script of bash in the repository to shellcheck, which has to have nothing to say of it; where that isn't installed it says so.
# The last line is 'N passed, M failed'.
set -u
cd "$(dirname "${BASH_SOURCE[0]}")/.." || exit 1
passed=0 failed=0
if command -v shellcheck >/dev/null; then
  while IFS= read -r script; do
    if said=$(shellcheck -x -f gcc "$script" 2>&1); then passed=$((passed + 1)); continue; fi
    failed=$((failed + 1))
    printf 'not as it should be: %s\n%s\n' "$script" "$said"
  done < <(find . -name out -prune -o -path ./build -prune -o -name .git -prune -o -type f -exec awk \
    'FNR == 1 { if ($0 ~ /^#!.*[\/ ]bash$/) print FILENAME; nextfile }' {} +)
else
  echo "not asked, shellcheck isn't there: the scripts"
fi
echo "$passed passed, $failed failed"
[ "$failed" = 0 ]
