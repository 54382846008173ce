#!/usr/bin/env bash
# fuzz.sh SECONDS [FOLDER]: fuzzes `sfcmon check` for a tenth of the time and `sfcmon replay` for the rest, by AFL++, in FOLDER
# (~/sfcmon-fuzz where none is given). Then each input that AFL++ found worth keeping is held to the second reading of the rules, by
# tests/damaged.sh. A folder that is there goes on with what it has. README.md says what it wants and what it rests on.
set -eu
here=$(cd "$(dirname "${BASH_SOURCE[0]}")" && pwd)
top=$(dirname "$(dirname "$here")")
seconds=$1
work=${2:-$HOME/sfcmon-fuzz}
kit=$(dirname "$(dirname "$(readlink -f "$(command -v rt)")")")
runtime=$(dpkg -L afl++ | grep 'afl-compiler-rt-64\.o$')
mkdir -p "$work"

# The program as `rt try` compiles it, with run-time checks.
if [ ! -e "$work/module.bc" ]; then cp "$("$top/tools/unproved" --module)" "$work/module.bc"; fi
# build TO FLAG..: the module as an object
build() {
  local to=$1; shift
  "$kit/toolchain/bin/clang" --target=x86_64-unknown-linux-gnu --sysroot="$kit/toolchain" -march=x86-64 -mllvm -trap-unreachable \
    --no-default-config -c -x ir "$work/module.bc" -o "$to" -fPIE "$@"
}
build "$work/seen.o" -O1 -fsanitize-coverage=trace-pc-guard
build "$work/plain.o" -O2
cc -O1 -c -o "$work/split.o" "$here/split.c"
libraries=("$kit/c/libos_c.a" "$kit/c/liblibc_c.a" -lm)
cc -Wl,--wrap=open -o "$work/seen" "$work/seen.o" "$work/split.o" "$runtime" "${libraries[@]}" -ldl -lpthread -lrt
cc -o "$work/plain" "$work/plain.o" "${libraries[@]}"

export AFL_I_DONT_CARE_ABOUT_MISSING_CRASHES=1 AFL_SKIP_CPUFREQ=1 AFL_NO_AFFINITY=1 AFL_NO_UI=1 AFL_AUTORESUME=1
if [ ! -e "$work/small" ]; then
  PYTHONDONTWRITEBYTECODE=1 python3 "$here/seeds.py" "$work/seeds"
  # It refuses a folder below /tmp, which all.sh has, unless it is told that nobody else writes there.
  AFL_ALLOW_TMP=1 TMPDIR=$work afl-cmin -i "$work/seeds" -o "$work/small" -- "$work/seen" replay @@ @@
fi
# fuzz NAME SECONDS WORD..: the program with these words
fuzz() {
  local name=$1 time=$2; shift 2
  nice -n 10 afl-fuzz -V "$time" -i "$work/small" -o "$work/$name" -x "$here/words.dict" -t 1000 -m none -- \
    "$work/seen" "$@" >"$work/$name.log"
  grep -E 'run_time|execs_done|corpus_count|edges_found|saved_(crashes|hangs)' "$work/$name/default/fuzzer_stats"
}
fuzz check $((seconds / 10)) check @@
fuzz replay $((seconds - seconds / 10)) replay @@ @@
SFCMON=$work/plain "$top/tests/damaged.sh" files "$work/replay/default/queue"
