#!/usr/bin/env bash
# launcher.sh [quick|full]: ./sfcmon in a clone of its own, whose name has a blank and which git doesn't know. First with a stand-in for
# the kit (tests/launcher/kit.sh), whose build is the program that is tested, within a minute: what a start costs, input, terminal, files,
# output and status, which of the two programs is run after a change, and each way in which a build can fail or be cut off. In full, which
# is meant where nothing is said, then with the kit itself: what the first answer takes, and a changed source behind a kept build; some
# minutes. What wants a mount is tried by root alone. SFCMON, where it is set, is the program that is built by the stand-in; else it is the
# proved one of this clone. The last line is 'N passed, M failed'.
# shellcheck disable=SC2016,SC2030,SC2031  # texts for another shell; a path in a room of its own
set -u
# shellcheck source=tests/common.sh
source "$(dirname "${BASH_SOURCE[0]}")/common.sh"
# shellcheck source=tests/launcher/kit.sh
source "$top/tests/launcher/kit.sh"
work=$(mktemp -d)
trap 'rm -rf "$work"' EXIT
mode=${1:-full}
clone="$work/a clone" own_path=$PATH status=0
kit="$work/a kit" lamp=$top/examples/lamp
export XDG_CACHE_HOME=$work/cache

note() {
  if [ "$1" = 0 ]; then passed=$((passed + 1)); return; fi
  failed=$((failed + 1))
  echo "not as it should be: $2 (status $status)"
  sed 's/^/  /' "$work/err" | head -n 5
}
# run WORD..: the launcher with these words; leaves out, err and status
run() { "$clone/sfcmon" "$@" >"$work/out" 2>"$work/err" </dev/null; status=$?; }
ends() { [ "$status" = "$1" ]; }
says() { [ "$(cat "$work/err")" = "$1" ]; }
mentions() { grep -qF -- "$1" "$work/err"; }
is_silent() { [ ! -s "$work/out" ]; }
is_lamp() { ends 0 && cmp -s "$work/out" "$lamp.expect"; }
asked() { [ "$(grep -c '^try' "$kit/asked")" = "$1" ]; }
# does WHAT: from now on; what rt was asked is forgotten
does() { echo "$1" >"$kit/does"; : >"$kit/asked"; }
# leaves_nothing: no half-done build and no process of one
leaves_nothing() { [ -z "$(find "$work" -name 'new.*' -print -quit)" ] && leaves_no_process; }
leaves_no_process() { ! grep -lsa "$work/.*/[n]ew\." /proc/[0-9]*/cmdline >"$work/left"; }
forget() { rm -rf "$clone/build" "$XDG_CACHE_HOME"; }
replay() { run replay "$lamp.chart" "$lamp.script"; }

# The files of this clone as they are, without what is built.
copy_clone() {
  mkdir -p "$clone"
  if [ -e "$top/.git" ]; then
    (cd "$top" && git ls-files -z --cached --others --exclude-standard \
      | xargs -0 sh -c 'for f; do if [ -f "$f" ]; then printf "%s\0" "$f"; fi; done' _ | xargs -0 cp --parents -t "$clone")
  else
    (cd "$top" && tar -c --exclude=./build --exclude=out --exclude=./.git .) | tar -x -C "$clone"
  fi
}

try_builds() {
  replay
  is_lamp && mentions "builds the program once" && mentions "built in" && asked 1; note $? "the first command builds, and answers"
  replay
  is_lamp && says "" && asked 1; note $? "the second command answers at once"
  leaves_nothing; note $? "a build leaves nothing behind"
  run --version
  ends 0 && [ "$(cat "$work/out")" = "$("$program" --version)" ] && mentions "not proved"; note $? "--version says that it isn't proved"
  run --prove
  [[ $(head -n 1 "$work/err") = *"one to two hours"* ]]; note $? "--prove says beforehand how long it takes"
  [ "$("$clone/tools/unproved" --quiet)" = "$(echo "$clone"/build/unproved/*/sfcmon)" ]; note $? "tools/unproved prints the path"
  [ "$(stat -c %s "$("$clone/tools/unproved" --quiet --module)")" = 200000 ]; note $? "tools/unproved --module prints that of the module"
}

# How long a start takes: the least of twenty, in milliseconds. Quick, beside other scripts, what counts is the time of a processor, and
# twice of it is allowed, since two threads may share one core; alone it is the time that passes.
try_time() {
  local least=9999 busy=9999 i took TIMEFORMAT='%R %U %S'
  for ((i = 0; i < 20; i++)); do
    { time replay; } 2>"$work/time"
    read -r -a took <"$work/time"
    took=("${took[@]/./}")
    if is_lamp && ((10#${took[0]} < least)); then least=$((10#${took[0]})); fi
    if is_lamp && ((10#${took[1]} + 10#${took[2]} < busy)); then busy=$((10#${took[1]} + 10#${took[2]})); fi
  done
  echo "a start and the replay of the lamp take $least ms, and $busy ms of a processor"
  if [ "$mode" = quick ]; then
    ((busy <= 200)); note $? "a start takes no more than 200 ms of a processor beside other scripts"
  else
    ((least <= 100)); note $? "a start takes no more than 100 ms"
  fi
}

try_terminal() {
  python3 "$top/tests/prompt.py" "$clone/sfcmon" "$lamp.chart" "$work" >"$work/told"
  add_counts "$work/told"; note $? "sessions of debug"
  sed 's/INTERVAL := T#10ms/SINGLE := Lamp/' "$lamp.chart" >"$work/never.chart"
  python3 "$top/tests/terminal.py" "$clone/sfcmon" "$work/never.chart" >"$work/told"
  add_counts "$work/told"; note $? "sessions of run"
  echo QUIT >"$work/typed"
  at_terminal debug "$top/examples/mixing.chart" <"$work/typed"
  ends 0 && grep -q '^sfc> ' "$work/out"; note $? "the mixing station at a prompt"
  printf 'STOP\n' | "$clone/sfcmon" run "$work/never.chart" >"$work/out" 2>"$work/err"
  status=$?
  ends 0 && [ "$(tail -n 1 "$work/out")" = "audit ok 2" ]; note $? "input through a pipe"
}

try_process() {
  local child
  sleep 20 | "$clone/sfcmon" run "$work/never.chart" >"$work/out" 2>"$work/err" &
  child=$!
  sleep 1
  [ "$(readlink "/proc/$child/exe")" = "$("$clone/tools/unproved" --quiet)" ]; note $? "the program takes the place of the launcher"
  kill -TERM "$child"
  wait "$child"
  status=$?
  ends 143; note $? "a signal ends it"
}

try_files() {
  local i
  cp "$lamp.chart" "$work/out of.chart" && cp "$lamp.script" "$work/out of.script" && ln -sf "$clone/sfcmon" "$work/link"
  (cd "$work" && ./link replay "out of.chart" "out of.script") >"$work/out" 2>"$work/err"
  status=$?
  is_lamp && says ""; note $? "files outside of the clone, from another folder, by a link"
  { sed '/PROGRAM P /d; /END_RESOURCE/,$d' "$lamp.chart"
    for ((i = 0; i < 60; i++)); do echo "    PROGRAM P$i WITH Main : Mix;"; done
    printf '  END_RESOURCE\nEND_CONFIGURATION\n'; } >"$work/wide.chart"
  for ((i = 0; i < 2000; i++)); do echo "T#${i}0ms SCAN Main"; done >"$work/wide.script"
  run replay "$work/wide.chart" "$work/wide.script"
  ends 0 && [ "$(stat -c %s "$work/out")" -gt 5000000 ] && "$program" replay "$work/wide.chart" "$work/wide.script" | cmp -s - "$work/out"
  note $? "five megabytes of output"
  "$clone/sfcmon" replay "$work/wide.chart" "$work/wide.script" 2>"$work/err" | head -n 1 | grep -q '^T#0s SCAN'
  note $? "output into a pipe that is closed"
}

# same TITLE WORD..: output, messages and status are the program's own
same() {
  local title=$1; shift
  run "$@"
  "$program" "$@" >"$work/own" 2>"$work/told" </dev/null
  [ $? = "$status" ] && cmp -s "$work/own" "$work/out" && cmp -s "$work/told" "$work/err"
  note $? "$title"
}

try_statuses() {
  echo "PROGRAM Mix 1" >"$work/bad.chart"
  same "a chart that is refused" check "$work/bad.chart"
  same "why it is refused" why "$work/bad.chart"
  same "no such file" replay "$work/none.chart" "$lamp.script"
  same "no words"
  same "no such command" play "$lamp.chart"
  same "the help" --help
  same "words with blanks" explain "No Initial"
  "$clone/sfcmon" check "$lamp.chart" >/dev/full 2>"$work/err"
  status=$?
  ends 3 && says "write fault"; note $? "output that can't be written"
}

# The source that is changed: one letter of a comment or a name, so that size and times can stay.
source_file="$clone/crates/sfcmon/src/main.rt"
change() { touch -r "$source_file" "$work/times" && sed -i '1s/./X/' "$source_file" && touch -r "$work/times" "$source_file"; }
restore() { cp "$top/crates/sfcmon/src/main.rt" "$source_file"; }

# without_kit: no rt is on the path from now on; 1 where it would still be
without_kit() { PATH=/usr/bin:/bin; ! type -P rt >"$work/which"; }

try_changes() {
  local kept
  does refuse
  change
  replay
  ends 70 && is_silent && mentions "mismatched types" && ! mentions "run=none" && asked 1
  note $? "a source that changed, with its size and its times kept"
  restore
  replay
  is_lamp && says "" && asked 1; note $? "a source that is as it was is built already"
  find "$clone" -type f -exec touch {} +
  replay
  is_lamp && says "" && asked 1; note $? "times alone make no build"
  kept=$("$clone/tools/unproved" --quiet)
  truncate -s 1000 "$kept"
  does ''
  replay
  is_lamp && asked 1; note $? "a kept program that isn't whole is built anew"
  does refuse
  echo "sfcmon_next: sfc_base" >>"$clone/crates.txt"
  replay
  is_lamp && says "" && asked 0; note $? "a crate that the program doesn't stand on"
  cp "$top/crates.txt" "$clone/crates.txt"
  (without_kit || exit 0; replay; is_lamp && says ""); note $? "a kept build, and no kit"
}

try_proved() {
  local proved="$clone/crates/sfcmon/out/sfcmon"
  does refuse
  mkdir -p "${proved%/*}"
  printf '#!/bin/sh\necho proved\n' >"$proved" && chmod +x "$proved"
  replay
  [ "$(cat "$work/out")" = proved ] && says ""; note $? "the proved program, which no source is younger than"
  find "$clone" -path "${proved%/*}" -prune -o -type f -exec touch {} +
  replay
  [ "$(cat "$work/out")" = proved ] && says ""; note $? "the proved program, when times alone changed"
  run --prove
  ends 0 && says "sfcmon: proved and built already"; note $? "--prove, when all is proved"
  sed -i '1s/./X/' "$clone/crates/sfc_base/proofs/"*.antt
  replay
  is_lamp && says ""; note $? "a proof that changed: the unproved program"
  cp "$top/crates/sfc_base/proofs/"*.antt "$clone/crates/sfc_base/proofs/"
  change
  replay
  ends 70 && is_silent; note $? "a source that changed behind the proved program"
  restore
  replay
  [ "$(cat "$work/out")" = proved ] && says ""; note $? "the proved program, when the source is as it was"
  printf '#!/bin/sh\necho other\n' >"$proved"
  touch -d '1 hour ago' "$proved"
  replay
  is_lamp && says ""; note $? "another program, older than the sources"
  rm -r "${proved%/*}" "$clone/build/proved"
}

# fails TITLE STATUS TEXT: the build fails so, nothing is run, nothing stays
fails() {
  replay
  ends "$2" && is_silent && mentions "$3" && ! grep -qE '^(checked|races|run=)' "$work/err"; note $? "$1"
  leaves_nothing; note $? "$1: nothing stays"
}

try_bad_kits() {
  forget
  does die; fails "a compiler that is killed" 70 "the kit's compiler was killed"
  does starve; fails "a compiler without memory" 70 "there isn't enough memory"
  does fall; fails "a clang that is killed" 70 "there isn't enough memory"
  does refuse; fails "sources that aren't compiled" 70 "the kit's compiler refuses the sources"
  does ''
  mv "$kit/bin/rattle-link" "$kit/bin/link-rattle"; fails "a kit without a linker" 70 "the kit's linker failed"
  mv "$kit/bin/link-rattle" "$kit/bin/rattle-link"
  does hide
  replay
  is_lamp && mentions "hands out no module" && mentions "first look" && ! grep -q '^races' "$work/err" && asked 2
  note $? "a kit that hands out no module"
  replay
  is_lamp && asked 3; note $? "it isn't tried once more"
  mv "$kit/toolchain/bin/clang" "$work/clang"
  does hide
  replay
  is_lamp && mentions "has no clang" && mentions "first look" && asked 1; note $? "a kit without clang"
  run why "$work/bad.chart"
  ends 1 && grep -qF "$work/bad.chart:1" "$work/out"; note $? "a first look names the file"
  mv "$work/clang" "$kit/toolchain/bin/clang"
  forget
  (without_kit || exit 0; replay; ends 69 && is_silent && mentions "isn't on the path"); note $? "no kit"
}

# at_terminal WORD..: the launcher with these words at a terminal of its own, where the input is typed
at_terminal() {
  local words
  printf -v words '%q ' "$clone/sfcmon" "$@"
  TERM=dumb timeout 20 script -qec "$words" /dev/null >"$work/out" 2>"$work/err"
  status=$?
}

# cut_off SIGNAL: a build that gets it after a second; all that it started ends
cut_off() {
  local child
  does hang
  "$clone/tools/unproved" >"$work/out" 2>"$work/err" </dev/null &
  child=$!
  sleep 1.5
  kill "-$1" "$child"
  wait "$child" 2>"$work/told"
  sleep 1
  leaves_no_process; note $? "a build that gets $1 leaves no process"
}

try_cut_off() {
  forget
  cut_off TERM
  leaves_nothing; note $? "a build that is ended leaves nothing"
  cut_off KILL
  [ -z "$(compgen -G "$clone/build/unproved/latest*")" ]; note $? "a build that is killed leaves nothing that would be run"
  does ''
  replay
  is_lamp && leaves_nothing; note $? "the next build clears away what it left"
  forget
  does hang
  printf '\003' | (sleep 1.5; cat; sleep 1) | at_terminal check "$lamp.chart"
  leaves_nothing && [ -z "$(compgen -G "$clone/build/unproved/latest*")" ]; note $? "Ctrl-C ends a build"
  does slow
  at_terminal check "$lamp.chart" <"$work/none"
  ends 0 && [ "$(tr -d '\r' <"$work/out" | wc -l)" = 2 ] && grep -qE $'\r\033\\[Ksfcmon: .* [0-9]+ s of some .*\r\033\\[K' "$work/out"
  note $? "at a terminal the line of progress is rewritten, and then goes"
}

try_two() {
  local first
  forget
  does slow
  replay_aside() { "$clone/sfcmon" replay "$lamp.chart" "$lamp.script" >"$work/first" 2>"$work/told" </dev/null; }
  replay_aside & first=$!
  sleep 0.7
  replay
  wait "$first" && cmp -s "$work/first" "$lamp.expect" && is_lamp && asked 1 && mentions "waits for a build"
  note $? "two at once: one builds, and the other waits for it"
}

# with_mount TEXT: a script in a room of its own for mounts, with the clone as its first word
with_mount() {
  unshare -m bash -c "$1" _ "$clone" "$lamp" >"$work/out" 2>"$work/err" </dev/null
  status=$?
}

try_mounts() {
  forget
  mkdir -p "$XDG_CACHE_HOME"
  if ! unshare -m mount -t tmpfs -o size=8k none "$XDG_CACHE_HOME" 2>"$work/told"; then
    echo "not tried, since nothing can be mounted here: no disk, and a clone that can't be written"
    return
  fi
  mkdir -p "$clone/build"
  does ''
  with_mount 'mount -t tmpfs -o size=1m none "$1/build" && exec "$1/sfcmon" check "$2.chart"'
  ends 70 && is_silent && mentions "no space left"; note $? "no space for a build"
  with_mount 'mount -t tmpfs -o size=8k none "$1/build"; cat /dev/zero >"$1/build/all" 2>/dev/null; exec "$1/sfcmon" check "$2.chart"'
  ends 70 && is_silent && mentions "no space left"; note $? "no space at all"
  forget
  with_mount 'mount --bind "$1" "$1" && mount -o remount,bind,ro "$1" && "$1/sfcmon" check "$2.chart" && "$1/sfcmon" check "$2.chart"'
  ends 0 && [ "$(cat "$work/out")" = $'ok\nok' ] && mentions "is kept in $XDG_CACHE_HOME/sfcmon" && asked 1
  note $? "a clone that can't be written"
  forget
  does hide
  with_mount 'mount --bind "$1" "$1" && mount -o remount,bind,ro "$1" && XDG_CACHE_HOME=/proc/none exec "$1/sfcmon" check "$2.chart"'
  ends 0 && mentions "no build can be kept"; note $? "nothing that can be written"
}

# ---- with the kit itself

try_kit() {
  local begin=$SECONDS text
  forget
  replay
  echo "with the kit the first answer took $((SECONDS - begin)) s; on four idle processors it is to be within 110"
  is_lamp && mentions "built in"; note $? "with the kit: the first command"
  try_time
  leaves_nothing; note $? "with the kit: nothing stays"
  text=$("$clone/sfcmon" --version 2>"$work/err")
  sed -i "s/${text#sfcmon }/9.9.9/" "$clone"/crates/sfcmon/src/*.rt
  run --version
  ends 0 && [ "$(cat "$work/out")" = "sfcmon 9.9.9" ]; note $? "with the kit: a changed source"
  cp "$top"/crates/sfcmon/src/*.rt "$clone/crates/sfcmon/src/"
  begin=$SECONDS
  run --version
  [ "$(cat "$work/out")" = "$text" ] && ! mentions "built in" && ((SECONDS - begin < 5)); note $? "with the kit: the build before is kept"
  forget
  (ulimit -v 800000; exec "$clone/tools/unproved" >"$work/out" 2>"$work/err"); status=$?
  ends 70 && is_silent && { mentions "enough memory" || mentions "want of memory"; }; note $? "with the kit: want of memory"
}

quick() {
  stand_in "$kit" "$program"
  export PATH="$kit/bin:$own_path"
  try_builds
  try_time
  try_terminal
  try_process
  try_files
  try_statuses
  try_changes
  try_proved
  try_bad_kits
  try_cut_off
  try_two
  try_mounts
  export PATH=$own_path
}

: >"$work/none"
copy_clone
quick
if [ "$mode" = full ]; then try_kit; fi
tell_counts
