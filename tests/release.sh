#!/usr/bin/env bash
# Makes a release twice, in two clones, and compares the sums. Each of its three files goes into an empty root; from there the program
# plays the examples, a loop and a bench in C are built by pkg-config and run, and a bench in Python runs. Then what a release is refused
# for, an install from a clone, and the version. The last line is 'N passed, M failed'.
# SFCMON and SFC_LIBRARY_FOLDER, where they are set, are the program and the folder with the library that are packed; else they are those
# that are built in this clone. It wants git, cc, dpkg-deb, pkg-config and python3 with venv. A shell that isn't there isn't asked for its
# completion.
set -u
# shellcheck source=tests/common.sh
source "$(dirname "${BASH_SOURCE[0]}")/common.sh"
# shellcheck source=tools/built.sh
source "$top/tools/built.sh"
(want_built) || { failed=1; tell_counts; exit 1; }
program=$(realpath "$program") library=$(realpath "$library")
unset SFCMON SFC_LIBRARY_FOLDER SFC_LIBRARY ABOUT
work=$(mktemp -d)
trap 'rm -rf "$work"' EXIT
note() { if [ "$1" = 0 ]; then passed=$((passed + 1)); else failed=$((failed + 1)); echo "not as it should be: $2"; fi; }
pass_over() { echo "not asked, $1 isn't there: $2"; }
has() { grep -qF -- "$2" "$1"; }

# ---- two clones, with what is built and with what ./test notes of it

clone="$work/one clone" other=$work/other
sum=$(sha256sum <"$program" | cut -d' ' -f1)
commit() { git -C "$clone" add -A && git -C "$clone" -c user.name=test -c user.email=test commit -qm "$1"; }
give_built() {
  mkdir -p "$1/crates/sfcmon/out" "$1/build/c"
  cp "$program" "$1/crates/sfcmon/out/sfcmon"
  cp "$library"/libsfc.{a,so} "$1/build/c"
  printf '%s\n' "commit $(git -C "$1" rev-parse HEAD)" "kit a kit" "gate 7 passed, 0 failed" "program $sum" >"$1/build/gate.txt"
}
mkdir "$clone"
git -C "$top" ls-files -coz --exclude-standard | tar -C "$top" --null -T - --ignore-failed-read -cf - 2>"$work/tar" | tar -C "$clone" -xf -
git -C "$clone" init -q && commit "as it is" && git clone -q "$clone" "$other"
note $? "two clones"
give_built "$clone"
give_built "$other"
made=$clone/build/release
version=$("$clone/tools/version")

# release CLONE WORD..: leaves out, err and status
release() { "$1/tools/release" "${@:2}" >"$work/out" 2>"$work/err" </dev/null; status=$?; }
release "$clone"
[ "$status" = 0 ] && cmp -s "$work/out" "$made/SHA256SUMS" && [ ! -s "$work/err" ]
note $? "a release: $(cat "$work/err")"
(umask 077; TZ=Asia/Tokyo LC_ALL=C.UTF-8 "$other/tools/release" >"$work/again" 2>&1)
cmp "$work/again" "$made/SHA256SUMS"
note $? "a release in another clone has the same sums"
(cd "$made" && sha256sum --quiet -c SHA256SUMS) && [ "$(find "$made" -type f | wc -l)" = 5 ] && [ "$(wc -l <"$made/SHA256SUMS")" = 4 ]
note $? "four files and their sums"
archive=$made/zadorike-$version-linux-x86_64.tar.gz
package=$made/zadorike_${version}_amd64.deb
wheel=$(echo "$made"/*.whl)

# ---- an empty root: PREFIX is where a release is unpacked in it

# alone ROOT PREFIX: the program in a root that has nothing else but the system's C library
alone() {
  local file
  if [ "$(id -u)" != 0 ]; then pass_over root "$2, where there is nothing else"; return; fi
  local examples=$2/share/doc/zadorike/examples
  for file in $(ldd "$1$2/bin/sfcmon" | grep -o '/[^ ]*'); do mkdir -p "$1$(dirname "$file")" && cp -L "$file" "$1$file"; done
  chroot "$1" "$2/bin/sfcmon" replay "$examples/mixing.chart" "$examples/mixing.script" >"$work/out"
  cmp -s "$work/out" "$top/examples/mixing.expect"
  note $? "$2, where there is nothing else"
}
# plays PREFIX: the program, the man page and the text that says what it is
plays() {
  local examples=$1/share/doc/zadorike/examples about=$1/share/doc/zadorike/ABOUT chart
  [ "$("$1/bin/sfcmon" --version)" = "sfcmon $version" ] && cmp -s "$1/bin/sfcmon" "$program"
  note $? "$1: the program"
  for chart in "$examples"/*.chart; do
    "$1/bin/sfcmon" replay "$chart" "${chart%.chart}.script" | cmp -s - "${chart%.chart}.expect"
    note $? "$1: ${chart##*/}"
  done
  has "$1/share/man/man1/sfcmon.1" "\"sfcmon $version\"" && has "$1/share/doc/zadorike/editors/vscode/package.json" "\"$version\""
  note $? "$1: the version of the man page and of the editors' file"
  has "$about" "$(git -C "$clone" rev-parse HEAD)" && has "$about" "kit        a kit" && has "$about" "7 passed, 0 failed" \
    && has "$about" "sfcmon     sha256 $sum"
  note $? "$1: what ABOUT says"
}
# asked PREFIX WORD..: what pkg-config answers
asked() { PKG_CONFIG_LIBDIR=$1/lib/pkgconfig pkg-config "${@:2}" sfc; }
# loops PREFIX LINKED: a loop and a bench in C by pkg-config, linked to this library
loops() {
  local examples=$1/share/doc/zadorike/examples flags it
  flags=$(asked "$1" --cflags --libs) && [ "$(asked "$1" --modversion)" = "$version" ]
  note $? "$1: what pkg-config says"
  rm -f "$work"/{loop,bench}
  for it in loop bench; do
    eval "cc -O1 -Wall -Wextra -Werror -pedantic -std=c11 '$examples/c/$it.c' $flags -o '$work/$it'"
    note $? "$1: $it.c"
    LD_LIBRARY_PATH=$1/lib ldd "$work/$it" | sed -n 's/.*libsfc[^ ]* => \(.*\) (.*/\1/p' >"$work/linked"
    [ "$(cat "$work/linked")" = "$2" ]
    note $? "$1: what $it is linked to: $(cat "$work/linked")"
  done
  printf '' | LD_LIBRARY_PATH=$1/lib timeout 20 "$work/loop" "$examples/pump.chart" >"$work/out"
  grep -q '^[0-9]* us: pump off, 0 overruns$' "$work/out"
  note $? "$1: what the loop prints"
  [ "$(LD_LIBRARY_PATH=$1/lib "$work/bench" "$examples/pump.chart" Main 200000 1000 2>"$work/err")" = "1000 scans, 0 overruns" ]
  note $? "$1: what the bench prints"
  if command -v cmake >/dev/null; then by_cmake "$@"; else pass_over cmake "$1: a loop by cmake"; fi
}
# by_cmake PREFIX: the loop by cmake, against each target that there is
by_cmake() {
  rm -rf "$work/cmake" && mkdir "$work/cmake"
  cat >"$work/cmake/CMakeLists.txt" <<CMAKE
cmake_minimum_required(VERSION 3.13)
project(loop C)
find_package(sfc $version REQUIRED)
foreach(it sfc sfc_static)
  if(TARGET sfc::\${it})
    add_executable(with_\${it} "$1/share/doc/zadorike/examples/c/loop.c")
    target_link_libraries(with_\${it} PRIVATE sfc::\${it})
  endif()
endforeach()
CMAKE
  cmake -S "$work/cmake" -B "$work/cmake/build" -DCMAKE_PREFIX_PATH="$1" >"$work/out" 2>&1 && cmake --build "$work/cmake/build" >"$work/out" 2>&1 \
    && printf '' | LD_LIBRARY_PATH=$1/lib timeout 20 "$work/cmake/build/with_sfc_static" "$1/share/doc/zadorike/examples/pump.chart" >"$work/out"
  note $? "$1: a loop by cmake"
}
# benches PREFIX PYTHON LIBRARY [FOLDER]: a bench in Python, with the module in the folder or of the environment, and this library
benches() {
  local test=$1/share/doc/zadorike/examples/python/test_mixing.py
  local found
  found=$(cd / && PYTHONPATH=${4:-} "$2" -c 'import os, sfc; print(os.path.realpath(sfc._path()))') && [ "$found" = "$(realpath "$3")" ]
  note $? "$1: the library that the module finds"
  (cd / && PYTHONPATH=${4:-} "$2" "$test") >"$work/out"
  [ "$(wc -l <"$work/out")" = "$(grep -c '^def test_' "$test")" ]
  note $? "$1: the bench in Python"
}
# leads PREFIX: each link of a page to a file that isn't the repository's alone
leads() {
  local page link file=$work/links
  for page in "$1"/share/doc/zadorike/{*.md,docs/*.md,editors/*.md}; do
    grep -oE '\]\([^)# ]+' "$page" | sed 's/^](//' | grep -vE '^[a-z]+:|^(\.\./)?(crates|tests|tools|bench)/' \
      | while read -r link; do [ -e "$(dirname "$page")/$link" ] || echo "${page##*/}: $link"; done
  done >"$file"
  [ ! -s "$file" ]
  note $? "$1: links that lead nowhere: $(tr '\n' ' ' <"$file")"
}
# completes PREFIX ZSH: each shell that is there, by the folders in which it looks itself
completes() {
  local common=/usr/share/bash-completion/bash_completion
  if [ -e "$common" ]; then
    # shellcheck disable=SC2016 # words of the inner shell
    XDG_DATA_DIRS=$1/share HOME=$work COMMON=$common bash -c \
      'source "$COMMON"; $(complete -p -D | grep -o "[^ ]*_load[^ ]*") sfcmon; complete -p sfcmon' >"$work/out" 2>&1 \
      && has "$work/out" _sfcmon
    note $? "$1: bash completes: $(cat "$work/out")"
  else pass_over bash-completion "$1: bash completes"; fi
  if command -v zsh >/dev/null; then
    HOME=$work zsh -fc "fpath=('$1/$2' \$fpath); autoload -U compinit; compinit -D -u; echo \$_comps[sfcmon]" >"$work/out" \
      && [ "$(cat "$work/out")" = _sfcmon ]
    note $? "$1: zsh completes"
  else pass_over zsh "$1: zsh completes"; fi
  if command -v fish >/dev/null; then
    PATH=$1/bin:$PATH XDG_DATA_DIRS=$1/share HOME=$work fish -c 'complete -C "sfcmon rep"' 2>"$work/err" | grep -q '^replay'
    note $? "$1: fish completes"
  else pass_over fish "$1: fish completes"; fi
}
# places ZSH: those of the list; has_all PREFIX ZSH: all of them, and nothing else
places() { "$clone/tools/install" --zsh "$1" --files | cut -f2 | sort; }
has_all() {
  diff <(places "$2") <(cd "$1" && find . -type f -o -type l | sed 's/^..//' | sort)
  note $? "$1: its files"
}

root="$work/an archive" prefix=/zadorike-$version-linux-x86_64
mkdir "$root" && tar -C "$root" -xzf "$archive"
note $? "the archive"
has_all "$root$prefix" share/zsh/site-functions
plays "$root$prefix"
loops "$root$prefix" "$root$prefix/lib/libsfc.so.1"
benches "$root$prefix" python3 "$root$prefix/lib/libsfc.so.$version" "$root$prefix/lib/python3/dist-packages"
leads "$root$prefix"
completes "$root$prefix" share/zsh/site-functions
alone "$root" "$prefix"

root="$work/a package"
[ "$(dpkg-deb -f "$package" Package Version Architecture | cut -d' ' -f2 | xargs)" = "zadorike $version amd64" ] \
  && [[ $(dpkg-deb -f "$package" Depends) =~ ^libc6\ \(\>=\ [0-9.]+\)(, libgcc-s1)?$ ]]
note $? "what the package says of itself"
mkdir "$root" && dpkg-deb -x "$package" "$root" && dpkg-deb -e "$package" "$work/control" \
  && (cd "$root" && md5sum --quiet -c "$work/control/md5sums")
note $? "the package"
has_all "$root/usr" share/zsh/vendor-completions
plays "$root/usr"
loops "$root/usr" "$root/usr/lib/libsfc.so.1"
benches "$root/usr" python3 "$root/usr/lib/libsfc.so.$version" "$root/usr/lib/python3/dist-packages"
completes "$root/usr" share/zsh/vendor-completions
alone "$root" /usr
if [ "$(id -u)" = 0 ]; then
  root="$work/by dpkg"
  mkdir -p "$root"/var/lib/dpkg/{info,updates} && touch "$root"/var/lib/dpkg/{status,available}
  dpkg --root="$root" --force-depends -i "$package" >"$work/out" 2>&1 && [ -z "$(dpkg --root="$root" -V zadorike)" ] \
    && "$root/usr/bin/sfcmon" --version >"$work/out" && dpkg --root="$root" -P zadorike >"$work/out" 2>&1 \
    && [ ! -e "$root/usr/bin/sfcmon" ] && [ ! -e "$root/usr/share/doc/zadorike" ]
  note $? "the package, installed and purged by dpkg: $(tail -n 1 "$work/out")"
else pass_over root "the package, installed and purged by dpkg"; fi

prefix=$work/environment
python3 -m venv "$prefix" && "$prefix/bin/python" -m pip install -q --no-index --disable-pip-version-check "$wheel"
note $? "the wheel"
places share/zsh/site-functions | grep -vE '^lib/(libsfc\.so|python3)' \
  | while read -r it; do [ -f "$prefix/$it" ] || echo "$it"; done >"$work/missing"
[ ! -s "$work/missing" ]
note $? "what the wheel lacks: $(xargs <"$work/missing")"
plays "$prefix"
loops "$prefix" ""
benches "$prefix" "$prefix/bin/python" "$(echo "$prefix"/lib/python3*/site-packages/sfc/libsfc.so)"
"$prefix/bin/python" -m pip uninstall -q -y --disable-pip-version-check zadorike && [ ! -e "$prefix/bin/sfcmon" ] \
  && [ ! -e "$prefix/include/sfc.h" ] && [ -z "$(find "$prefix" -path '*zadorike*' -type f -o -name 'libsfc*')" ]
note $? "the wheel leaves nothing"

# ---- what a release is refused for; the one that was made before stays

mkdir "$work/kept" && cp "$clone/build/gate.txt" "$clone/crates/sfcmon/out/sfcmon" "$work/kept"
cp "$made/SHA256SUMS" "$work/sums"
restore() {
  git -C "$clone" reset -q --hard "${1:-HEAD}" && git -C "$clone" clean -qfd
  cp "$work/kept/gate.txt" "$clone/build"
  cp "$work/kept/sfcmon" "$clone/crates/sfcmon/out"
  touch "$clone/crates/sfcmon/out/sfcmon" "$clone"/build/c/*
}
stays() {
  cmp -s "$made/SHA256SUMS" "$work/sums" && (cd "$made" && sha256sum --status -c SHA256SUMS) \
    && [ -z "$(find "$clone/build" -maxdepth 1 -name 'releasing*')" ]
}
# refused TITLE TEXT WORD..: the text is the one line of standard error, or a part of it
refused() {
  release "$clone" "${@:3}"
  [ "$status" != 0 ] && [ ! -s "$work/out" ] && has "$work/err" "$2" && [ "$(wc -l <"$work/err")" = 1 ] && stays
  note $? "$1 (status $status): $(cat "$work/err")"
  restore
}
gate() { sed -i "$1" "$clone/build/gate.txt"; }
restore
rm "$clone/build/gate.txt"
refused "without a gate" "there is no build/gate.txt"
gate 's/^gate .*/gate 7 passed, 1 failed/'
refused "a gate that failed" "the gate's last line is '7 passed, 1 failed'"
gate '/^gate /d'
refused "a gate without a last line" "the gate's last line is ''"
gate 's/^commit .*/commit 0123456789012345678901234567890123456789/'
refused "a gate of a commit that isn't there" "whose crates are others"
gate 's/^commit .*/& and changes/'
refused "a gate of what is in no commit" "the gate ran on changes that were in no commit"
echo '# more' >>"$clone/crates.txt" && commit "other crates"
refused "a gate of other crates" "whose crates are others"
restore HEAD~1
printf x >>"$clone/crates/sfcmon/out/sfcmon"
refused "another program than the gate ran" "isn't the one that the gate ran"
gate '/^program /d' && touch -d '1 minute' "$clone/crates/sfcmon/src/arguments.rt"
refused "a program that is older than its sources" "the program is older than its sources"
touch -d '1 minute' "$clone/include/sfc.h"
refused "a library that is older than its header" "the library is older than its sources"
touch "$clone/include/sfc.h"
echo more >>"$clone/README.md"
refused "a page that is changed" "something here is in no commit:  M README.md"
: >"$clone/docs/more.md"
refused "a page that is in no commit" "something here is in no commit: ?? docs/more.md"
refused "a word that isn't there" "'--fast' is none of its words" --fast
mv "$clone/crates/sfcmon/out/sfcmon" "$work/moved"
refused "without a program" "there is no program"
mv "$clone/build/c/libsfc.so" "$work/moved"
refused "without a library" "there is no libsfc.so in"
mv "$work/moved" "$clone/build/c/libsfc.so"
printf '#!/bin/sh\necho sfcmon 9.8.7\n' >"$clone/crates/sfcmon/out/sfcmon"
refused "a program of another version" "the program isn't of the version $version"
# build_page WORD: what stands for a page that tools/web has built
build_page() {
  local it
  mkdir -p "$clone/build/web"
  for it in index.html sfc.js sfc.wasm package.json; do echo "this is $it" >"$clone/build/web/$it"; done
  echo "$1" >"$clone/build/web/of"
}
build_page unproved
refused "a page in a browser of sources that nothing has proved" "isn't of the proved libraries"
build_page proved && touch -d 2001-01-01 "$clone/build/web/sfc.wasm"
refused "a page in a browser that is older than its sources" "is older than its sources"
rm -r "$clone/build/web"
export SFCMON=$program
refused "a program from elsewhere" "from elsewhere"
unset SFCMON
mv "$clone/.git" "$work/git"
release "$clone"
[ "$status" = 1 ] && has "$work/err" "no git clone" && stays
note $? "a folder without git: $(cat "$work/err")"
mv "$work/git" "$clone/.git"
! (ulimit -f 100; release "$clone"; exit "$status") 2>"$work/killed" && stays
note $? "files that can't be written whole"

# what_about: of the archive that is there
what_about() { tar -xzOf "$archive" "zadorike-$version-linux-x86_64/share/doc/zadorike/ABOUT" >"$work/about"; }
restore
echo more >>"$clone/README.md" && rm "$clone/build/gate.txt"
release "$clone" --changed --ungated
[ "$status" = 0 ] && what_about && has "$work/about" "with changes that are in no commit" \
  && has "$work/about" "Nothing here says that this program is proved"
note $? "a release without a gate, of what is in no commit: $(cat "$work/err")"
restore
echo more >>"$clone/README.md" && commit "another page"
release "$clone"
[ "$status" = 0 ] && what_about && has "$work/about" "at commit $(git -C "$clone" rev-parse HEAD~1)" \
  && has "$work/about" "commit     $(git -C "$clone" rev-parse HEAD)"
note $? "a release whose gate ran on the same crates, before a page changed: $(cat "$work/err")"

build_page proved
release "$clone"
zip=$made/zadorike-web-$version.zip
[ "$status" = 0 ] && [ "$(wc -l <"$made/SHA256SUMS")" = 5 ] && python3 -m zipfile -e "$zip" "$work/zip" \
  && [ "$(find "$work/zip" -type f | wc -l)" = 5 ] && has "$work/zip/zadorike-web-$version/ABOUT" "$(git -C "$clone" rev-parse HEAD)" \
  && diff -r -x of -x ABOUT "$clone/build/web" "$work/zip/zadorike-web-$version" >"$work/differ"
note $? "a release with the page for browsers: $(cat "$work/err")"
rm -r "$clone/build/web"

# ---- an install from a clone, and the version

tar -C "$work" -xzf "$archive"
for _ in once again; do
  "$clone/tools/install" "$work/a prefix" && diff -r "$work/a prefix" "$work/zadorike-$version-linux-x86_64"
  note $? "an install has what the archive has"
done
"$clone/tools/install" >"$work/out" 2>&1
[ $? = 2 ] && has "$work/out" PREFIX
note $? "an install without a prefix"
: >"$work/file"
! "$clone/tools/install" "$work/file" >"$work/out" 2>&1 && [ ! -s "$work/file" ]
note $? "an install into a file"

[ "$("$top/tools/version")" = "$version" ] && "$top/tools/version" --check >"$work/out"
note $? "the version is the same everywhere: $(cat "$work/out")"
git -C "$clone" grep -lE "(^|[^.0-9])${version//./\\.}([^.0-9]|$)" -- ':!*.antt' ':!CHANGELOG.md' >"$work/out"
[ "$(xargs <"$work/out")" = "crates/sfc_c/src/version.rt crates/sfcmon/src/arguments.rt editors/vscode/package.json share/man/man1/sfcmon.1" ]
note $? "where the version stands: $(xargs <"$work/out")"
"$clone/tools/version" --set 9.8.7 && [ "$("$clone/tools/version")" = 9.8.7 ] \
  && [ "$("$clone/tools/version" --check | wc -l)" = 2 ] \
  && [ "$(git -C "$clone" diff --numstat | awk '{ print $1, $2 }' | uniq -c | xargs)" = "4 1 1" ]
note $? "a version that is set, in a line of four files; the list of changes waits for it"
"$clone/tools/version" --set "$version" && [ -z "$(git -C "$clone" status --porcelain)" ]
note $? "the version that was"
for word in '' 1.2 1.2.3.4 v1.2.3 1.2.x; do
  "$clone/tools/version" --set "$word" >"$work/out" 2>&1
  [ $? = 2 ] && [ -z "$(git -C "$clone" status --porcelain)" ]
  note $? "the version '$word'"
done
sed -i '1s/sfcmon [0-9.]*/sfcmon 9.8.7/' "$clone/share/man/man1/sfcmon.1"
! "$clone/tools/version" --check >"$work/out" && has "$work/out" "share/man/man1/sfcmon.1: the version is '9.8.7'"
note $? "a man page of another version"

tell_counts
