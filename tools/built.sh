# What is built, for the scripts that pack and install it: sourced, with `top` set. SFCMON and SFC_LIBRARY_FOLDER, where they are set, are
# another program and another folder with the library.
# shellcheck shell=bash disable=SC2154 # who sources it has set top
program=${SFCMON:-$top/crates/sfcmon/out/sfcmon}
library=${SFC_LIBRARY_FOLDER:-$top/build/c}

# want_built: stops with a line where something isn't built
want_built() {
  local missing='' it
  [ -x "$program" ] || missing="no program $program; ./sfcmon --prove builds it"
  for it in libsfc.a libsfc.so; do [ -e "$library/$it" ] || missing=${missing:-"no $it in $library; tools/c-library builds it"}; done
  [ -z "$missing" ] || { echo "${0##*/}: there is $missing" >&2; exit 1; }
}
# is_own: whether the program and the library are those that are built in this clone
is_own() { [ "$program" -ef "$top/crates/sfcmon/out/sfcmon" ] && [ "$library" -ef "$top/build/c" ]; }
# is_older FILE: whether it is older than some source that it may stand on
is_older() { [ -n "$(find "$top"/crates/*/{src,specs,proofs} "$top/crates.txt" "$top/include" -newer "$1" -print -quit 2>/dev/null)" ]; }
# needed_libraries: the names of the shared libraries that the program and the library ask for
needed_libraries() { readelf -dW "$program" "$library/libsfc.so" | sed -n 's/.*(NEEDED).*\[\(.*\)\]$/\1/p' | sort -u; }
# needed_glibc: the least version of glibc that has what they ask for
needed_glibc() { readelf -VW "$program" "$library/libsfc.so" | grep -o 'GLIBC_[0-9.]*' | sed 's/GLIBC_//' | sort -V | tail -n 1; }
# soname: the name by which programs ask for libsfc.so
soname() { readelf -dW "$library/libsfc.so" | sed -n 's/.*(SONAME).*\[\(.*\)\]$/\1/p'; }
