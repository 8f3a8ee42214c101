#!/usr/bin/env bash
# library.sh build [--prove]: makes the library in out/ beside this file, static and shared: crates/tag_c, with what of it is C.
# library.sh install [--prove] PREFIX: makes it, and puts it, tags.h and the other headers, tags.pc, CMake package files and, with
# python3, the man pages below the prefix.
# library.sh uninstall PREFIX: removes them.
# library.sh generate [FOLDER]: proves crates/tag_c and makes generated/, or FOLDER, of it, for x86-64 and 64-bit ARM, and for newer
# processors of each.
# library.sh dist: makes archives and Debian packages for x86-64 and 64-bit ARM, and those of tagplay, in dist/ beside this file.
# The crate is taken from generated/, which needs only a C compiler and ar, unless its sources have changed since that was made:
# then, or with --prove, it is proved and compiled, which needs the kit. TAG_C=FILE takes that static library of the crate instead.
# CC and AR name other tools than gcc and ar, and CROSS_COMPILE=aarch64-linux-gnu- those of another processor. CC may have flags: with
# -march=x86-64-v3, -march=armv8.1-a or one that means more the library is for such processors alone. OUT is another folder than out/.
# LIBDIR is another folder of libraries than lib, as lib/x86_64-linux-gnu, or an absolute one, and DESTDIR stages an install.
set -euo pipefail
here=$(cd "$(dirname "$0")" && pwd)
out=${OUT:-$here/out}
tools=${CROSS_COMPILE:-}
CC=${CC:-${tools}gcc}
AR=${AR:-${tools}ar}
export LC_ALL=C

usage() {
  sed -n '2,13s/^# //p' "$0" >&2
  exit 2
}

say() {
  echo "library.sh: $*" >&2
}

fail() {
  say "$@"
  exit 1
}

# The version of tags.h. Each 0.x has another interface, and so a library of another name.
version=$(sed -n 's/^#define TAGS_VERSION_MAJOR //p' "$here/tags.h").$(sed -n 's/^#define TAGS_VERSION_MINOR //p' "$here/tags.h")
soname=libtags.so.$version
# What is installed of the headers.
headers=(tags.h tags_detail.h tags.hpp tags_async.hpp)
# Beside the shared library: where the loader of glibc looks first on processors that have all of x86-64-v3.
newer_folder=glibc-hwcaps/x86-64-v3

# Stops unless the first word of each argument is a command.
need() {
  local tool
  for tool; do
    command -v "${tool%% *}" > /dev/null || fail "there is no ${tool%% *} here: install gcc and binutils, or name others by CC and AR"
  done
}

# The processor for which a compiler's target names the assembly.
processor() {
  case "$1" in
    *x32) ;;
    x86_64*linux*) echo x86_64 && return ;;
    aarch64*linux*) echo aarch64 && return ;;
  esac
  fail "$1: the library is for x86-64 and 64-bit ARM under Linux"
}

# The level of generated/ that a compiler and its flags ask for, or nothing for every processor of the kind: the compiler tells by macros
# what the processors have.
level() {
  local macros
  macros=$("$@" -dM -E -x c /dev/null 2> /dev/null) || :
  if defines "$macros" __x86_64__ __AVX2__ __BMI__ __BMI2__ __F16C__ __FMA__ __LZCNT__ __MOVBE__; then
    echo v3
  elif defines "$macros" __aarch64__ __ARM_FEATURE_ATOMICS; then
    echo lse
  fi
}

# Whether a text defines each of these macros.
defines() {
  local it
  for it in "${@:2}"; do
    [[ $1 == *"#define $it "* ]] || return
  done
}

# The sum of what decides the code of crates, and what a proof says of it: src/, specs/ and the lines of crates.txt.
sum_of_sources() {
  local crate part
  cd "$here/.."
  for crate; do
    grep -E "^$crate[ :]" crates.txt || fail "crates.txt has no line for $crate"
    for part in src specs; do
      [ ! -d "crates/$crate/$part" ] || find "crates/$crate/$part" -name '*.rt' -o -name '*.antt' | sort | xargs -r sha256sum
    done
  done | sha256sum | cut -d ' ' -f 1
}

# What the first lines of a generated file say under a name.
said() {
  sed -n -e "s/^ \* $1: //p" -e '/^ \*\/$/q' "$2"
}

# Prints the file of generated/ for a processor and a level, if one is named, which was not edited. Its status is 3 if the sources have
# changed since.
assembly() {
  local file="$here/generated/tag_c-$1${2:+-$2}.s" lines
  [ -f "$file" ] || fail "there is no $file: c/library.sh generate makes it, with the kit"
  lines=$(sed '1,/^ \*\/$/d' "$file" | sha256sum | cut -d ' ' -f 1)
  [ "$lines" = "$(said 'Lines below' "$file")" ] ||
    fail "$file is not as it was made, by its own sum: restore it, or make it anew by c/library.sh generate"
  echo "$file"
  # A copy of this folder alone has no sources to compare.
  if [ -d "$here/../crates" ]; then
    # shellcheck disable=SC2046
    [ "$(sum_of_sources $(said 'Of the crates' "$file"))" = "$(said Sources "$file")" ] || return 3
  fi
}

# Prints the file for a target and a level, if it is of the sources as they are.
current_assembly() {
  local kind file status=0
  kind=$(processor "$1")
  file=$(assembly "$kind" "${2:-}") || status=$?
  [ "$status" != 3 ] || fail "the sources of tag_c have changed since $file was made: c/library.sh generate makes it anew, with the kit"
  [ "$status" = 0 ] || exit "$status"
  echo "$file"
}

# Proves the crate and compiles it for a processor: prints the static library, with the kit's own names. An object for a level, as
# v3, lies beside it as libtag_c.a.v3.o.
proved() {
  local cpu=x86-64 name=amd64
  [ "$1" = x86_64 ] || cpu=generic name=arm64
  command -v rt > /dev/null || fail "proving needs the kit, whose rt is not on the path"
  say "proving crates/tag_c and the crates below: half an hour or more in a fresh clone, a minute once they are proved"
  "$here/package/build_for.py" tag_c "$1-unknown-linux-gnu" "$cpu" "$out/kit/$name/libtag_c.a" || exit
  echo "$out/kit/$name/libtag_c.a"
}

# Makes an object of the kit's static library. Its exports get the names by which tags.h calls them, and its heap that of heap.c. No
# other name is visible: another library of the toolchain has the same ones.
object_of() {
  need "${tools}nm" "${tools}ld" "${tools}objcopy"
  "${tools}nm" --extern-only --defined-only "$1" | sed -n 's/.* T tags_\(.*\)/tags_\1 tags_library_\1/p' > "$2.names"
  [ -s "$2.names" ] || fail "$1 has no exports"
  printf 'rattle_%s tags_library_%s\n' alloc alloc realloc realloc dealloc dealloc >> "$2.names"
  "${tools}ld" -r --whole-archive "$1" -o "$2"
  "${tools}objcopy" --redefine-syms="$2.names" "$2"
  "${tools}objcopy" --wildcard --keep-global-symbol='tags_library_*' "$2"
}

# Makes the object of the crate, of its assembly or of what the kit made.
make_crate() {
  if [[ $1 == "$here"/generated/* ]]; then
    # shellcheck disable=SC2086
    $CC $apart -c "$1" -o "$making/tag_c.o"
  else
    object_of "$1" "$making/tag_c.o"
  fi
}

# Whether a loader may find a library for newer processors beside the plain one: that of glibc, on x86-64.
looks_for_newer() {
  [ "$1" = x86_64 ] && defines "$($CC -dM -E -include features.h -x c /dev/null 2> /dev/null)" __GLIBC__
}

# Takes what is told to, or what is there: sets the crate's static library or its assembly, that for the loader, and what is said of the
# proof.
choose() {
  local kind asked status=0
  code=${TAG_C:-} newer='' rests="rests on $code, of which nothing is known here"
  [ -z "$code" ] || return 0
  kind=$(processor "$($CC -dumpmachine)")
  # shellcheck disable=SC2086
  asked=$(level $CC)
  [ -n "$asked" ] || ! looks_for_newer "$kind" || newer=v3
  if [ -z "$prove" ]; then
    code=$(assembly "$kind" "$asked") || status=$?
    [ "$status" = 0 ] || [ "$status" = 3 ] || exit "$status"
    [ "$status" = 0 ] || say "the sources of tag_c have changed since $code was made"
  fi
  if [ -n "$prove" ] || [ "$status" = 3 ]; then
    code=$(proved "$kind")
    rests="rests on the proof just made: $(cat "$code.verdict")"
    [ -z "$newer" ] || newer=$code.$newer.o
    [ -z "$asked" ] || code=$code.$asked.o
  else
    rests="rests on the proof of which generated/$(basename "$code") was made: $(said Proved "$code"), $(said With "$code")"
    [ -z "$newer" ] || newer=$(current_assembly "$kind-linux" "$newer")
  fi
}

# Flags of the C files for a processor: as the assembly, they may run with a shadow stack, where the compiler can mark that.
marks() {
  local mark=-fcf-protection=return
  [[ $($CC -dumpmachine) == x86_64* ]] && $CC $mark -x c -c /dev/null -o /dev/null 2> /dev/null && echo $mark || :
}

# The flag by which gcc or clang keeps jumps off the ends of blocks of 32 bytes, where the assembler can: Intel's processors from Skylake to
# Cascade Lake decode a block with a jump there anew each time, so code would be faster or slower by where it happens to lie.
jumps_apart() {
  local flag=-mbranches-within-32B-boundaries way
  [[ $($CC -dumpmachine) == x86_64* ]] || return 0
  for way in -Wa,$flag $flag; do
    # A wrapper such as musl-gcc may take for assembly what it refuses for C.
    ! $CC "$way" -x c -c /dev/null -o /dev/null 2> /dev/null || { echo "$way" && return; }
  done
}

# Links the shared library. It calls its own exports directly, and not through the table by which others find them. Once loaded it stays:
# a thread that ends calls it (own_hands.c).
link_to() {
  $CC -shared "$making"/*.o -o "$1" -pthread -Wl,-soname,"$soname" -Wl,--version-script="$here/tags.map" -Wl,-Bsymbolic-functions \
    -Wl,-z,relro,-z,now,-z,defs,-z,nodelete
}

build() {
  local file mark apart
  need "$CC" "$AR" sha256sum
  choose
  mkdir -p "$out" || fail "$out can't be written: nothing was made"
  making=$(mktemp -d "$out/making.XXXXXX") || fail "$out can't be written: nothing was made"
  trap 'rm -rf "$making"' EXIT
  mark=$(marks) apart=$(jumps_apart)
  make_crate "$code"
  for file in "$here"/*.c; do
    # shellcheck disable=SC2086
    $CC -std=c99 -O2 -fPIC -fno-plt $mark $apart -Wall -Wextra -Wpedantic -c "$file" -o "$making/$(basename "$file" .c).o"
  done
  $AR rcsD "$making/libtags.a" "$making"/*.o
  link_to "$making/$soname"
  if [ -n "$newer" ]; then
    make_crate "$newer"
    link_to "$making/newer"
  fi
  mv "$making/$soname" "$out/$soname"
  mv "$making/libtags.a" "$out/libtags.a"
  rm -rf "$out/${newer_folder%/*}"
  if [ -n "$newer" ]; then
    mkdir -p "$out/$newer_folder"
    mv "$making/newer" "$out/$newer_folder/$soname"
  fi
  say "made $out/libtags.a and $soname${newer:+, and the latter for newer processors}: it $rests"
}

# Sets the folders of an install as it will be found, and where it is put now.
folders() {
  case "$1" in
    /*) prefix=$1 ;;
    *) prefix=$PWD/$1 ;;
  esac
  libdir=${LIBDIR:-lib}
  case "$libdir" in
    /*) ;;
    *) libdir=$prefix/$libdir ;;
  esac
  include=${DESTDIR:-}$prefix/include
  lib=${DESTDIR:-}$libdir
  man=${DESTDIR:-}$prefix/share/man/man3
  newer_lib=$lib/$newer_folder
  # The files of an install, and a page for each call.
  files=("$lib/libtags.a" "$lib/$soname" "$newer_lib/$soname" "$lib/pkgconfig/tags.pc" "$lib/cmake/tags/tagsConfig.cmake"
    "$lib/cmake/tags/tagsConfigVersion.cmake")
  pages=("$man/tags.3")
  local header call
  for header in "${headers[@]}"; do
    files+=("$include/$header")
  done
  for call in $(sed -n 's/^ \* \(tags_[a-z_]*\)() - .*/\1/p' "$here/tags.h"); do
    pages+=("$man/$call.3")
  done
}

# What tags.pc links: the shared library where the loader looks for it, and elsewhere the static one, by a name that no shared one has. To
# tell the loader another place takes an -rpath, and a static PIE in which one is left crashes before main().
linked() {
  case "$libdir" in
    /lib | /lib/* | /lib64 | /usr/lib | /usr/lib/* | /usr/lib64 | /usr/local/lib | /usr/local/lib/*) echo tags ;;
    *) echo tags-static ;;
  esac
}

# A text as sed puts it in place of another.
quoted() {
  printf %s "$1" | sed 's/[|&\\]/\\&/g'
}

# Fills in one of the files that say where the library is.
filled() {
  local to
  to=$(realpath -ms --relative-to="$libdir/cmake/tags" "$prefix/include")
  sed -e "s|@PREFIX@|$(quoted "$prefix")|" -e "s|@LIBDIR@|$(quoted "$libdir")|" -e "s|@VERSION@|$version|" \
    -e "s|@LINKED@|$(linked)|" -e "s|@RPATH@||" -e "s|@INCLUDE@|$(quoted "$to")|" "$1"
}

put_headers() {
  local header
  for header in "${headers[@]}"; do
    cp "$here/$header" "$include/$header.new" || return
  done
}

# The shared library for newer processors, if it was built.
put_newer() {
  [ ! -f "$out/$newer_folder/$soname" ] || { mkdir -p "$newer_lib" && cp "$out/$newer_folder/$soname" "$newer_lib/$soname.new"; }
}

# Writes the files beside their places, which only then get their names: all of them, or none.
put() {
  local file
  folders "$1"
  if mkdir -p "$include" "$lib/pkgconfig" "$lib/cmake/tags" &&
    put_headers &&
    cp "$out/libtags.a" "$lib/libtags.a.new" &&
    cp "$out/$soname" "$lib/$soname.new" &&
    put_newer &&
    filled "$here/tags.pc.in" > "$lib/pkgconfig/tags.pc.new" &&
    filled "$here/package/tagsConfig.cmake.in" > "$lib/cmake/tags/tagsConfig.cmake.new" &&
    filled "$here/package/tagsConfigVersion.cmake.in" > "$lib/cmake/tags/tagsConfigVersion.cmake.new"; then
    # A loader would take an older library for newer processors in place of this one.
    rm -f "$newer_lib/$soname"
    for file in "${files[@]}"; do
      [ -f "$file.new" ] || continue
      chmod 644 "$file.new"
      mv "$file.new" "$file"
    done
    [ -f "$newer_lib/$soname" ] || rmdir "$newer_lib" "${newer_lib%/*}" 2> /dev/null || :
    ln -sfn "$soname" "$lib/libtags.so"
    [ "$(linked)" = tags ] || ln -sfn libtags.a "$lib/libtags-static.a"
  else
    for file in "${files[@]}"; do
      rm -f "$file.new"
    done
    fail "nothing was installed: $include and $lib have to be folders that can be written"
  fi
}

# The man pages are made of tags.h by a script; without python3 there are none.
put_pages() {
  local page
  if ! python3 "$here/package/manual.py" "$making/man" 2> /dev/null; then
    say "no man pages: python3 is not here, or can't make them"
    return
  fi
  mkdir -p "$man" || fail "there are no man pages: $man has to be a folder that can be written"
  for page in "${pages[@]}"; do
    cp "$making/man/${page##*/}" "$page"
    chmod 644 "$page"
  done
}

install_to() {
  build
  put "$1"
  put_pages
  say "done: set PKG_CONFIG_PATH=$libdir/pkgconfig for pkg-config, or CMAKE_PREFIX_PATH=$prefix for CMake"
}

uninstall_from() {
  folders "$1"
  rm -f "${files[@]}" "${pages[@]}" "$lib/libtags.so" "$lib/libtags-static.a"
  # Folders that nothing else is in.
  rmdir "$newer_lib" "${newer_lib%/*}" "$lib/cmake/tags" "$lib/cmake" "$lib/pkgconfig" "$man" "${man%/*}" 2> /dev/null || :
}

prove=
case "${1:-} ${2:-}" in
  'build --prove' | 'install --prove') prove=1 && set -- "$1" "${@:3}" ;;
esac
case "$#:${1:-}" in
  1:build) build ;;
  1:generate | 2:generate) exec "$here/package/generate.py" "${@:2}" ;;
  1:dist) exec "$here/package/dist.py" ;;
  2:install) install_to "$2" ;;
  # For dist.py: puts what was built.
  2:put) put "$2" ;;
  2:uninstall) uninstall_from "$2" ;;
  # For CMake: the assembly for a target, and for a level of it; the level that a compiler and its flags ask for.
  # For generate.py: the sum of the sources of crates.
  2:assembly | 3:assembly) current_assembly "${@:2}" ;;
  *:level) level "${@:2}" ;;
  *:sum) sum_of_sources "${@:2}" ;;
  *) usage ;;
esac
