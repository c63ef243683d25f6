#!/usr/bin/env bash
# Installs the header and one static library for C, with what pkg-config and CMake look for.
set -euo pipefail
who=install
root=$(cd "$(dirname "$0")/.." && pwd)

help() {
  cat << 'END_OF_HELP'
usage: tools/install.sh --prefix DIR [--library cargo|kit] [--target TRIPLE]

Builds the static library and installs, under DIR:
  include/arinduleu.h, and arinduleu_summaries.h, arinduleu_refusals.h and .inc, which it includes
  lib/libarinduleu.a
  lib/pkgconfig/arinduleu.pc             for `pkg-config --cflags --libs arinduleu`
  lib/cmake/arinduleu/                   for find_package(arinduleu) and the
                                         target arinduleu::arinduleu

  --prefix DIR      where to, for instance /usr/local or a folder of a project;
                    it is made where it is not there, and may be moved later
  --library cargo   the library that cargo makes from rust/c (the default)
  --library kit     the archive of tools/c_archive.sh, for x86-64 Linux
  --target TRIPLE   what cargo builds for, for instance thumbv6m-none-eabi;
                    without it, this machine. A rustc that lacks the target and
                    has the sources of its core (rust-src) makes it from these

CARGO_PROFILE_RELEASE_OPT_LEVEL=s before the command makes a smaller library.

With DESTDIR set, all of it goes under $DESTDIR$DIR, as for a package. Where DIR
has a space in it the shell takes what pkg-config says apart: use CMake there.
A library that is there is replaced; nothing else under DIR is touched.
END_OF_HELP
}

stop() {
  echo "$who: $1 (tools/install.sh --help tells)" >&2
  exit 2
}

need() {
  command -v "$1" > /dev/null 2>&1 || { echo "$who: there is no $1 on the PATH, and $2 needs it" >&2; exit 1; }
}

# take OPTION VALUE: once, and no option for a value.
take() {
  case "$2" in
    "") stop "$1 wants a word behind it" ;;
    -*) stop "$1 wants a word behind it, not '$2'" ;;
  esac
  case " $given " in *" $1 "*) stop "$1 is given twice" ;; esac
  given="$given $1"
  printf -v "${1#--}" %s "$2"
}

prefix=
library=cargo
target=
given=
while [ $# -gt 0 ]; do
  case "$1" in
    -h | --help)
      help
      exit 0
      ;;
    --prefix | --library | --target)
      take "$1" "${2:-}"
      shift 2
      ;;
    --prefix=* | --library=* | --target=*)
      take "${1%%=*}" "${1#*=}"
      shift
      ;;
    *) stop "unknown word '$1'" ;;
  esac
done

[ -n "$prefix" ] || stop "--prefix is missing"
case "$library" in
  cargo | kit) ;;
  *) stop "--library is cargo or kit, not '$library'" ;;
esac
[ "$library" = cargo ] || [ -z "$target" ] || stop "--target goes with --library cargo: the kit builds for x86-64 Linux alone"
case "$prefix" in
  /*) ;;
  *)
    [ -z "${DESTDIR:-}" ] || stop "with DESTDIR the prefix begins with /"
    prefix=$PWD/$prefix
    ;;
esac
case "${DESTDIR:-}" in
  "" | /*) ;;
  *) DESTDIR=$PWD/$DESTDIR ;;
esac

cd "$root"
. tools/rust_target.sh
version=$(sed -n 's/^version = "\([0-9.]*\)"$/\1/p' rust/Cargo.toml | head -n 1)
[ -n "$version" ] || { echo "$who: rust/Cargo.toml has no version" >&2; exit 1; }

# Sets `archive`: the library that was built.
build_cargo() {
  local words=(build --release --offline --quiet --manifest-path rust/Cargo.toml --target-dir rust/target -p arinduleu-c)
  need cargo "--library cargo"
  rust_words=()
  archive=rust/target/release/libarinduleu_c.a
  if [ -n "$target" ]; then
    rust_for "$target" || {
      echo "$who: $why_not (with rustup: rustup target add $target)" >&2
      exit 1
    }
    words+=(--target "$target")
    archive=rust/target/$target/release/libarinduleu_c.a
  fi
  "${rust_words[@]}" cargo "${words[@]}" || {
    echo "$who: cargo did not build the library" >&2
    exit 1
  }
}

build_kit() {
  need rt "--library kit"
  archive=target/staticlib/libboard.a
  tools/c_archive.sh || {
    echo "$who: tools/c_archive.sh did not pass" >&2
    exit 1
  }
}

"build_$library"
to=${DESTDIR:-}$prefix
mkdir -p "$to/include" "$to/lib/pkgconfig" "$to/lib/cmake/arinduleu" || {
  echo "$who: cannot make the folders under $to" >&2
  exit 1
}

# put FROM TO: with the version in its place. A file that is there is replaced, not written into.
put() {
  sed "s/@VERSION@/$version/g" "$1" > "$to/$2.new"
  mv -fT "$to/$2.new" "$to/$2"
  echo "$to/$2"
}

put include/arinduleu.h include/arinduleu.h
put include/arinduleu_refusals.h include/arinduleu_refusals.h
put include/arinduleu_summaries.h include/arinduleu_summaries.h
put include/arinduleu_refusals.inc include/arinduleu_refusals.inc
cp "$archive" "$to/lib/libarinduleu.a.new"
mv -fT "$to/lib/libarinduleu.a.new" "$to/lib/libarinduleu.a"
echo "$to/lib/libarinduleu.a"
put tools/install/arinduleu.pc.in lib/pkgconfig/arinduleu.pc
put tools/install/arinduleu-config.cmake lib/cmake/arinduleu/arinduleu-config.cmake
put tools/install/arinduleu-config-version.cmake.in lib/cmake/arinduleu/arinduleu-config-version.cmake
