#!/usr/bin/env bash
# The tests of the C side: the header, then the examples and the tests of the calls, against each library that this machine can make.
# The last line is `c: N passed, 0 failed, K skipped`; the one before it says which parts were skipped, and why.
set -euo pipefail
cd "$(dirname "$0")/.."
who=c
. tools/kit.sh
. tools/skipping.sh

case "${1:-}" in
  "") ;;
  -h | --help)
    cat << 'END'
usage: tools/c_tests.sh

Compiles include/arinduleu.h as C11 and as C++17, holds its names, its table of
refusals and its version to the Rattle source and to cargo, and sees that an
answer that is ignored is warned of. Builds and runs the C programs of examples
and of tests/c
  - with cc, against the library that cargo makes from rust/c;
  - with the clang of the Rattle kit, against the archive of tools/c_archive.sh;
then the snippet of the README, and the example outside the tree with what
tools/install.sh installed, by pkg-config and by CMake.
What this machine has no tools for is skipped. The line before the last has
each part that was, with the reason.
END
    exit 0
    ;;
  *)
    echo "$who: unknown word '$1' (tools/c_tests.sh --help tells)" >&2
    exit 2
    ;;
esac

cargo_library=release/libarinduleu_c.a
# What a program includes, and the parts of it that name the refusals and have the summaries.
headers=(include/arinduleu.h include/arinduleu_refusals.h include/arinduleu_summaries.h)
. tools/passing.sh
. tools/c_programs.sh

# Those of the named compilers that are here. One that is here under two names, as cc often is, comes once.
compilers() {
  local name path seen=" "
  for name in "$@"; do
    have "$name" || continue
    path=$(readlink -f "$(command -v "$name")")
    case "$seen" in *" $path "*) continue ;; esac
    seen="$seen$path "
    echo "$name"
  done
}

# header_as LANGUAGE STANDARD COMPILER...
header_as() {
  local language=$1 standard=$2 compiler found
  shift 2
  found=$(compilers "$@")
  if [ -z "$found" ]; then
    skip "the header as $standard" "none of $*"
    return
  fi
  printf '#include "arinduleu.h"\n#include "arinduleu.h"\n' > "$made/header"
  for compiler in $found; do
    quietly "$compiler does not take the header as $standard" \
      "$compiler" -x "$language" "-std=$standard" "${warnings[@]}" -Iinclude -fsyntax-only "$made/header"
    pass "the header is $standard without a warning, by $compiler"
  done
}

# The calls, refusal numbers, kinds, types of messages and limits by name, and the longest message: those of the Rattle source, no more and no less.
# Each call has the mark. The longest message is the last of the limits, which stand in one line.
header_names() {
  {
    sed -n 's/^pub extern "C" fn \(arin_[a-z_]*\)(.*/\1/p' crates/board_c/src/*.rt
    sed -n 's/^pub const \([A-Z0-9_]*\): [a-z0-9]* = \([0-9]*\);$/ARIN_\1 = \2/p' \
      crates/verdicts/src/lib.rt crates/flat/src/lib.rt crates/messages/src/lib.rt crates/summaries/src/lib.rt
  } | sort > "$made/wanted"
  sed -n -e 's/^ARIN_MUST_USE struct [a-z_]* \(arin_[a-z_]*\)(.*/\1/p' -e 's/^    \(ARIN_[A-Z0-9_]* = [0-9]*\).*/\1/p' \
    -e 's/^enum { .* \(ARIN_[A-Z0-9_]* = [0-9]*\) };$/\1/p' "${headers[@]}" |
    sort > "$made/named"
  diff "$made/wanted" "$made/named" >&2 || fail "the header does not name what crates/board_c, verdicts, flat, messages and summaries do"
  pass "the header names the calls, refusals, kinds, types and limits of the Rattle source, and the longest message ($(grep -c . "$made/named"))"
}

# The table of sentences: a row for each refusal number by name, one row a line, in the form that its readers know.
refusal_table() {
  local table=include/arinduleu_refusals.inc
  sed -n 's/^pub const \([A-Z0-9_]*\): u8 = \([0-9]*\);$/\2 \1/p' crates/verdicts/src/lib.rt > "$made/wanted"
  sed -n 's/^ARIN_REFUSAL(\([0-9]*\), \([A-Z0-9_]*\), "[^"\\]*")$/\1 \2/p' "$table" > "$made/named"
  diff "$made/wanted" "$made/named" >&2 || fail "$table does not have the refusals of crates/verdicts, in their order"
  [ "$(grep -c ARIN_REFUSAL "$table")" = "$(grep -c . "$made/named")" ] || fail "a row of $table is not in its form"
  pass "the table of sentences has the refusals of the Rattle source ($(grep -c . "$made/named"))"
}

# Sets `version`: that of the header, which is cargo's. What is installed is held to it further down.
header_version() {
  local package
  version=$(sed -n 's/^#define ARIN_VERSION "\(.*\)"$/\1/p' include/arinduleu.h)
  [ -n "$version" ] || fail "the header has no version"
  for package in rust/Cargo.toml rust/c/Cargo.toml; do
    grep -qxF "version = \"$version\"" "$package" || fail "the header says version $version, and $package does not"
  done
  pass "the version is $version in the header and in cargo's packages"
}

# ignored_as LANGUAGE STANDARD COMPILER...: an answer that is ignored is warned of, call by call. For a compiler that does not say that
# it is GCC or clang the mark is empty; the small headers go with it, since the machine's own ask who compiles them. Warnings are counted, not
# errors: clang stops at the twentieth of these.
ignored_as() {
  local language=$1 standard=$2 compiler marked told words
  shift 2
  marked=$(cat "${headers[@]}" | grep -c '^ARIN_MUST_USE ')
  for compiler in $(compilers "$@"); do
    words=("$compiler" -x "$language" "-std=$standard" "${warnings[@]}" -c tests/c/ignored.c -o "$made/object.o")
    quietly "$compiler does not take tests/c/ignored.c with its warnings, as $standard" "${words[@]}" -Wno-error -Iinclude
    told=$(grep -c 'unused-result' "$made/log" || true)
    [ "$told" = "$marked" ] || fail "$compiler warns of $told ignored answers, and $marked calls have the mark, as $standard"
    quietly "the mark does not vanish for an unknown compiler ($compiler, $standard)" \
      "${words[@]}" -U__GNUC__ -U__clang__ -nostdinc -isystem tests/c/kit -Iinclude
    pass "an ignored answer is warned of, for each of $marked calls, by $compiler as $standard"
  done
}

# The sentences are in a program that asks for one, and in no other.
unused_text() {
  local compiler option name sentence
  sentence=$(sed -n 's/^ARIN_REFUSAL(36, .*"\(.*\)")$/\1/p' include/arinduleu_refusals.inc)
  echo '#include "arinduleu.h"' > "$made/without.c"
  { cat "$made/without.c"; echo 'const char *text(unsigned n) { return arin_refusal_text(n); }'; } > "$made/with.c"
  for compiler in $(compilers cc gcc clang); do
    for option in -O0 -Os; do
      for name in without with; do
        quietly "$compiler does not compile the header" "$compiler" -std=c11 "$option" -Iinclude -S "$made/$name.c" -o "$made/$name.s"
      done
      grep -qF "$sentence" "$made/with.s" || fail "the sentences are not in a program that asks for one, by $compiler $option"
      if grep -qE "arin_|$sentence" "$made/without.s"; then
        fail "the sentences are in a program that asks for none, by $compiler $option"
      fi
    done
    pass "a program that asks for no sentence carries none, by $compiler"
  done
}

# cargo_build TARGET: $cargo_library in that folder.
cargo_build() {
  quietly "cargo does not build arinduleu-c" \
    cargo build --release --offline --manifest-path rust/Cargo.toml --target-dir "$1" -p arinduleu-c
}

# with_cc NAME OPTION...: the programs against the cargo library, built with cc and these options.
with_cc() {
  local name=$1 source
  shift
  for source in "${sources[@]}"; do
    quietly "cc $* does not build $source" \
      cc -std=c11 "${warnings[@]}" "$@" -Iinclude "$source" "rust/target/$cargo_library" -o "$(program "$source")"
  done
  run_all "against the cargo library, $name"
}

# The examples and the calls once more as C++ programs: they link only because the header says extern "C".
with_cxx() {
  local source
  for source in examples/two_ports.c examples/display.c tests/c/calls.c tests/c/sinks.c tests/c/summaries.c; do
    quietly "c++ does not build $source" \
      c++ -x c++ -std=c++17 "${warnings[@]}" -Iinclude "$source" -x none "rust/target/$cargo_library" -o "$(program "$source")"
  done
  run_examples "against the cargo library, c++"
  run_calls "against the cargo library, c++"
}

# The code in the README's section for firmware that sets up rows, then that on messages, on summaries and on sink lists, put into a function as they
# stand.
readme_snippet() {
  awk '
    /^## / { inside = $0 == "## From firmware" }
    inside && /^    / { block = block blank $0 "\n"; blank = ""; next }
    inside && /^$/ { blank = blank "\n"; next }
    { if (block ~ /arin_set_up\(|arin_write_message\(|arin_summarize\(|arin_sink_check\(/) printf "%s", block; block = blank = "" }
  ' README.md > "$made/snippet"
  [ -s "$made/snippet" ] || fail "the README has no snippet for firmware"
  {
    printf '#include <stdio.h>\n#include <string.h>\n\n#include "arinduleu.h"\n\nint main(void)\n{\n'
    cat "$made/snippet"
    printf '    return 0;\n}\n'
  } > "$made/snippet.c"
}

# snippet_as LANGUAGE STANDARD COMPILER
snippet_as() {
  local line
  quietly "the README's snippet is not $2" \
    "$3" -x "$1" "-std=$2" "${warnings[@]}" -Iinclude "$made/snippet.c" -x none "rust/target/$cargo_library" -o "$made/pasted"
  limited "$made/pasted" > "$made/out" || fail "the README's snippet ended badly, as $2"
  [ "$(grep -c . "$made/out")" = 4 ] || fail "the README's snippet does not print four lines"
  while IFS= read -r line; do
    grep -qxF "    $line" README.md || fail "the README does not say what its snippet prints: $line"
  done < "$made/out"
  pass "the README's snippet is $2 and prints what is said"
}

# install_refuses TOLD WORD...: tools/install.sh with these words fails, and tells why.
install_refuses() {
  local told=$1
  shift
  if tools/install.sh "$@" > "$made/log" 2>&1; then
    fail "tools/install.sh takes the words: $*"
  fi
  grep -qF -- "$told" "$made/log" || fail "tools/install.sh $* does not say: $told"
}

# by_pkg_config OUTSIDE, and the next likewise: the example in a folder of its own. What was installed is in moved/ there.
by_pkg_config() {
  local outside=$1 flags
  have pkg-config || { skip "the C example by pkg-config" "no pkg-config"; return; }
  local -x PKG_CONFIG_PATH="$outside/moved/lib/pkgconfig"
  [ "$(pkg-config --modversion arinduleu)" = "$version" ] || fail "pkg-config does not find version $version"
  flags=$(pkg-config --cflags --libs arinduleu) || fail "pkg-config does not find what was installed"
  # shellcheck disable=SC2086 # the flags are several words
  quietly "the example does not build by pkg-config" \
    cc -std=c11 "${warnings[@]}" "$outside/two_ports.c" $flags -o "$made/two_ports"
  run_example two_ports "installed, by pkg-config"
}

by_cmake() {
  local outside=$1 why words newer
  why=$(lacking cmake make)
  [ -z "$why" ] || { skip "the C example by CMake" "$why"; return; }
  words=(cmake -G "Unix Makefiles" "-DCMAKE_PREFIX_PATH=$outside/moved")
  cat > "$outside/CMakeLists.txt" << END
cmake_minimum_required(VERSION 3.13)
project(outside C)
find_package(arinduleu $version REQUIRED)
if(NOT arinduleu_VERSION STREQUAL "$version")
  message(FATAL_ERROR "this is version \${arinduleu_VERSION}")
endif()
add_executable(two_ports two_ports.c)
target_link_libraries(two_ports PRIVATE arinduleu::arinduleu)
END
  quietly "CMake does not find what was installed" "${words[@]}" -S "$outside" -B "$outside/build"
  quietly "the example does not build by CMake" cmake --build "$outside/build"
  cp "$outside/build/two_ports" "$made/two_ports"
  run_example two_ports "installed, by CMake"
  newer=${version%%.*}.$(($(echo "$version" | cut -d . -f 2) + 1))
  mkdir "$outside/newer"
  cat > "$outside/newer/CMakeLists.txt" << END
cmake_minimum_required(VERSION 3.13)
project(newer NONE)
find_package(arinduleu $newer REQUIRED)
END
  if "${words[@]}" -S "$outside/newer" -B "$outside/newer/build" > "$made/log" 2>&1; then
    fail "CMake takes version $version for $newer"
  fi
  grep -qF "version: $version" "$made/log" || fail "CMake refuses version $newer, and not for the version"
  pass "CMake does not take version $version for $newer"
}

installed() {
  local outside=$made/outside
  mkdir "$outside"
  install_refuses "--prefix is missing"
  install_refuses "unknown word '--prefixes'" --prefix "$made/none" --prefixes
  install_refuses "--library wants a word" --prefix "$made/none" --library
  install_refuses "--library is cargo or kit, not 'none'" --prefix "$made/none" --library none
  install_refuses "--target goes with --library cargo" --prefix "$made/none" --library kit --target none
  [ ! -e "$made/none" ] || fail "tools/install.sh refuses, and installs all the same"
  DESTDIR="$outside/stage" quietly "tools/install.sh does not install under DESTDIR" tools/install.sh --prefix /usr/local
  mv "$outside/stage/usr/local" "$outside/moved"
  cmp "rust/target/$cargo_library" "$outside/moved/lib/libarinduleu.a" || fail "what is installed is not the library that cargo made"
  if grep -rqF -e "$PWD" -e "$outside" --exclude='*.a' "$outside/moved"; then
    fail "what is installed names a folder of this machine"
  fi
  pass "tools/install.sh installs under a prefix and DESTDIR, and refuses what it does not know"
  cp examples/two_ports.c "$outside"
  by_pkg_config "$outside"
  by_cmake "$outside"
}

# The calls once more with rustc's own checks: a slice from a bad pointer and an overflow panic, and a panic never returns.
with_checks() {
  local -x CARGO_PROFILE_RELEASE_DEBUG_ASSERTIONS=true CARGO_PROFILE_RELEASE_OVERFLOW_CHECKS=true
  local source
  cargo_build "$made/checked"
  for source in tests/c/calls.c tests/c/sinks.c tests/c/summaries.c; do
    quietly "cc does not build $source" \
      cc -std=c11 "${warnings[@]}" -Iinclude "$source" "$made/checked/$cargo_library" -o "$(program "$source")"
  done
  run_calls "against the cargo library with rustc's checks"
}

with_sanitizers() {
  # Nothing is allocated, and looking for leaks takes seconds.
  local -x ASAN_OPTIONS=detect_leaks=0
  local options=(-O1 -g -fsanitize=address -fsanitize=undefined -fno-sanitize-recover=all)
  echo 'int main(void) { return 0; }' > "$made/nothing.c"
  if cc "${options[@]}" "$made/nothing.c" -o "$made/nothing" > /dev/null 2>&1 && "$made/nothing" > /dev/null 2>&1; then
    with_cc "cc with sanitizers" "${options[@]}"
  else
    skip "the C tests with sanitizers" "cc cannot build and run with them"
  fi
}

against_cargo() {
  local why
  why=$(lacking cargo cc)
  [ -z "$why" ] || { skip "the C tests of the cargo library" "$why"; return; }
  cargo_build rust/target
  with_cc "cc -O2" -O2
  with_cc "cc -O0" -O0
  with_sanitizers
  readme_snippet
  snippet_as c c11 cc
  if have c++; then
    with_cxx
    snippet_as c++ c++17 c++
  else
    skip "the C++ tests of the cargo library" "no c++"
  fi
  installed
  if have timeout; then with_checks; else skip "the C tests with rustc's checks" "no timeout"; fi
}

# with_kit OPTION: the programs against the kit's archive, for x86-64. The kit's clang comes without headers, so tests/c/kit has those
# that are used.
with_kit() {
  local option=$1 tools lib source
  tools=$(kit_tools)
  lib="$tools/lib"
  for source in "${sources[@]}"; do
    quietly "the kit's clang $option does not compile $source" \
      "$tools/bin/clang" --target=x86_64-linux-gnu -std=c11 "${warnings[@]}" "$option" -fPIE -nostdinc -isystem tests/c/kit \
      -Iinclude -c "$source" -o "$made/object.o"
    quietly "the kit's ld.lld does not link $source" \
      "$tools/bin/ld.lld" -pie --dynamic-linker "$lib/ld-linux-x86-64.so.2" -o "$(program "$source")" \
      "$lib/Scrt1.o" "$lib/crti.o" "$lib/crtbeginS.o" "$made/object.o" target/staticlib/libboard.a \
      "$lib/libc.so.6" "$lib/libc_nonshared.a" "$lib/libgcc.a" "$lib/crtendS.o" "$lib/crtn.o"
  done
  # shellcheck disable=SC2046 # the runner is several words
  run_all "against the kit's archive, clang $option" $(runner)
}

against_kit() {
  local tool part="the C tests of the kit's archive"
  have rt || { skip "$part" "no rt"; return; }
  for tool in clang ld.lld; do
    [ -x "$(kit_tools)/bin/$tool" ] || { skip "$part" "the kit has no $tool for this machine"; return; }
  done
  (runner) > /dev/null 2>&1 || { skip "$part" "this machine is no x86-64"; return; }
  quietly "tools/c_archive.sh did not pass" tools/c_archive.sh
  with_kit -O2
  with_kit -O0
}

header_names
refusal_table
header_version
header_as c c11 cc gcc clang
header_as c++ c++17 c++ g++ clang++
ignored_as c c11 cc gcc clang
ignored_as c++ c++17 c++ g++ clang++
unused_text
against_cargo
against_kit
tell_skipped
echo "c: $passed passed, 0 failed, ${#skipped[@]} skipped"
