#!/usr/bin/env bash
# The tests of the C library on an emulated board, a Cortex-M0 with 16 KiB of RAM.
# The last line is `board: N passed, 0 failed, K skipped`; the one before it says which parts were skipped, and why.
set -euo pipefail
cd "$(dirname "$0")/.."
who=board
. tools/skipping.sh

if [ $# -gt 1 ]; then
  echo "$who: no more than one word is taken: '$2' (tools/board_tests.sh --help tells)" >&2
  exit 2
fi
case "${1:-}" in
  "") ;;
  -h | --help)
    cat << 'END'
usage: ./arin board, or tools/board_tests.sh

Installs the library for thumbv6m-none-eabi with tools/install.sh, at opt-level s
and at 3, and builds with it for a Cortex-M0 and runs on an emulated micro:bit
  - the C programs of examples and of tests/c, whose output is compared with
    what is stored;
  - the inputs of the benchmark, whose answers have to be those of this machine;
  - the rule check of seven objects, whose divisions are counted;
  - examples/board, copied to another folder and made there, whose output is
    compared with examples/board/charger.out.
It needs cargo, cc, arm-none-eabi-gcc with newlib, qemu-system-arm and, for the
last part, make; and a rustc that has the target or the sources of its core. On
Debian
  apt install gcc make gcc-arm-none-eabi libnewlib-arm-none-eabi qemu-system-arm
and `rustup target add thumbv6m-none-eabi`, or without rustup
  apt install rustc cargo rust-src                 (Debian 13)
  apt install rustc-web cargo-web rust-web-src     (Debian 12)
What is missing is named in the line that says what is skipped for it.
END
    exit 0
    ;;
  *)
    echo "$who: unknown word '$1' (tools/board_tests.sh --help tells)" >&2
    exit 2
    ;;
esac

. tools/passing.sh
. tools/c_programs.sh
. tools/board.sh

end() {
  tell_skipped
  echo "$who: $passed passed, 0 failed, ${#skipped[@]} skipped"
  exit 0
}

# most_of_seven NAME: the most divisions of those lines, whatever the cable.
most_of_seven() {
  sed -n "s/^$1[^ ]* //p" "$made/seven" | sort -n | tail -n 1
}

# at_level OPT-LEVEL: what is installed stays in a folder of that name.
at_level() {
  local where="on an emulated Cortex-M0, opt-level $1" prefix=$made/level-$1 source counted
  CARGO_PROFILE_RELEASE_OPT_LEVEL=$1 quietly "the library does not build for $target, opt-level $1" \
    tools/install.sh --prefix "$prefix" --target "$target"
  for source in "${sources[@]}"; do
    build_for_board "$source" "$(program "$source")" "$prefix/lib/libarinduleu.a"
  done
  run_all "$where" "${emulator[@]}" -kernel
  build_for_board bench/board/measure.c "$made/measure" "$prefix/lib/libarinduleu.a" "${counting[@]}"
  answers_as_here "$where"
  pass "each of $(awk '/^arin_/ { calls += $2 } END { print calls }' "$made/out") calls of the benchmark answers as on this machine, $where"
  divisions_of_seven "$where" > "$made/seven"
  counted="as built $(most_of_seven built), a step past 3 A $(most_of_seven past_3_A)"
  awk '$2 > ($1 ~ /^built/ ? 3 : 6) { exit 1 }' "$made/seven" || fail "the rule check of seven objects divides too often, $where: $counted"
  pass "the rule check of seven objects divides no more often than it has to ($counted), $where"
}

# What a firmware author does: copies the folder, and makes it with what was installed.
charger() {
  have make || { skip "the charger of examples/board" "no make"; return; }
  cp -R examples/board "$made/charger"
  rm -f "$made/charger/charger.elf"
  local words=(make --silent --no-print-directory -C "$made/charger" "ARINDULEU=$made/level-s")
  quietly "examples/board does not build" "${words[@]}" WARNINGS="${warnings[*]}"
  limited "${words[@]}" run > "$made/out" || fail "the charger of examples/board ended badly"
  diff examples/board/charger.out "$made/out" >&2 || fail "the charger does not print examples/board/charger.out"
  pass "the charger of examples/board, copied and made, hands back what it should ($(grep -c '^[A-Z]' examples/board/charger.out) events)"
}

board_lacks
if [ -n "$why" ]; then
  skip "the tests on an emulated board" "$why"
  end
fi
board_inputs
at_level s
at_level 3
charger
end
