# What tools/board_tests.sh and tools/board_figures.sh share: programs for a Cortex-M0, and an emulated board to run them on. The caller sets `who` and
# has tools/skipping.sh, tools/passing.sh and tools/c_programs.sh.
. tools/rust_target.sh

target=thumbv6m-none-eabi

compiler=(arm-none-eabi-gcc -std=c11 "${warnings[@]}" -mcpu=cortex-m0 -mthumb -Os -ffunction-sections -fdata-sections)
linking=(-T examples/board/board.ld -nostartfiles "-Wl,--gc-sections" "-Wl,-z,noexecstack")

# A micro:bit: 16 KiB of RAM. What a program prints and opens goes to this machine by semihosting. The program stands behind these words.
emulator=(qemu-system-arm -M microbit -display none -monitor none -serial none
  -chardev "stdio,id=host" -semihosting-config "enable=on,target=native,chardev=host")

# Sets `why`, all that is missing, or nothing. cargo links what it runs here with cc.
board_lacks() {
  why=$(lacking cargo cc arm-none-eabi-gcc qemu-system-arm)
  if have arm-none-eabi-gcc && [ ! -e "$(arm-none-eabi-gcc -print-file-name=rdimon.specs)" ]; then
    why="$why, no newlib for arm-none-eabi-gcc"
  fi
  choose_rustc "$target" || why="$why, $why_not"
  why=${why#, }
}

# build_for_board SOURCE PROGRAM LIBRARY OPTION...: an ordinary C program, whose main is called by that of tests/board.
build_for_board() {
  local source=$1 program=$2 library=$3
  shift 3
  quietly "$source does not compile for a Cortex-M0" "${compiler[@]}" -Iinclude -Dmain=program_main "$@" -c "$source" -o "$made/object.o"
  quietly "$source does not link for a Cortex-M0" "${compiler[@]}" "${linking[@]}" --specs=rdimon.specs "$@" \
    "$made/object.o" tests/board/semihosted.c examples/board/start.c "$library" -o "$program"
}

# What bench/board/measure.c is built with to count divisions: the linker leads them through it.
counting=(-DDIVISIONS "-Wl,--wrap=__aeabi_uidiv,--wrap=__aeabi_uidivmod")

# divisions_of_seven WHERE: from `out`, the divisions of the rule check of seven objects, as they are built and a step past 3 A, for cables of 5, 4
# and, as they are built, 2 A, a line each. Fails where such a list does not pass.
divisions_of_seven() {
  awk '$1 == "seven" { lines++; passing += $3 == 7 && $4 == 0; print $2, $5 } END { exit lines != 5 || passing != 5 }' "$made/out" ||
    fail "the list of seven objects does not pass the rule check, $1"
}

# The benchmark's inputs of every call as bytes, and the answers that the library gives here. They are made in a hurry: nothing is timed.
board_inputs() {
  local benchmark
  local -x CARGO_PROFILE_BENCH_LTO=off CARGO_PROFILE_BENCH_CODEGEN_UNITS=16 CARGO_PROFILE_BENCH_OPT_LEVEL=1
  local words=(--color never bench --offline --manifest-path rust/Cargo.toml --target-dir rust/target/hurried --bench calls --no-run)
  benchmark=$(cargo "${words[@]}" 2>&1 | tee "$made/log" |
    sed -n 's/^ *Executable .*(\(.*\))$/\1/p') || true
  [ -x "$benchmark" ] || { tail -n 20 "$made/log" >&2; fail "the benchmark does not build"; }
  quietly "the benchmark does not write its inputs" "$benchmark" --bytes "$made/inputs" "$made/expected"
}

# answers_as_here WHERE WORD...: runs bench/board/measure.c, built into `measure`, behind these words of the emulator; what it prints is in `out`.
answers_as_here() {
  local where=$1
  shift
  rm -f "$made/answers"
  (cd "$made" && limited "${emulator[@]}" "$@" -kernel measure > out) || fail "the calls of the benchmark end badly, $where: $(tail -n 1 "$made/out")"
  cmp "$made/expected" "$made/answers" || fail "the answers to the benchmark's inputs are not those of this machine, $where"
}
