#!/usr/bin/env bash
# The tables of docs/PERFORMANCE.md, "On a board": what each call takes on an emulated Cortex-M0, of flash, stack, instructions and software
# divisions, and beside it the plain model, compiled the same way.
set -euo pipefail
cd "$(dirname "$0")/.."
who=board_figures
. tools/skipping.sh

level=${1:-s}
if [ $# -gt 1 ]; then
  echo "$who: no more than one word is taken: '$2' (tools/board_figures.sh --help tells)" >&2
  exit 2
fi
case "$level" in
  s | z | 1 | 2 | 3) ;;
  -h | --help)
    cat << 'END'
usage: tools/board_figures.sh [OPT-LEVEL]

Builds the library and the plain model of rust/model for thumbv6m-none-eabi, at
opt-level s or at the one given (s, z, 1, 2, 3), and prints for each call
  - flash: what the linker keeps when that call alone is wanted, with its
    constants, division, memcpy and memset;
  - stack: the most bytes below the caller's, by painting the RAM;
  - instructions, by the emulator's counter: the mean over the benchmark's 2000
    seeded inputs, and the most over these and the hardest (every full port with
    its own list, on cables of 2 to 5 A, and for the rule check a step past 3 A;
    seven objects in every mix; eight ports that are all in use);
  - divisions: calls of __aeabi_uidiv and __aeabi_uidivmod, counted by wrapping
    them at link time; the instructions in them are in the figures above;
and what an answer from a summary takes of one from the list, and the divisions
of the rule check of seven objects, the most that a list has.
Every answer to those inputs is held to this machine's. It needs what tools/board_tests.sh needs.
END
    exit 0
    ;;
  *)
    echo "$who: unknown word '$level' (tools/board_figures.sh --help tells)" >&2
    exit 2
    ;;
esac

. tools/passing.sh
. tools/c_programs.sh
. tools/board.sh

board_lacks
if [ -n "$why" ]; then
  echo "$who: skipped, this machine lacks something: $why"
  exit 0
fi

# The emulator counts an instruction as 1024 ns, and its clock does not follow this machine's.
counted=(-icount "shift=10,sleep=off")
library=rust/target/board/$target/release/libarinduleu_c.a
model=rust/target/board/$target/release/libmodel_c.a

# side NAME ARCHIVE OPTION...: NAME.figures gets for each call the mean and the most of instructions, the most stack, and of a second run the mean and
# the most of divisions. NAME.seven gets those of the rule check of seven objects.
side() {
  local name=$1 archive=$2
  shift 2
  build_for_board bench/board/measure.c "$made/measure" "$archive" "$@"
  answers_as_here "$name" "${counted[@]}"
  [ "$(head -n 1 "$made/out")" = "hundred 100" ] || fail "the emulator's clock does not count instructions: $(head -n 1 "$made/out")"
  mv "$made/out" "$made/plain"
  build_for_board bench/board/measure.c "$made/measure" "$archive" "$@" "${counting[@]}"
  answers_as_here "$name" "${counted[@]}"
  paste -d ' ' "$made/plain" "$made/out" | awk '/^arin_/ { print $1, $4 / $3, $6, $7, $13 / $11, $16 }' > "$made/$name.figures"
  divisions_of_seven "$name" > "$made/$name.seven"
}

# flash ARCHIVE CALL...: bytes of code and constants.
flash() {
  local archive=$1
  shift
  "${compiler[@]}" "${linking[@]}" --specs=nano.specs "-Wl,-e,$1" "${@/#/-Wl,-u,}" "$archive" -o "$made/kept"
  arm-none-eabi-size "$made/kept" | awk 'NR == 2 { print $1 + $2 }'
}

rust_for "$target" || fail "$why_not"
CARGO_PROFILE_RELEASE_OPT_LEVEL=$level quietly "the library and the model do not build for $target" \
  "${rust_words[@]}" cargo build --release --offline --manifest-path rust/Cargo.toml --target-dir rust/target/board --target "$target" \
  -p arinduleu-c -p model-c
board_inputs
side library "$library"
side model "$model" -DMODEL
calls=$(cut -d ' ' -f 1 "$made/library.figures")

qemu=$(qemu-system-arm --version | sed -n '1s/.*version \([0-9.]*\).*/\1/p')
echo "opt-level $level, rustc $its_version, gcc $(arm-none-eabi-gcc -dumpversion), qemu $qemu"
echo
echo "| call | flash alone, library | model | stack, library | model |"
echo "|---|--:|--:|--:|--:|"
while read -r call _ _ stack _ _ model_stack; do
  echo "| $call | $(flash "$library" "$call") | $(flash "$model" "model_${call#arin_}") | $stack | $model_stack |"
done < <(paste -d ' ' "$made/library.figures" <(cut -d ' ' -f 4 "$made/model.figures"))
# shellcheck disable=SC2086 # the calls are several words
echo "| all twenty-three | $(flash "$library" $calls) | $(flash "$model" ${calls//arin_/model_}) | | |"
echo
echo -n "| call | instructions, library | model | library / model | the most, library | model | library / model |"
echo " divisions, library | model | the most, library | model |"
echo "|---|--:|--:|--:|--:|--:|--:|--:|--:|--:|--:|"
paste -d ' ' "$made/library.figures" "$made/model.figures" | awk '
  {
    mean = $2 / $8; most = $3 / $9
    printf "| %s | %.0f | %.0f | %.2f | %d | %d | %.2f | %.1f | %.1f | %d | %d |\n", $1, $2, $8, mean, $3, $9, most, $5, $11, $6, $12
    if (mean <= 1.2 && most <= 1.2) within++
  }
  END { printf "\n%d of %d calls are within 1.20 of the model, in the mean and at the most.\n", within, NR }'
awk '
  { of[$1] = $2 }
  END {
    printf "\nAn answer from a summary takes %.2f of the instructions of arin_answer, and with arin_take_request before it %.2f.\n", \
      of["arin_answer_summary"] / of["arin_answer"], (of["arin_take_request"] + of["arin_answer_summary"]) / of["arin_answer"]
  }' "$made/library.figures"
echo
echo "| the rule check of seven objects, six with a current that is judged | divisions, library | model |"
echo "|---|--:|--:|"
paste -d ' ' "$made/library.seven" "$made/model.seven" | awk '
  BEGIN {
    told["built"] = "as the builder makes them"; told["past_3_A"] = "a step past 3 A where they have it"
    told["built_2_A"] = told["built"] ", 2 A cable"; told["built_4_A"] = told["built"] ", 4 A cable"
    told["past_3_A_of_4_A"] = told["past_3_A"] ", 4 A cable"
  }
  { printf "| %s | %d | %d |\n", told[$1], $2, $4 }'
