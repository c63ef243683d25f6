#!/usr/bin/env bash
# caps against bench/plain_caps.c, a plain C program of the same statement: a million seeded records, the same bytes out, times by turns.
# Both are x86-64 programs and run the same way.
set -euo pipefail
cd "$(dirname "$0")/.."
who=caps_bench
. tools/kit.sh

skip() {
  echo "caps_bench: skipped, $1"
  exit 0
}

command -v python3 > /dev/null 2>&1 || skip "there is no python3 on this machine"
command -v rt > /dev/null 2>&1 || skip "there is no command 'rt' on the PATH"
with=$(runner)
kit=$(kit_tools)
for part in bin/clang bin/ld.lld lib/Scrt1.o lib/libc.so.6 lib/libc_nonshared.a lib/libgcc.a; do
  [ -e "$kit/$part" ] || skip "the kit has no toolchain/$part for this machine"
done
caps=$(built caps)
[ -x "$caps" ] || skip "$caps is not built (rt run in crates/caps builds it)"

made=$(mktemp -d)
trap 'rm -rf "$made"' EXIT
lib=$kit/lib
"$kit/bin/clang" --target=x86_64-unknown-linux-gnu -O2 -fPIE -ffreestanding -c bench/plain_caps.c -o "$made/plain_caps.o"
"$kit/bin/ld.lld" -pie -o "$made/plain_caps" \
  "$lib/Scrt1.o" "$lib/crti.o" "$lib/crtbeginS.o" "$made/plain_caps.o" "$lib/libc.so.6" "$lib/libc_nonshared.a" "$lib/libgcc.a" \
  "$lib/crtendS.o" "$lib/crtn.o"

# One record in eight has a field that is refused; the rest are good. The last record is short.
python3 - "$made/records" << 'END'
import random
import struct
import sys

dice = random.Random(1)
with open(sys.argv[1], "wb") as out:
    for _ in range(1000000):
        most = dice.randint(1, 200)
        pps = dice.randint(0, 1)
        present = most if pps or dice.randint(0, 1) else dice.randint(1, most)
        cable = dice.choice((20, 30, 40, 50, dice.randint(10, 50)))
        record = [most, present, cable, dice.randint(0, 1), pps, dice.choice((0, 0, 0, dice.randint(0, 63)))]
        if dice.randint(0, 7) == 0:
            record[dice.randint(0, 5)] = dice.randint(64, 255)
        out.write(struct.pack("<HHBBBB", *record))
    out.write(b"\x48\x00\x48")
END

$with "$caps" < "$made/records" > "$made/caps.out"
$with "$made/plain_caps" < "$made/records" > "$made/plain.out"
cmp "$made/caps.out" "$made/plain.out" || { echo "caps_bench: the two programs differ" >&2; exit 1; }
for empty in "$caps" "$made/plain_caps"; do
  [ -z "$($with "$empty" < /dev/null)" ] || { echo "caps_bench: $empty prints something for no input" >&2; exit 1; }
done

# In nanoseconds, of one run.
once() {
  local start end
  start=$(date +%s%N)
  $with "$1" < "$made/records" > /dev/null
  end=$(date +%s%N)
  echo $((end - start))
}

for round in 1 2 3 4 5 6 7 8 9; do
  if [ $((round % 2)) = 1 ]; then
    ours=$(once "$caps")
    plain=$(once "$made/plain_caps")
  else
    plain=$(once "$made/plain_caps")
    ours=$(once "$caps")
  fi
  echo "$ours $plain"
done > "$made/times"
lines=$(wc -l < "$made/caps.out")
bytes=$(wc -c < "$made/caps.out")
echo "$lines lines, $bytes bytes, the same from both programs; the least of 9 runs by turns."
echo
echo "| program | ns per record | ratio |"
echo "|---|--:|--:|"
awk -v lines="$lines" '
  NR == 1 || $1 < caps { caps = $1 }
  NR == 1 || $2 < plain { plain = $2 }
  END {
    printf "| caps | %.1f | %.2f |\n", caps / lines, caps / plain
    printf "| plain_caps (C) | %.1f | 1.00 |\n", plain / lines
  }' "$made/times"
