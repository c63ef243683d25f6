#!/usr/bin/env bash
# The tests of ./arin: what it takes and refuses, what it tells while it proves, and what it ends with. The programs are those that
# rt ci left in crates/NAME/out; a stand-in for rt says what rt would, so nothing is proved here.
# The last line is `arin: N passed, 0 failed`.
set -euo pipefail
cd "$(dirname "$0")/.."
who=arin_tests
. tools/kit.sh

need_kit
passed=0
made=$(mktemp -d)
trap 'rm -rf "$made"' EXIT
mkdir "$made/bin" "$made/temporary"
ln -s "$(kit_tools)" "$made/toolchain"
# As rt does, it says all on standard error, and runs the program, whose output is not arin's.
cat > "$made/bin/rt" << 'END_RT'
#!/bin/sh
[ "$1" = run ] && [ -e src/main.rt ] || { echo "rt: not run in a program's folder: $*" >&2; exit 9; }
cat > /dev/null
printf '%s\n' "$SAID" >&2
echo "what the program prints of no input"
exit "$STATUS"
END_RT
chmod +x "$made/bin/rt"

fail() {
  echo "arin: $1" >&2
  echo "arin: $passed passed, 1 failed"
  exit 1
}

# run_arin WORD...: over the stand-in for rt, which says $said and ends with $status.
said=
status=0
run_arin() {
  PATH="$made/bin:$PATH" TMPDIR="$made/temporary" SAID="$said" STATUS="$status" ./arin "$@"
}

# arin WORD...: what it printed is in out and err, what it ended with in $ended.
arin() {
  ended=0
  run_arin "$@" > "$made/out" 2> "$made/err" || ended=$?
}

# ends WHAT STATUS OUT ERR: the last run ended so, printed lines the last of which match these patterns (- for none), and left no file.
ends() {
  local what=$1 stream pattern
  [ "$ended" = "$2" ] || fail "$what: it ended with $ended, not $2: $(cat "$made/err")"
  for stream in out err; do
    if [ $stream = out ]; then pattern=$3; else pattern=$4; fi
    if [ "$pattern" = - ]; then
      [ ! -s "$made/$stream" ] || fail "$what: it printed to $stream: $(head -n 1 "$made/$stream")"
    else
      tail -n 1 "$made/$stream" | grep -qx -e "$pattern" || fail "$what: the last line of $stream is: $(tail -n 1 "$made/$stream")"
    fi
  done
  [ -z "$(ls "$made/temporary")" ] || fail "$what: a file is left behind"
  passed=$((passed + 1))
}

listing="0 6 0001912C 0002D12C 0004B0F0 E003C000 C8DC323C C9403230"
printf '\x48\x00\x48\x00\x1E\x00\x01\x00' > "$made/record"

for word in example caps console board test "caps --help" "console --help" "board --help" --help; do
  # shellcheck disable=SC2086 # a word may be two
  arin $word left-over
  ends "a word left over behind $word" 2 - "[a-z]*: .*left-over.* (.*--help tells)"
done
arin nothing-known
ends "an unknown word" 2 - "arin: unknown word 'nothing-known' (./arin --help tells)"
arin
ends "no word" 2 - ".*EXT COUNT ID PROLE REV DROLE TYPE"
arin --help
ends "help" 0 ".*EXT COUNT ID PROLE REV DROLE TYPE" -
arin caps --help
ends "the help of caps" 0 "prints the listing of a 36 W port .*" -
arin board --help
ends "the help of the tests on a board" 0 "What is missing is named .*" -
arin console --help
cmp "$made/out" docs/CONSOLE.md || fail "./arin console --help is not docs/CONSOLE.md"
ends "the help of the console" 0 ".*" -

said="rt: nothing has changed since the last proved build, by out/caps.stamp, so nothing is checked now
rt: running out/caps; to give it other input, run that file yourself"
arin example
ends "nothing left to prove" 0 "$listing" -
said="library verdicts: modules loaded=26 checked=0
fn steps::nothing: proved
crate steps: modules loaded=0 checked=48
logic=proved functions=1 native=nat,char,string
crate lists: modules loaded=0 checked=3"
arin example
ends "a crate that had to be proved" 0 "$listing" "arin: steps is proved, [0-9]* s (2 of 8)"
arin caps < "$made/record"
ends "the record comes to caps, not to rt" 0 "$listing" "arin: steps is proved, [0-9]* s (2 of 8)"
said="rt: the library lists did not build, so nothing above it was checked"
status=1
arin example
ends "a crate that is not proved" 1 - "arin: caps is not proved"
grep -qx "$said" "$made/err" || fail "what rt said of a crate that is not proved is not told"

said="rt: nothing has changed since the last proved build, by out/caps.stamp, so nothing is checked now"
status=0
for program in caps console; do
  arin $program < /
  ends "$program and an input that cannot be read" 1 - "$program: standard input cannot be read"
  arin $program <&-
  ends "$program and an input that is closed" 2 - "arin: standard input is closed; $program reads it"
  : > "$made/out"
  ended=0
  run_arin $program < "$made/record" > /dev/full 2> "$made/err" || ended=$?
  ends "$program and a full disk" 1 - "$program: standard output cannot be written"
  ended=0
  run_arin $program < "$made/record" >&- 2> "$made/err" || ended=$?
  ends "$program and an output that is closed" 2 - "arin: standard output is closed; $program writes to it"
done
echo "arin: $passed passed, 0 failed"
