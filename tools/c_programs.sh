# What tools/c_tests.sh and the tools for boards share: the C programs of examples/ and tests/c, built by the caller into the folder of what is made,
# then run here and compared. The caller has tools/skipping.sh and tools/passing.sh.

warnings=(-Wall -Wextra -Wpedantic -Werror)
sources=(examples/two_ports.c examples/display.c tests/c/calls.c tests/c/sinks.c tests/c/summaries.c tests/c/layout.c)

# The program of a source, in the folder of what is made.
program() {
  echo "$made/$(basename "$1" .c)"
}

# limited COMMAND...: the cargo library loops for ever where it panics, so a program has a limit where the machine has `timeout`. None reads an
# input.
limited() {
  if have timeout; then timeout 60 "$@"; else "$@"; fi < /dev/null
}

# run_example NAME WHERE RUNNER...: runs an example that was built, and compares. The runner is the words that stand before the program, or none.
run_example() {
  local name=$1 where=$2
  shift 2
  limited "$@" "$made/$name" > "$made/out" || fail "the example $name ended badly, $where"
  diff "examples/$name.out" "$made/out" >&2 || fail "the example $name does not print examples/$name.out, $where"
  pass "the example $name prints what it should, $where"
}

# run_examples WHERE RUNNER..., and those below likewise.
run_examples() {
  run_example two_ports "$@"
  run_example display "$@"
}

run_calls() {
  local where=$1 name count all=0
  shift
  for name in calls sinks summaries; do
    limited "$@" "$made/$name" > "$made/out" || {
      cat "$made/out" >&2
      fail "a call of tests/c/$name.c does not answer as it should, $where"
    }
    count=$(sed -n "s/^$name: \([0-9]*\) passed, 0 failed\$/\1/p" "$made/out")
    [ -n "$count" ] || fail "$name ended without its count, $where"
    all=$((all + count))
  done
  pass "each call answers as it should ($all checks), $where"
}

run_layout() {
  local where=$1
  shift
  limited "$@" "$made/layout" > "$made/out" || fail "layout ended badly, $where"
  diff tests/c/layout.txt "$made/out" >&2 || fail "the structs are not as tests/c/layout.txt has them, $where"
  pass "the structs are as tests/c/layout.txt has them, $where"
}

run_all() {
  run_examples "$@"
  run_calls "$@"
  run_layout "$@"
}
