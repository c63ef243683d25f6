# What the test scripts in tools/ share: tests that pass, or end it all, and a folder for what they make. The caller sets `who`, its own name, and has
# tools/skipping.sh.

passed=0
made=$(mktemp -d)
trap 'rm -rf "$made"' EXIT

pass() {
  echo "$who: $1"
  passed=$((passed + 1))
}

fail() {
  echo "$who: $1" >&2
  echo "$who: $passed passed, 1 failed, ${#skipped[@]} skipped"
  exit 1
}

# quietly WHY COMMAND...: what the command prints is shown only where it fails.
quietly() {
  local why=$1
  shift
  "$@" > "$made/log" 2>&1 || {
    tail -n 20 "$made/log" >&2
    fail "$why"
  }
}
