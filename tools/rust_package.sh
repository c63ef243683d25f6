#!/usr/bin/env bash
# The tests of the Rust package from outside: made by cargo, built where nothing else is, and used by the program of the README.
# The last line is `rust: N passed, 0 failed, K skipped`; the one before it says which parts were skipped, and why.
set -euo pipefail
here=$PWD
cd "$(dirname "$0")/.."
who=rust
. tools/skipping.sh

to=
case "${1:-}" in
  "") ;;
  --to)
    to=$(cd "$here" && [ $# = 2 ] && [ -n "$2" ] && cd "$2" 2> /dev/null && pwd) || {
      echo "$who: --to wants a folder that is there, and nothing more (tools/rust_package.sh --help tells)" >&2
      exit 2
    }
    ;;
  -h | --help)
    cat << 'END'
usage: tools/rust_package.sh [--to FOLDER]

Copies rust/ with the proved source inside, makes the package of that with
`cargo package`, which builds it once, unpacks it in an empty folder, and builds
and runs the program of README.md, "From Rust", against it there; then the same
program as the README has it, with its dependency line, beside this folder. The documentation is made without a
warning. That a public function without a comment does not build, and that an
answer which is ignored is warned of, is tried too.
Nothing is written outside a temporary folder. What this machine has no tools
for is skipped, and the line before the last says so.
With --to the package alone is made, and put into that folder: a .crate that
carries the proved source and builds by itself.
END
    exit 0
    ;;
  *)
    echo "$who: unknown word '$1' (tools/rust_package.sh --help tells)" >&2
    exit 2
    ;;
esac

. tools/passing.sh
# What is built once serves the next part too.
export CARGO_TARGET_DIR="$made/target" CARGO_INCREMENTAL=0 CARGO_PROFILE_DEV_DEBUG=0

# block FIRST: the indented block of the README's section that begins with this, without its indent.
block() {
  awk -v first="    $1" '
    /^## / { section = $0 == "## From Rust" }
    section && index($0, first) == 1 { on = 1 }
    on && /^[^ ]/ { exit }
    on { sub(/^    /, ""); print }
  ' README.md | sed -e :a -e '/^\n*$/{$d;N;ba' -e '}' > "$made/block"
  [ -s "$made/block" ] || fail "README.md, \"From Rust\", has no block that begins with: $1"
  cat "$made/block"
}

# project FOLDER DEPENDENCY: a new project with this dependency and the program that comes on the input.
project() {
  mkdir -p "$1/src"
  printf '[package]\nname = "charger"\nversion = "0.1.0"\nedition = "2021"\n\n[dependencies]\n%s\n' "$2" > "$1/Cargo.toml"
  cat > "$1/src/main.rs"
}

# prints FOLDER WHAT: the project is built and run, and prints what the README says.
prints() {
  quietly "the program of the README does not build, $2" cargo build --offline --manifest-path "$1/Cargo.toml"
  "$CARGO_TARGET_DIR/debug/charger" > "$made/out" || fail "the program of the README ended badly, $2"
  diff "$made/wanted" "$made/out" >&2 || fail "the program of the README does not print what it says, $2"
  pass "the program of the README prints what it says, $2"
}

# The proved source stands beside rust/ and not in it, so that the repository has each file once. cargo packages what is inside.
staged() {
  mkdir "$made/staged"
  tar -cf - --exclude=./target -C rust . | tar -xf - -C "$made/staged"
  tar -cf - --exclude='crates/*/out' crates crates.txt include | tar -xf - -C "$made/staged"
}

make_package() {
  staged
  quietly "cargo does not make the package" cargo package --offline --allow-dirty --manifest-path "$made/staged/Cargo.toml"
  mkdir "$made/unpacked"
  tar -xzf "$CARGO_TARGET_DIR"/package/arinduleu-*.crate -C "$made/unpacked" --strip-components=1
  pass "cargo makes the package, and what it made builds ($(find "$made/unpacked" -type f | grep -c .) files)"
}

use_package() {
  block "[0001912C" > "$made/wanted"
  block "use arinduleu::" > "$made/program"
  block "arinduleu = " > "$made/dependency"
  project "$made/alone" 'arinduleu = { path = "../unpacked" }' < "$made/program"
  prints "$made/alone" "against the package alone"
  # The README's line is for a project beside this folder, which then has the name arinduleu.
  mkdir "$made/beside"
  ln -s "$PWD" "$made/beside/arinduleu"
  project "$made/beside/charger" "$(cat "$made/dependency")" < "$made/program"
  prints "$made/beside/charger" "with its dependency line"
}

documentation() {
  local -x RUSTDOCFLAGS="-D warnings"
  quietly "the documentation has a warning" cargo doc --no-deps --offline --manifest-path "$made/unpacked/Cargo.toml"
  pass "the documentation is made without a warning"
}

# refused WHY MESSAGE FOLDER: the project there does not build, and the reason is this message.
refused() {
  if cargo build --offline --manifest-path "$3/Cargo.toml" > "$made/log" 2>&1; then
    fail "$1 builds"
  fi
  grep -q "$2" "$made/log" || { tail -n 20 "$made/log" >&2; fail "$1 is not told"; }
  pass "$1 does not build"
}

wrong_ones() {
  cp -R "$made/unpacked" "$made/wrong"
  sed -i.old '/^\/\/ The quotient rounded down/d' "$made/wrong/crates/steps/src/rounding.rt"
  refused "a public function without a comment" "missing documentation for a function" "$made/wrong"
  project "$made/ignoring" 'arinduleu = { path = "../unpacked" }' << 'END'
#![deny(unused_must_use)]
fn main() {
    arinduleu::board::arin_set_up(&mut [], 200);
}
END
  refused "a program that ignores an answer" "unused return value" "$made/ignoring"
}

why=$(lacking cargo cc tar)
if [ -n "$to" ]; then
  [ -z "$why" ] || fail "the package cannot be made here: $why"
  make_package
  cp "$CARGO_TARGET_DIR"/package/arinduleu-*.crate "$to"
  ls "$to"/arinduleu-*.crate
  exit 0
fi
if [ -z "$why" ]; then
  make_package
  use_package
  documentation
  wrong_ones
else
  skip "the Rust package" "$why"
fi
tell_skipped
echo "rust: $passed passed, 0 failed, ${#skipped[@]} skipped"
