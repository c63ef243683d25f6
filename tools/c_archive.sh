#!/usr/bin/env bash
# Proves and builds the kit's archive for C, target/staticlib/libboard.a: the calls of crates/board under their C names, for x86-64 Linux. What rt says is
# told only where it fails. crates/board_c is what exports them, and rt names its archive for that crate; callers know it as libboard.a.
set -euo pipefail
cd "$(dirname "$0")/.."

if [ $# != 0 ]; then
  case "$1" in
    -h | --help)
      echo "usage: tools/c_archive.sh"
      sed -n 's/^# //p' "$0"
      exit 0
      ;;
  esac
  echo "c_archive: unknown word '$1' (tools/c_archive.sh --help tells)" >&2
  exit 2
fi
if ! command -v rt > /dev/null 2>&1; then
  echo "c_archive: the Rattle kit is missing: there is no command 'rt' on the PATH" >&2
  exit 2
fi
log=$(cd crates/board_c && rt lib 2>&1 < /dev/null) || {
  printf '%s\n' "$log" | tail -n 20 >&2
  echo "c_archive: crates/board_c is not proved" >&2
  exit 1
}
mkdir -p target/staticlib
cp crates/board_c/out/libboard_c.a target/staticlib/libboard.a.new
mv -fT target/staticlib/libboard.a.new target/staticlib/libboard.a
