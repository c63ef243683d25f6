#!/usr/bin/env bash
# The tables of docs/PERFORMANCE.md from Time to On a board. Each part can be run by itself.
set -euo pipefail
cd "$(dirname "$0")/.."

if ! command -v cargo > /dev/null 2>&1; then
  echo "performance: skipped, there is no cargo on this machine"
  exit 0
fi
echo "On $(uname -m), $(nproc) cores, $(rustc --version | cut -d ' ' -f 1,2)."
echo
echo "## Time"
echo
(cd rust && cargo bench --offline --quiet)
echo
echo "## Instructions"
echo
tools/instructions.sh
echo
echo "## caps"
echo
tools/caps_bench.sh
echo
echo "## Code size"
echo
tools/code_size.sh
echo
echo "## On a board"
echo
tools/board_figures.sh
