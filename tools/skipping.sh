# What ./test and the tests in tools/ share: the parts that this machine has no tools for. The caller sets `who`, its own name.

# Each as `PART (WHY)`.
skipped=()

have() {
  command -v "$1" > /dev/null 2>&1
}

# Those of the named tools that are not here, as a reason: `no cargo, no cc`. Nothing where all are.
lacking() {
  local tool why=
  for tool in "$@"; do
    have "$tool" || why="$why, no $tool"
  done
  echo "${why#, }"
}

# skip PART WHY
skip() {
  echo "$who: skipped: $1 ($2)"
  skipped+=("$1 ($2)")
}

# One line: how many parts were skipped, and why each was.
tell_skipped() {
  local count=${#skipped[@]} all
  if [ "$count" = 0 ]; then
    echo "$who: nothing skipped"
    return
  fi
  printf -v all '; %s' "${skipped[@]}"
  echo "$who: $count part$([ "$count" = 1 ] || echo s) skipped: ${all#; }"
}
