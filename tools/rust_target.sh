# What tools/install.sh and the tools for boards share: a rustc that builds for a target without an operating system. The caller has
# `set -euo pipefail` and stands in the root of the repository.

# has_core RUSTC TARGET: rustup, or whoever installed this rustc, has the target.
has_core() {
  local folder
  folder=$("$1" --print target-libdir --target "$2" 2> /dev/null) && ls "$folder"/libcore-*.rlib > /dev/null 2>&1
}

# core_source RUSTC: the folder of core's sources, which come with rust-src. Fails where there is none.
core_source() {
  local folder
  folder=$("$1" --print sysroot)/lib/rustlib/src/rust/library/core
  [ -e "$folder/src/lib.rs" ] && echo "$folder"
}

# older OLD NEW: whether the first of two versions is the older.
older() {
  [ "$1" != "$2" ] && [ "$(printf '%s\n' "$1" "$2" | sort -V | head -n 1)" = "$1" ]
}

# choose_rustc TARGET: sets `chosen`, the first rustc that has the target or the sources to make its core, and `its_version`. Where there is none,
# sets `why_not` and fails. The one on the PATH is asked first, then the distribution's, which has sources more often.
choose_rustc() {
  local oldest path asked=
  oldest=$(sed -n 's/^rust-version = "\(.*\)"$/\1/p' rust/Cargo.toml)
  why_not=
  for chosen in "${RUSTC:-rustc}" /usr/bin/rustc; do
    its_version=$("$chosen" --version 2> /dev/null | cut -d ' ' -f 2) || continue
    path=$(readlink -f "$(command -v "$chosen")")
    [ "$path" != "$asked" ] || continue
    asked=$path
    if older "$its_version" "$oldest"; then
      why_not="$why_not, rustc $its_version is older than $oldest"
    elif has_core "$chosen" "$1" || core_source "$chosen" > /dev/null; then
      return 0
    else
      why_not="$why_not, rustc $its_version has neither $1 nor rust-src"
    fi
  done
  why_not=${why_not#, }
  why_not=${why_not:-no rustc}
  return 1
}

# make_core RUSTC TARGET FOLDER: `core` for the target, in a sysroot of its own. `compiler_builtins` stays empty: division, memcpy and memset
# come from the C compiler's library.
make_core() {
  local rustc=$1 target=$2 folder=$3 new=$3.$$ source edition libraries words
  source=$(core_source "$rustc")
  edition=$(sed -n 's/^edition = "\(.*\)"$/\1/p' "$source/Cargo.toml")
  libraries=$new/lib/rustlib/$target/lib
  words=(--crate-type rlib --target "$target" -C opt-level=3 -C panic=abort -A warnings --out-dir "$libraries")
  mkdir -p "$libraries"
  # Without this a rustc that is released takes no source of its own core.
  local -x RUSTC_BOOTSTRAP=1
  "$rustc" --crate-name core --edition "$edition" "$source/src/lib.rs" "${words[@]}" &&
    echo '#![feature(compiler_builtins)] #![no_std] #![compiler_builtins]' |
    "$rustc" --crate-name compiler_builtins --edition 2021 - --sysroot "$new" "${words[@]}" || {
    rm -rf "$new"
    return 1
  }
  rm -rf "$folder"
  mv "$new" "$folder"
}

# rust_for TARGET: sets `rust_words`, what stands before a cargo that builds for it. Where it cannot, sets `why_not` and fails. Where core has to
# be made, that takes half a minute, once for each rustc.
rust_for() {
  local folder
  choose_rustc "$1" || return 1
  rust_words=(env "RUSTC=$chosen")
  ! has_core "$chosen" "$1" || return 0
  # Two compilers of one version may differ; what they say of themselves tells them apart.
  folder=$PWD/rust/target/core/$1-$its_version-$("$chosen" -vV | cksum | cut -d ' ' -f 1)
  mkdir -p rust/target/core
  if [ ! -d "$folder" ] && ! make_core "$chosen" "$1" "$folder" > rust/target/core/log 2>&1; then
    why_not="rustc $its_version does not compile its core for $1 (rust/target/core/log tells)"
    return 1
  fi
  rust_words+=("CARGO_ENCODED_RUSTFLAGS=--sysroot"$'\x1f'"$folder")
}
