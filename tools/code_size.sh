#!/usr/bin/env bash
# The code that firmware gets, in bytes with its constants: what the linker keeps when one call alone is wanted, and all of them, for
# opt-level 3 and for opt-level s, of the library and of the plain model. It is the code of this machine's kind of CPU.
set -euo pipefail
cd "$(dirname "$0")/../rust"

for tool in cargo cc ar size nm; do
  if ! command -v "$tool" > /dev/null 2>&1; then
    echo "code_size: skipped, there is no $tool on this machine"
    exit 0
  fi
done
made=$(mktemp -d)
trap 'rm -rf "$made"' EXIT
targets=$PWD/target

calls="arin_default_profile arin_build arin_check arin_shape arin_read arin_write arin_answer
arin_summarize arin_take_request arin_answer_summary
arin_sink_shape arin_sink_read arin_sink_write arin_sink_check
arin_read_message arin_take_message arin_write_message
arin_set_up arin_attach arin_advertise arin_request arin_detach arin_remaining"

# own_object SIDE ARCHIVE CALL: an archive has the compiler's support code too; the object that is measured is the one that defines the calls.
own_object() {
  mkdir -p "$made/$1"
  cp "$2" "$made/$1/library.a"
  (cd "$made/$1" && ar x library.a)
  local object own
  for object in "$made/$1"/*.o; do
    if nm --defined-only "$object" 2> /dev/null | grep -q " T $3\$"; then
      own=$object
    fi
  done
  mv "$own" "$made/$1/own.o"
}

build() {
  CARGO_PROFILE_RELEASE_OPT_LEVEL=$1 cargo build --release --offline --quiet -p arinduleu-c -p model-c --target-dir "$targets/size-$1"
  own_object "library-$1" "$targets/size-$1/release/libarinduleu_c.a" arin_build
  own_object "model-$1" "$targets/size-$1/release/libmodel_c.a" model_build
}

# memcpy and memset are the firmware's own, wherever the compiler calls for them.
keep() {
  local side=$made/$1
  shift
  local wanted=("${@/#/-Wl,-u,}")
  cc -nostdlib -static -Wl,--gc-sections -Wl,--unresolved-symbols=ignore-all -Wl,-e,"$1" "${wanted[@]}" \
    -o "$side/kept" "$side/own.o" "$side/library.a"
  size -A "$side/kept" | awk '$1 ~ /^\.(text|rodata)/ { sum += $2 } END { printf "%d", sum }'
}

line() {
  local name=$1
  shift
  local model=("${@/#arin_/model_}")
  echo "| $name | $(keep library-3 "$@") | $(keep model-3 "${model[@]}") | $(keep library-s "$@") | $(keep model-s "${model[@]}") |"
}

build 3
build s
echo "| call | library, opt-level 3 | model, opt-level 3 | library, opt-level s | model, opt-level s |"
echo "|---|--:|--:|--:|--:|"
for call in $calls; do line "$call alone" "$call"; done
# shellcheck disable=SC2086
line "all twenty-three" $calls
