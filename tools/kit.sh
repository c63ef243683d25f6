# What ./arin, ./test and tools/c_tests.sh share: the kit, and how an x86-64 program runs on this machine. The caller sets `who`, its
# own name.

need_kit() {
  if ! command -v rt > /dev/null 2>&1; then
    echo "$who: the Rattle kit is missing: there is no command 'rt' on the PATH" >&2
    exit 2
  fi
}

# The folder of the kit's tools, with bin/ and lib/.
kit_tools() {
  echo "$(dirname "$(dirname "$(readlink -f "$(command -v rt)")")")/toolchain"
}

# The words that stand before a program to run it: the kit's loader with its C library.
runner() {
  local machine tools
  machine=$(uname -m)
  tools=$(kit_tools)
  if [ "$machine" != x86_64 ]; then
    echo "$who: programs are for x86-64, and this machine is $machine" >&2
    exit 2
  fi
  echo "$tools/lib/ld-linux-x86-64.so.2 --library-path $tools/lib"
}

# Where rt leaves a program that it built.
built() {
  echo "crates/$1/out/$1"
}
