#!/usr/bin/env bash
# Instructions per call, of the library and of the model: valgrind counts one pass over the inputs and two, and the difference is divided
# by the calls of a pass. A word selects calls by name. It does not depend on what else the machine does. Below stand answers from a summary against
# answers from the list, both of the library.
set -euo pipefail
cd "$(dirname "$0")/../rust"

for tool in valgrind cargo; do
  if ! command -v "$tool" > /dev/null 2>&1; then
    echo "instructions: skipped, there is no $tool on this machine"
    exit 0
  fi
done

program=$(cargo bench --offline --bench calls --no-run 2>&1 | sed -n 's/^ *Executable .*(\(.*\))$/\1/p')
if [ ! -x "$program" ]; then
  echo "instructions: the benchmark does not build (cargo bench --offline --no-run tells)" >&2
  exit 1
fi
log=$(mktemp)
trap 'rm -f "$log"' EXIT

# Prints the instructions of a whole run, then the calls it made.
run() {
  local calls
  calls=$(valgrind --tool=callgrind --callgrind-out-file=/dev/null --log-file="$log" "$program" --count "$1" "$2" "$3")
  echo "$(sed -n 's/.*Collected : \([0-9]*\)$/\1/p' "$log") $calls"
}

# Per call, without what the program does before and after the passes.
per_call() {
  local one two
  one=$(run "$1" "$2" 1)
  two=$(run "$1" "$2" 2)
  echo "$one $two" | awk '{ printf "%.2f", ($3 - $1) / ($4 - $2) }'
}

echo "| call | library | model | library / model |"
echo "|---|--:|--:|--:|"
loop=0
copies=0
table=$("$program" --list)
while IFS= read -r name; do
  case "$name" in
    "("*) ;;
    *"${1:-}"*) ;;
    *) continue ;;
  esac
  library=$(per_call "$name" library)
  model=$(per_call "$name" model)
  case "$name" in
    "(loop"*) loop=$library ;;
    "("*) copies=$library ;;
  esac
  case "$name" in
    arin_set_up | arin_attach | arin_advertise | arin_request | arin_detach | arin_remaining) less=$copies ;;
    "("*) less=0 ;;
    *) less=$loop ;;
  esac
  echo "$name|$library|$model|$less"
done <<< "$table" | awk -F '|' '
  function round(x) { return sprintf("%.1f", x) }
  {
    library = $2 - $4; model = $3 - $4
    if ($1 ~ /^\(/) { print "| " $1 " | " round(library) " | " round(model) " | |"; next }
    ratio = (model > 0) ? library / model : 1
    print "| " $1 " | " round(library) " | " round(model) " | " sprintf("%.2f", ratio) " |"
    fflush()
    counted++
    if (ratio <= 1.10) within++
    if (ratio > worst) { worst = ratio; name = $1 }
  }
  END { printf "\n%d of %d calls are within 1.10 of the model; the worst ratio is %.2f (%s).\n", within, counted, worst, name }'

echo
echo "| answered by | from the summary | from the list | summary / list |"
echo "|---|--:|--:|--:|"
loop=$(per_call "(loop and an empty call)" library)
ways=$("$program" --list-ways)
while IFS= read -r name; do
  case "$name" in *"${1:-}"*) ;; *) continue ;; esac
  echo "$name|$(per_call "$name" library)|$(per_call "$name" model)|$loop"
done <<< "$ways" | awk -F '|' '{ printf "| %s | %.1f | %.1f | %.2f |\n", $1, $2 - $4, $3 - $4, ($2 - $4) / ($3 - $4) }'
