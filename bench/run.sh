#!/usr/bin/env bash
# Wall time and peak memory of the built program at its limits. Not a part of the gate.
#   empty    the largest program (16,384 instructions, 8 harts) and an empty order: reading and reporting
#   steps    the same with an order of 100,000 steps; the difference is what a step and its line of the report cost
#   racing   eight harts, 12,500 turns each, in threads
#   replay   the order that one of those races took, on one thread
#   listing  a check of a listing of 1,048,576 bytes
#   labels   the same with 16,384 jumps by 16,000 labels and long comments
#   bounds   one line: what starting the program costs
set -euo pipefail
top=$(cd "$(dirname "$0")/.." && pwd)
program=$("$top/bin/.start" --path cheri_sim)
work=$(mktemp -d)
trap 'rm -rf "$work"' EXIT

harts() {
  for _ in 1 2 3 4 5 6 7 8; do
    echo ".hart 0x10000000 65536 0x10000000 execute+load"
    echo ".set c5 cap 0x80000000 4096 0x80000000 load+store"
  done
}
{
  harts
  for _ in $(seq 4096); do
    printf 'addi c6, c6, 1\ncsetbounds c7, c5, c6\ncgetlen c8, c7\naddi c9, c8, -1\n'
  done
} >"$work/large.lst"
: >"$work/empty.txt"
printf '01234567%.0s' $(seq 12500) >"$work/steps.txt"
{
  cat "$work/large.lst"
  yes '# a comment that fills the listing to the greatest size that it may have' | head -c 1048576 || true
} | head -c 1048576 >"$work/listing.lst" || true
awk 'BEGIN {
  print ".hart 0x10000000 65536 0x10000000 execute"
  for (i = 0; i < 16384; i++) {
    if (i < 16000) printf "label_%05d:\n", i
    printf "cjal c1, label_%05d # a comment after the jump\n", (i * 7919) % 16000
  }
  for (i = 0; i < 1048576; i++) printf "#"
}' | head -c 1048576 >"$work/labels.lst" || true

# measure NAME WORD..: the median of fifteen wall times, in microseconds, and the peak memory
measure() {
  local name=$1 times='' begun median memory
  shift
  for _ in $(seq 15); do
    begun=$(date +%s%N)
    "$program" "$@" >/dev/null
    times+="$((($(date +%s%N) - begun) / 1000))"$'\n'
  done
  median=$(printf '%s' "$times" | sort -n | sed -n 8p)
  memory=$(/usr/bin/time -f '%M' "$program" "$@" 2>&1 >/dev/null | tail -1)
  echo "$name: $median us, $memory KB"
  eval "$name=$median"
}

measure bounds bounds 0 1
measure empty run "$work/large.lst" --order "$work/empty.txt"
measure steps run "$work/large.lst" --order "$work/steps.txt"
measure racing race "$work/large.lst" --turns 12500
"$program" race "$work/large.lst" --turns 12500 >"$work/raced.txt"
sed -n 's/^[0-9]* hart=\([0-7]\) .*/\1/p' "$work/raced.txt" | tr -d '\n' >"$work/raced_order.txt"
"$program" run "$work/large.lst" --order "$work/raced_order.txt" | cmp - "$work/raced.txt"
measure replay run "$work/large.lst" --order "$work/raced_order.txt"
measure listing check "$work/listing.lst"
measure labels check "$work/labels.lst"
echo "a step and its line: $(((steps - empty) / 100)) ns"
echo "a race to its replay: $((racing * 100 / replay)) percent"
