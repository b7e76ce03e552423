#!/usr/bin/env bash
# What one step costs, by the kind of its instructions. Not a part of the gate.
# Each program is a loop that one hart runs for 100,000 steps; the time of a run of 100 steps, which reads, starts and
# reports the same, is taken off. So each number has the step and its line of the report in it.
#   integers  additions, shifts and comparisons
#   values    bounds, addresses and permissions of capabilities
#   memory    loads and stores of numbers and capabilities
#   calls     calls through a sentry and back
set -euo pipefail
top=$(cd "$(dirname "$0")/.." && pwd)
program=${1:-$("$top/bin/.start" --path cheri_sim)}
work=$(mktemp -d)
trap 'rm -rf "$work"' EXIT

hart='.hart 0x10000000 65536 0x10000000 execute+load'
data='.set c5 cap 0x80000000 4096 0x80000000 all'
printf '%s\n' "$hart" 'loop:' 'addi c6, c6, 3' 'slli c7, c6, 5' 'xor c8, c7, c6' 'sltu c9, c6, c8' \
  'subw c10, c8, c7' 'sraw c11, c8, c9' 'bne c6, c0, loop' >"$work/integers.lst"
printf '%s\n' "$hart" "$data" 'addi c6, c0, 64' 'loop:' 'csetbounds c7, c5, c6' 'cincoffsetimm c8, c7, 16' \
  'csetaddr c9, c7, c8' 'candperm c10, c9, c6' 'cgetlen c11, c10' 'csetboundsimm c12, c5, 100' 'beq c0, c0, loop' \
  >"$work/values.lst"
printf '%s\n' "$hart" "$data" 'loop:' 'sd c6, 0(c5)' 'ld c7, 0(c5)' 'sc c5, 16(c5)' 'lc c8, 16(c5)' 'sb c6, 33(c5)' \
  'lbu c9, 33(c5)' 'beq c0, c0, loop' >"$work/memory.lst"
printf '%s\n' "$hart" '.set c5 cap 0x10000000 65536 0x10000008 all sentry' 'loop:' 'cjalr c1, 0(c5)' 'cjal c0, loop' \
  'addi c6, c6, 1' 'cjalr c0, 0(c1)' >"$work/calls.lst"

zeros() { printf '0%.0s' $(seq "$1"); }
zeros 100 >"$work/few.txt"
zeros 100000 >"$work/many.txt"

# least LISTING ORDER: the least of seven wall times of a run, in microseconds
least() {
  local least=0 begun micros
  for _ in 1 2 3 4 5 6 7; do
    begun=$(date +%s%N)
    "$program" run "$1" --order "$2" >/dev/null
    micros=$((($(date +%s%N) - begun) / 1000))
    if [ "$least" -eq 0 ] || [ "$micros" -lt "$least" ]; then least=$micros; fi
  done
  echo "$least"
}

# A loop must still run at its last step: a hart that stops earlier would make its steps look cheap.
for kind in integers values memory calls; do
  listing=$work/$kind.lst
  "$program" run "$listing" --order "$work/many.txt" >"$work/report.txt" || {
    echo "the loop of $kind stopped before its last step" >&2
    exit 1
  }
  many=$(least "$listing" "$work/many.txt")
  few=$(least "$listing" "$work/few.txt")
  echo "$kind: $(((many - few) * 1000 / 99900)) ns"
done
