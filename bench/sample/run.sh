#!/usr/bin/env bash
# run.sh [RUNS]: runs a second of `cheri_explore sample` on one core, beside plain.cpp, a loop in C++ without a proof that does the
# same; median of RUNS (5) pairs in turn. Both must count the same: it ends with 1 where they don't. The jobs:
#   update     the two harts of the gallery's lost_update.lst
#   lock       a lock of four harts that count up until each has taken some hundred steps
#   memory     lost_update.lst with 1,048,576 bytes of memory
# each by the walk and by priorities of depth 3. Needs a C++ compiler (CXX, else c++). Not a part of the gate.
set -euo pipefail
top=$(cd "$(dirname "$0")/../.." && pwd)
program=$("$top/bin/.start" --path cheri_explore)
pairs=${1:-5}
work=$(mktemp -d)
trap 'rm -rf "$work"' EXIT
"${CXX:-c++}" -std=c++17 -O2 -o "$work/plain" "$top/bench/sample/plain.cpp"

grep -v '^ *#' "$top/examples/lost_update.lst" >"$work/update.lst"
{ echo .ram 1048576; cat "$work/update.lst"; } >"$work/memory.lst"
{
  for _ in 1 2 3 4; do
    printf '%s\n' '.hart 0x10000000 40 0x10000000 execute' '.set c5 cap 0x80000000 32 0x80000000 load+store' '.set c6 int 1' \
      '.set c9 int 25'
  done
  printf '%s\n' take: 'amoswap.c c7, c6, c5' 'bne c7, c0, take' 'ld c8, 16(c5)' 'addi c8, c8, 1' 'sd c8, 16(c5)' 'sc c0, 0(c5)' \
    'addi c9, c9, -1' 'bne c9, c0, take' ecall
} >"$work/lock.lst"

# counts: an answer's counts, without its states and orders
counts() {
  sed -nE 's/ order=.*//; s/^runs ([0-9]+) .*longest=/runs \1 longest=/
    /^(runs|cut|hung|traps|trap|outcomes|outcome) /p'
}

# seconds WORD..: how long a command takes; what it prints goes to the file out
seconds() {
  local begun
  begun=$(date +%s%N)
  "$@" >"$work/out"
  awk -v span=$(($(date +%s%N) - begun)) 'BEGIN { print span / 1e9 }'
}

# median: of the numbers that are read
median() {
  sort -g | awk '{ at[NR] = $1 } END { print at[int((NR + 1) / 2)] }'
}

# job NAME RUNS LENGTH [DEPTH]: a line of the table
job() {
  local words=("$work/$1.lst" --orders "$2" --seed 1 --length "$3") ours=() theirs=()
  [ $# -lt 4 ] || words+=(--depth "$4")
  for ((pair = 0; pair < pairs; pair++)); do
    ours+=("$(seconds "$program" sample "${words[@]}" --jobs 1)")
    counts <"$work/out" >"$work/ours"
    theirs+=("$(seconds "$work/plain" "${words[@]}")")
    counts <"$work/out" >"$work/theirs"
    cmp "$work/ours" "$work/theirs" || { echo "run.sh: $1 counts otherwise" >&2; exit 1; }
  done
  awk -v name="$1${4:+, depth $4}" -v runs="$2" -v ours="$(printf '%s\n' "${ours[@]}" | median)" \
    -v theirs="$(printf '%s\n' "${theirs[@]}" | median)" -v longest="$(sed -n 's/.*longest=//p' "$work/ours")" 'BEGIN {
      printf "%-18s %8d %8d %12.0f %12.0f %8.2f\n", name, runs, longest, runs / ours, runs / theirs, ours / theirs }'
}

printf '%-18s %8s %8s %12s %12s %8s\n' job runs longest runs/s plain ratio
job update 400000 1000
job update 400000 8 3
job lock 4000 2000
job lock 4000 1000 3
job memory 400000 1000
job memory 400000 8 3
