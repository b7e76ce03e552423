#!/usr/bin/env bash
# found.sh [N [SEED]]: in how many of N runs (2000) of a seed (0) `cheri_explore sample` has each known bug of the gallery: by the
# walk, and by priorities of depth 2 and 3. The bugs are those of docs/EXPLORING.md, whose table this is. In the rows 'late' the last
# hart takes 41 steps of its own first, which touch nothing that others see. Not a part of the gate.
set -euo pipefail
top=$(cd "$(dirname "$0")/../.." && pwd)
program=$("$top/bin/.start" --path cheri_explore)
orders=${1:-2000} seed=${2:-0}
work=$(mktemp -d)
trap 'rm -rf "$work"' EXIT

# late: the listing that is read, in which the last hart begins with 40 additions to a register of its own behind the program,
# and then jumps to where it began
late() {
  local line lines=() code=0 harts=0 word hart=0 start=0
  while IFS= read -r line; do
    lines+=("$line")
    case $line in .hart*) harts=$((harts + 1)) ;; .* | *:) ;; *) code=$((code + 1)) ;; esac
  done
  for line in "${lines[@]}"; do
    if [[ $line == .hart* ]]; then
      read -ra word <<<"$line"
      word[2]=$((word[2] + 4 * 41))
      if [ $((++hart)) -eq "$harts" ]; then
        start=$(((word[3] - 0x10000000) / 4))
        word[3]=$((0x10000000 + 4 * code))
      fi
      line=${word[*]}
    fi
    echo "$line"
  done
  yes 'addi c20, c20, 1' | head -n 40 || true
  echo "beq c0, c0, @$start"
}

# count WORD..: in how many runs of the listing 'it' the bug is
count() {
  "$program" sample "$work/it" --orders "$orders" --seed "$seed" --length "$steps" --check --show 0.status "$@" 2>/dev/null |
    awk -v property="$property" '
      property == "hung" && $1 == "hung" || property != "hung" && $1 == "line" && $3 == "violated" {
        for (i = 2; i <= 4; i++) if (sub(/^runs=/, "", $i)) found = $i }
      END { print found + 0 }'
}

# row NAME: a line of the table
row() {
  if [ "$property" = hung ]; then echo '#! ends'; else echo "#! never $property"; fi >>"$work/it"
  printf '%-28s %4s %8s %8s %8s\n' "$1" "$steps" "$(count)" "$(count --depth 2)" "$(count --depth 3)"
}

printf '%-28s %4s %8s %8s %8s\n' program K walk depth=2 depth=3
while IFS='|' read -r name length property; do
  for form in '' ' late'; do
    grep -v '^ *#' "$top/examples/$name.lst" >"$work/it"
    steps=$length
    if [ -n "$form" ]; then
      steps=$((length + 45))
      late <"$work/it" >"$work/late"
      mv "$work/late" "$work/it"
    fi
    row "$name$form"
  done
done <<'END'
lost_update|8|all harts are halted and mem8[0x80000000] = 1
broken_lock|24|all harts are halted and mem8[0x80000010] = 1
broken_readers_writers|60|any hart in read..done and any hart in write..end
broken_sequence_lock|40|1 at done and 1.c10 != 1.c11
aba|40|1.c11 = 2 and mem8[0x80000010] = 2
missed_wakeup|40|hung
END
