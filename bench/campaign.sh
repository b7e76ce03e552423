#!/usr/bin/env bash
# Cases a second of bin/cheri_campaign, and runs a second with --sample, with one job and with four. Not a part of the gate.
set -euo pipefail
top=$(cd "$(dirname "$0")/.." && pwd)
work=$(mktemp -d)
trap 'rm -rf "$work"' EXIT
for jobs in 1 4; do
  start=$(date +%s%N)
  "$top/bin/cheri_campaign" "$top/examples/lost_update.lst" --orders 400 --seed 5 --jobs $jobs --out "$work/$jobs" >/dev/null
  awk -v jobs=$jobs -v span=$(($(date +%s%N) - start)) 'BEGIN { printf "%d jobs: %.1f cases a second\n", jobs, 4e11 / span }'
  start=$(date +%s%N)
  "$top/bin/cheri_campaign" "$top/examples/lost_update.lst" --sample --orders 4000000 --seed 5 --jobs $jobs --out "$work/s$jobs" >/dev/null
  awk -v jobs=$jobs -v span=$(($(date +%s%N) - start)) 'BEGIN { printf "%d jobs: %.0f runs a second\n", jobs, 4e15 / span }'
done
