#!/usr/bin/env bash
# What assembling costs: a good file of 1 MiB, of 16,000 instructions without memory operands, lines .word and comments.
# Not a part of the gate. Prints the least of nine wall times and the peak memory, of cheri_asm and of GNU as on the same
# file where it is there, which writes an object file and links nothing.
set -euo pipefail
top=$(cd "$(dirname "$0")/.." && pwd)
program=${1:-$("$top/bin/.start" --path cheri_asm)}
work=$(mktemp -d)
trap 'rm -rf "$work"' EXIT

python3 - "$work/big.s" <<'END_OF_SCRIPT'
import sys
plain = ["addi a0, a0, 5", "slli t0, s1, 12", "xor a4, a5, a6", "li a2, 100", "mv s2, a0", "bnez a1, .L{0}", "and t3, t4, t5"]
lines = ["\t.text", "\t.globl main", "main:"]
for number in range(16000):
    if number % 16 == 0:
        lines.append(f".L{number // 16}:                                 # %for.body")
    lines.append("\t" + plain[number % len(plain)].format(number // 16) + "                   # line of code")
lines += ["\t.data", "numbers:"]
size = sum(map(len, lines)) + len(lines)
number = 0
while size < (1 << 20) - 40:
    lines.append(f"\t.word {number}, {number * 7}" if number % 3 else f"# a comment of its own, number {number}")
    size += len(lines[-1]) + 1
    number += 1
open(sys.argv[1], "w").write("\n".join(lines) + "\n")
END_OF_SCRIPT

# measure NAME COMMAND..: the least time of nine runs and the most memory
measure() {
  python3 - "$@" <<'END_OF_SCRIPT'
import resource, subprocess, sys, time
times = []
for _ in range(9):
    begun = time.perf_counter()
    subprocess.run(sys.argv[2:], stdout=subprocess.DEVNULL, check=True)
    times.append(time.perf_counter() - begun)
used = resource.getrusage(resource.RUSAGE_CHILDREN).ru_maxrss
print(f"{sys.argv[1]}: {min(times):.3f} s, {used / 1024:.0f} MB")
END_OF_SCRIPT
}

echo "a file of $(stat -c %s "$work/big.s") bytes"
measure cheri_asm "$program" "$work/big.s"
measure 'cheri_asm --map' "$program" "$work/big.s" --map
if command -v riscv64-linux-gnu-as >/dev/null; then
  measure 'GNU as' riscv64-linux-gnu-as -march=rv64i -mno-relax "$work/big.s" -o "$work/big.o"
fi
