"""read_steps.py FILE: compares the traps of fetches, data loads, jumps and invocations in a file of step vectors with the
Python module, and prints the number of each row that differs. To test your own code, call it in place of the module."""

import sys

from cheri_caps import Capability, Trap

LOADS = {"lb": 1, "lbu": 1, "lh": 2, "lhu": 2, "lw": 4, "lwu": 4, "ld": 8}


def trap_of(name, n):
    """The trap that a row's step is, None for none, or False where this example doesn't look."""
    pcc, first, second = (Capability(n[i + 1] << 64 | n[i + 2], n[i] == 1) for i in (6, 9, 12))
    trap = pcc.check_fetch(range(0x10000000, 0x10000000 + 4 * n[4]))
    if trap:
        return trap
    if name in LOADS:
        memory = range(0x80000000, 0x80000000 + 16 * n[5])
        return first.check_load(LOADS[name], memory, (first.address + n[3]) % 2**64, n[1])
    if name == "cjalr":
        return first.check_jump(n[3], n[1])
    return first.check_invoke(second, n[1], n[2]) if name == "cinvoke" else False


with open(sys.argv[1], encoding="ascii") as file:
    lines = file.read().splitlines()
compared = differ = 0
for number, name, *texts in (line.split()[1:] for line in lines if line.startswith("step ")):
    n = [int(text, 16) for text in texts]
    found = trap_of(name, n)
    if found is not False:
        compared += 1
        if found != (Trap(n[20], n[21]) if n[20] else None):
            differ += 1
            print(f"row {number} differs")
print(f"{compared} rows compared, {differ} differ")
sys.exit(lines[-1] != "end" or differ != 0)
