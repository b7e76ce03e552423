"""Compares the Python module with vectors of whole steps.

    steps.py FILE..

The module is found by PYTHONPATH. Takes the checks and the jumps of each row by calls of the module,
and the results of the instructions that make a capability. Prints each difference and, last, the
counts; ends with 0 where no row differs and each file is whole.
"""

from __future__ import annotations

import sys
from typing import List, NamedTuple, Optional

from cheri_caps import Capability, Jumped, Trap

HALF = (1 << 64) - 1
CODE_BASE, RAM_BASE = 0x10000000, 0x80000000
LOADS = {"lb": 1, "lbu": 1, "lh": 2, "lhu": 2, "lw": 4, "lwu": 4, "ld": 8}
STORES = {"sb": 1, "sh": 2, "sw": 4, "sd": 8}
UNARY = {"cmove": lambda v: v, "ccleartag": Capability.clear_tag, "csealentry": Capability.seal_entry}
OF_NUMBERS = {
    "csetaddr": "set_address", "cincoffset": "inc_offset", "csetbounds": "set_bounds",
    "csetboundsexact": "set_bounds_exact", "candperm": "and_perms", "csetflags": "set_flags",
    "csethigh": "set_high",
}
OF_IMMEDIATES = {"cincoffsetimm": "inc_offset", "csetboundsimm": "set_bounds"}
OF_VALUES = {"cseal": "seal", "cunseal": "unseal", "cbuildcap": "build"}


class Step(NamedTuple):
    """What is known of a step: its trap, its result, and where it jumps to."""

    trap: Optional[Trap] = None
    result: Optional[Capability] = None
    pcc: Optional[Capability] = None


def capability(words: List[str]) -> Capability:
    return Capability(int(words[1], 16) << 64 | int(words[2], 16), words[0] == "1")


def taken(name: str, a: int, b: int) -> bool:
    less = (a ^ 1 << 63) < (b ^ 1 << 63)
    return {
        "cjal": True, "beq": a == b, "bne": a != b, "blt": less, "bge": not less, "bltu": a < b,
        "bgeu": a >= b,
    }.get(name, False)


def jumped(made: object) -> Step:
    return Step(made) if isinstance(made, Trap) else Step(None, made.left, made.pcc)


class Row:
    """A row's fields."""

    def __init__(self, line: str) -> None:
        fields = line.split(" ")
        assert fields[0] == "step" and len(fields) == 34, line
        self.name = fields[2]
        self.cd, self.c1, self.c2, self.imm, code, granules = (int(f, 16) for f in fields[3:9])
        self.pcc, self.first, self.second = (capability(fields[i:]) for i in (9, 12, 15))
        self.code = range(CODE_BASE, CODE_BASE + 4 * code)
        self.memory = range(RAM_BASE, RAM_BASE + 16 * granules)
        self.outcome, cause, register = (int(f, 16) for f in fields[22:25])
        self.trap = Trap(cause, register) if cause else None
        self.result, self.after = capability(fields[25:]), capability(fields[28:])

    def access(self) -> Optional[Trap]:
        """The first check that fails of an access."""
        first, memory = self.first, self.memory
        address = (first.address + self.imm) & HALF
        if self.name in LOADS:
            return first.check_load(LOADS[self.name], memory, address, self.c1)
        if self.name in STORES:
            return first.check_store(STORES[self.name], memory, address, self.c1)
        if self.name == "lc":
            return first.check_load_cap(memory, address, self.c1)
        if self.name == "sc":
            return first.check_store_cap(self.second, memory, address, self.c1)
        return first.check_swap(self.second, memory, register=self.c1) if self.name == "amoswap.c" else None

    def jump(self) -> Step:
        if self.name == "cjalr":
            assert (self.first.check_jump(self.imm, self.c1) is None) == isinstance(
                self.pcc.jump(self.first, self.imm, self.c1), Jumped)
            return jumped(self.pcc.jump(self.first, self.imm, self.c1))
        if self.name == "cinvoke":
            made = self.first.invoke(self.second, self.c1, self.c2)
            assert self.first.check_invoke(self.second, self.c1, self.c2) == (
                made if isinstance(made, Trap) else None)
            return jumped(made)
        if taken(self.name, self.first.address, self.second.address):
            target = CODE_BASE + 4 * self.imm
            trap = self.pcc.check_branch(target)
            link = self.pcc.inc_offset(4).seal_entry() if self.name == "cjal" else None
            return Step(trap) if trap else Step(None, link, self.pcc.set_address(target))
        return Step()

    def value(self) -> Optional[Capability]:
        """The result of an instruction that makes a capability."""
        name, first, second = self.name, self.first, self.second
        if name in UNARY:
            return UNARY[name](first)
        if name in OF_NUMBERS:
            return getattr(first, OF_NUMBERS[name])(second.address)
        if name in OF_IMMEDIATES:
            return getattr(first, OF_IMMEDIATES[name])(self.imm)
        return getattr(first, OF_VALUES[name])(second) if name in OF_VALUES else None

    def step(self) -> Step:
        trap = self.pcc.check_fetch(self.code) or self.access()
        if trap:
            return Step(trap)
        step = self.jump()
        return step if step != Step() else Step(None, self.value())

    def agrees(self) -> bool:
        step = self.step()
        if step.trap != self.trap or (self.outcome == 2) != (step.trap is not None):
            return False
        if self.outcome != 0:
            return self.after == self.pcc
        if step.result is not None and self.cd != 0 and step.result != self.result:
            return False
        return self.after == (step.pcc or self.pcc.inc_offset(4))


def read_rows(name: str) -> List[str]:
    """The rows of a file of vectors, which must be whole."""
    lines = open(name, encoding="ascii").read().split("\n")
    assert lines[0] == "cheri-steps vectors 1" and lines[-2:] == ["end", ""], f"{name} is not whole"
    lines = [line for line in lines[1:-2] if not line.startswith("#")]
    assert lines[0] == f"rows {len(lines) - 1}", f"{name} is not whole"
    return lines[1:]


def main() -> int:
    rows = [row for name in sys.argv[1:] for row in read_rows(name)]
    differ = 0
    for row in rows:
        if not Row(row).agrees():
            differ += 1
            print(row)
    print(f"{len(rows)} rows, {differ} differ")
    return 0 if rows and differ == 0 else 1


if __name__ == "__main__":
    sys.exit(main())
