"""Dead registers: those that nobody reads again before they are written.

For each instruction there is a set of registers that matter before it.  All others are set to
null, so that states which differ in nothing else are one.  The sets are guessed by going round
until nothing changes, and then checked instruction by instruction: only the check must be right.
"""

from __future__ import annotations

from typing import Iterable

import values as v
from machine import (
    ACCESSES, BRANCHES, CODE_BASE, LOADS, NULL, RUNNING, STORES, Hart, Instruction,
)

Registers = frozenset[int]
NONE: Registers = frozenset()


def written_by(instr: Instruction) -> int:
    """The register that an instruction writes; 0 if none."""
    return 31 if instr.name == "cinvoke" else instr.cd


def only_computes(instr: Instruction) -> bool:
    """Whether its register is all that the instruction is for: it asks for no memory, it can't
    trap and doesn't jump."""
    return (instr.name not in ACCESSES and instr.name not in BRANCHES
            and instr.name not in ("ecall", "cjal", "cjalr", "cinvoke"))


def read_by(instr: Instruction) -> Registers:
    """The registers that an instruction looks at."""
    if instr.name in LOADS or instr.name == "cjalr":
        return frozenset({instr.c1})
    if instr.name in STORES or instr.name in BRANCHES or instr.name in ("amoswap.c", "cinvoke"):
        return frozenset({instr.c1, instr.c2})
    if instr.name in ("ecall", "cjal", "lui", "auipcc"):
        return NONE
    # An operand that an instruction hasn't is 0 here, and c0 is always null.
    return frozenset({instr.c1, instr.c2})


def after(program: tuple[Instruction, ...], number: int) -> Iterable[int]:
    """The instructions that can come next.  A jump through a capability may lead anywhere."""
    instr = program[number]
    if instr.name == "ecall":
        return ()
    if instr.name in ("cjalr", "cinvoke"):
        return range(len(program))
    if instr.name == "cjal":
        return (instr.imm,)
    return (instr.imm, number + 1) if instr.name in BRANCHES else (number + 1,)


class Live:
    """What matters before each instruction, and what is seen of a hart that has stopped."""

    def __init__(self, program: tuple[Instruction, ...], seen: Registers):
        self.program, self.seen = program, seen
        self.sets: list[Registers] = [seen] * len(program)

    def at(self, number: int) -> Registers:
        """Where there is no instruction the fetch traps, and the hart stops."""
        return self.sets[number] if 0 <= number < len(self.sets) else self.seen

    def needed(self, number: int) -> Registers:
        """What must matter before an instruction if the sets of those after it are right."""
        instr = self.program[number]
        later = frozenset().union(*(self.at(there) for there in after(self.program, number)))
        into = written_by(instr)
        reads = NONE if only_computes(instr) and into not in later else read_by(instr)
        # The step may trap before it writes, and then what is seen stays as it was.
        return (self.seen | reads | later - {into}) - {0}

    def guess(self) -> "Live":
        while True:
            before = list(self.sets)
            for number in reversed(range(len(self.sets))):
                self.sets[number] |= self.needed(number)
            if self.sets == before:
                return self

    def is_right(self) -> bool:
        """The check: no instruction needs what is forgotten before it."""
        return all(self.needed(number) <= self.sets[number] and self.seen <= self.sets[number]
                   for number in range(len(self.sets)))

    def of(self, hart: Hart) -> Registers:
        if hart.status != RUNNING:
            return self.seen
        pc = v.address_of(hart.pcc)
        return self.at((pc - CODE_BASE) // 4) if pc % 4 == 0 else self.seen

    def forget(self, hart: Hart) -> Hart:
        keeps = self.of(hart)
        return hart._replace(regs=tuple(value if number in keeps else NULL
                                        for number, value in enumerate(hart.regs)))


def live_registers(program: tuple[Instruction, ...], seen: Registers) -> Live:
    live = Live(program, seen - {0}).guess()
    assert live.is_right()
    return live
