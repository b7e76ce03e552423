"""Listings by chance: a few short programs that share memory, with conditions and properties.

What the reductions are about comes often: registers that are written again or only counted with,
granules of one hart, harts with equal images, and sweeps.

c5 reaches the granule that all contend for, c6 a granule of the hart's own, c7 all of RAM; c8 to
c10 are numbers, c11 to c14 capabilities and words, c15 seals, c16 and c17 are for jumps.
"""

from __future__ import annotations

import random
from typing import Optional

import values as v
from listing import write_listing
from machine import (
    BRANCHES, CAUSES, CODE_BASE, GRANULE, NULL, RAM_BASE, Hart, Image, Instruction,
)

DATA = v.GLOBAL | v.LOAD | v.STORE | v.LOAD_CAP | v.STORE_CAP | v.STORE_LOCAL
NUMBERS = (8, 9, 10)
HELD = (11, 12, 13, 14)


def capability(base: int, length: int, perms: int, address: Optional[int] = None,
               otype: int = v.UNSEALED) -> v.Value:
    word = v.lawful_word(base, length, base if address is None else address, perms, otype)
    assert word is not None
    return 1, word


class Maker:
    def __init__(self, rng: random.Random):
        self.rng = rng
        self.harts = rng.choice([2, 2, 2, 3, 3, 4])
        self.granules = rng.choice([1, 2, 2, 3, 4])
        self.program: list[Instruction] = []

    def place(self) -> int:
        return RAM_BASE + GRANULE * self.rng.randrange(self.granules)

    def some(self, perms: int) -> int:
        return perms & ~self.rng.getrandbits(19) if self.rng.random() < .12 else perms

    def registers(self, own: int) -> tuple[v.Value, ...]:
        rng, ram = self.rng, GRANULE * self.granules
        regs = [NULL] * 32
        regs[5] = capability(RAM_BASE, GRANULE, self.some(DATA))
        regs[6] = capability(RAM_BASE + GRANULE * own, GRANULE, self.some(DATA))
        regs[7] = capability(RAM_BASE, ram, self.some(DATA), self.place())
        for number in NUMBERS:
            regs[number] = (0, rng.choice([0, 1, 1, 2, 3]))
        for number in HELD:
            regs[number] = rng.choice([
                NULL, (0, rng.getrandbits(128)), regs[5], regs[6], regs[7],
                capability(self.place(), GRANULE, DATA & ~v.GLOBAL),
                capability(self.place(), 8, self.some(v.LOAD | v.STORE)),
                capability(RAM_BASE, GRANULE, DATA | v.CINVOKE, otype=3)])
        regs[15] = capability(3, rng.choice([1, 4]), self.some(v.SEAL | v.UNSEAL | v.GLOBAL))
        for number in range(5, 16):
            if rng.random() < .05:
                regs[number] = NULL
        return tuple(regs)

    def jumps(self, regs: tuple[v.Value, ...]) -> tuple[v.Value, ...]:
        """c16 is an entry somewhere in the program, c17 one that is sealed for `cinvoke`."""
        rng, size = self.rng, 4 * len(self.program)
        at = CODE_BASE + 4 * rng.randrange(len(self.program))
        otype = rng.choice([v.UNSEALED, v.SENTRY])
        entry = capability(CODE_BASE, size, v.EXECUTE | v.LOAD, at, otype)
        invoked = capability(CODE_BASE, size, v.EXECUTE | v.CINVOKE, at, 3)
        return (*regs[:16], entry, invoked, *regs[18:])

    def plain(self) -> Instruction:
        """One instruction that doesn't jump."""
        rng, of = self.rng, Instruction
        number, other = rng.choice(NUMBERS), rng.choice((0, *NUMBERS))
        held, into = rng.choice(HELD), rng.choice(HELD)
        to = rng.choice([5, 5, 5, 6, 6, 7])
        kind = rng.randrange(15)
        if kind < 3:
            return of("ld", cd=number, c1=to, imm=rng.choice([0, 0, 8]))
        if kind < 6:
            return of("sd", c2=other, c1=to, imm=rng.choice([0, 0, 8]))
        if kind == 6:
            return of(rng.choice(["lb", "lhu", "lw"]), cd=number, c1=to, imm=rng.choice([0, 4, 1]))
        if kind == 7:
            return of(rng.choice(["sb", "sw"]), c2=other, c1=to, imm=rng.choice([0, 4]))
        if kind == 8:
            return of("lc", cd=rng.choice([*HELD, 6]), c1=to)
        if kind == 9:
            return of("sc", c2=rng.choice([held, held, 0, 6]), c1=to)
        if kind == 10:
            return of("amoswap.c", cd=rng.choice([into, number]), c2=rng.choice([held, other]),
                      c1=to)
        if kind == 11:
            return of("addi", cd=number, c1=rng.choice([number, other]), imm=rng.choice([1, -1]))
        if kind == 12:
            return of(rng.choice(["add", "xor", "sltu"]), cd=number, c1=number, c2=other)
        if kind == 13:
            name = rng.choice(["cmove", "ccleartag", "csealentry", "cgettag", "cgetlen"])
            cd = number if name.startswith("cget") else into
            return of(name, cd=cd, c1=rng.choice([held, 5, 6]))
        name = rng.choice(["cseal", "cunseal", "candperm", "csetaddr", "csetbounds", "cbuildcap",
                           "cincoffsetimm", "csetboundsimm"])
        imm = rng.choice([0, 8, 16]) if name.endswith("imm") else 0
        two = 0 if imm or name.endswith("imm") else 15 if "seal" in name else rng.choice(NUMBERS)
        return of(name, cd=rng.choice([into, into, 6]), c1=rng.choice([held, 5, 6]), c2=two,
                  imm=imm)

    def segment(self, length: int) -> int:
        """One hart's program; gives the number of its first instruction."""
        rng, of, start = self.rng, Instruction, len(self.program)
        body = [self.plain() for _ in range(length)]
        manner = rng.randrange(9)
        if manner < 2:  # a lock, mostly given back
            body = [of("amoswap.c", cd=8, c2=9, c1=5), of("bne", c1=8, c2=0, imm=start),
                    *body[:length - 3], *([of("sc", c2=0, c1=5)] if rng.random() < .8 else [])]
            if rng.random() < .3:  # which counts its tries
                body = [of("addi", cd=10, c1=10, imm=1), *body]
        elif manner == 2:  # waits for a word
            body = [of("ld", cd=8, c1=5), of("beq", c1=8, c2=0, imm=start), *body[:length - 2]]
        elif manner == 3:  # counts down
            first = start + rng.randrange(length)
            body += [of("addi", cd=9, c1=9, imm=-1), of("bne", c1=9, c2=0, imm=first)]
        elif manner == 4:  # goes round
            body.append(of("beq", c1=0, c2=rng.choice([0, 8]),
                           imm=start + rng.randrange(length + 1)))
        elif manner == 5:
            at = rng.randrange(length)
            body[at] = of(rng.choice(list(BRANCHES)), c1=rng.choice(NUMBERS), c2=rng.choice([0, 9]),
                          imm=start + rng.randrange(at, length + 1))
        elif manner == 6:
            jump = of("cjalr", cd=rng.choice([0, 1]), c1=rng.choice([16, 16, 11]))
            body.insert(rng.randrange(length), rng.choice([jump, of("cinvoke", c1=17, c2=11)]))
        self.program += body
        if rng.random() < .9:
            self.program.append(of("ecall"))
        return start

    def image(self) -> Image:
        rng = self.rng
        longest = {2: 7, 3: 5, 4: 3}[self.harts]
        are_equal = rng.random() < .5
        starts, files = [], []
        for hart in range(self.harts):
            if hart and are_equal and rng.random() < .8:
                at = rng.randrange(hart)
                starts.append(starts[at])
                files.append(files[at])
                continue
            starts.append(starts[-1] if starts and rng.random() < .3
                          else self.segment(rng.randint(3, longest)))
            files.append(self.registers(rng.choice([hart % self.granules, 0])))
        size = 4 * len(self.program)
        jumping = {file: self.jumps(file) for file in dict.fromkeys(files)}
        harts = tuple(Hart(jumping[file], capability(CODE_BASE, size, v.EXECUTE | v.GLOBAL,
                                                     CODE_BASE + 4 * start))
                      for file, start in zip(files, starts))
        granules = []
        for number in range(self.granules):
            value = rng.choice([NULL, NULL, (0, 1), (0, rng.getrandbits(128)),
                                rng.choice(files)[rng.choice([5, 6, 11])]])
            if value != NULL and not (number == 0 and rng.random() < .6):
                granules.append((RAM_BASE // GRANULE + number, value))
        return Image(tuple(self.program), GRANULE * self.granules, tuple(granules), harts)


def generate(number: int) -> str:
    rng = random.Random(f"listing {number}")
    lines = write_listing(Maker(rng).image()).rstrip("\n").split("\n")
    first = next(at for at, line in enumerate(lines) if line[0] not in ".")
    for name in ("one", "two"):
        lines.insert(rng.randint(first, len(lines)), f"{name}:")
    return "\n".join(lines) + "\n"


# --------------------------------------------------------------------------
# Conditions, items, sweeps, properties
# --------------------------------------------------------------------------

def some_sweep(image: Image, rng: random.Random) -> str:
    lo = RAM_BASE + GRANULE * rng.randrange(image.ram // GRANULE)
    if rng.random() < .1:
        lo = CODE_BASE
    return f"{lo:#x},{lo + rng.choice([GRANULE, GRANULE, 1, 64]):#x}"


def some_place(image: Image, rng: random.Random, hart: str) -> str:
    field = rng.choice(["", "", ".tag", ".base", ".len", ".perms", ".sealed", ".word"])
    register = rng.choice(["pcc", *(f"c{number}" for number in (6, *NUMBERS * 2, *HELD))])
    if rng.random() < .7:
        return f"{hart}.{register}{field}"
    place = RAM_BASE + GRANULE * rng.randrange(image.ram // GRANULE)
    return rng.choice([f"mem[{place:#x}]{field}", f"mem8[{place:#x}]", f"mem1[{place:#x}]"])


def some_atom(image: Image, rng: random.Random, hart: str, names: bool) -> str:
    kind = rng.randrange(8)
    number = rng.choice(["0", "1", "1", "2", "3", hex(RAM_BASE), "16"])
    name = rng.choice(["=", "=", "!=", "<", "<=", ">", ">="])
    if kind < 3:
        return f"{some_place(image, rng, hart)} {name} {number}"
    if kind == 3:
        other = rng.choice([str(rng.randrange(len(image.harts))), hart]) if names else hart
        return f"{some_place(image, rng, hart)} {name} {some_place(image, rng, other)}"
    if kind == 4:
        cause = rng.choice(list(CAUSES))
        return f"{hart} is {rng.choice(['running', 'halted', 'trapped', f'trapped:{cause}'])}"
    if kind == 5:
        perms = rng.choice(["load", "store", "none", "load_cap+store_cap", "execute"])
        return f"{hart} reaches {rng.choice([RAM_BASE, RAM_BASE + 16, CODE_BASE]):#x} {perms}"
    first = rng.randrange(len(image.program))
    if kind == 6:
        return f"{hart} at @{first}"
    return f"{hart} in @{first}..@{rng.randint(first + 1, len(image.program))}"


def some_part(image: Image, rng: random.Random, depth: int, names: bool,
              hart: Optional[str] = None) -> str:
    who = hart or str(rng.randrange(len(image.harts)))
    kind = rng.randrange(9)
    if depth and kind < 4:
        joint = rng.choice([" and ", " or "])
        parts = joint.join(some_part(image, rng, depth - 1, names, hart) for _ in range(2))
        return rng.choice([f"({parts})", f"not ({parts})"])
    if hart is None and (kind < 7 or not names):
        inside = some_part(image, rng, depth, names, "h")
        quantifier = rng.choice(["any hart", "no hart", "two harts", "all harts"])
        if rng.random() < .7:
            return f"{quantifier} ({inside})"
        return f"count ({inside}) {rng.choice(['=', '!=', '<', '>='])} {rng.randrange(3)}"
    return rng.choice(["", "", "not "]) + some_atom(image, rng, who, names)


def some_condition(image: Image, rng: random.Random, names: bool = True) -> str:
    """A condition; one that names no hart where that isn't wanted."""
    count = rng.choice([1, 1, 2, 3])
    parts = [some_part(image, rng, rng.randrange(2), names) for _ in range(count)]
    return rng.choice([" and ", " and ", " or "]).join(parts)


def some_items(image: Image, rng: random.Random) -> str:
    names = []
    for _ in range(rng.randint(1, 4)):
        hart = str(rng.randrange(len(image.harts)))
        names.append(f"{hart}.status" if rng.random() < .3 else some_place(image, rng, hart))
    return ",".join(names)


def some_properties(image: Image, rng: random.Random, ends: bool, sweeps: list[str]) -> str:
    kinds = ["never", "always", "sometimes", "finally"]
    names = rng.random() < .5
    lines = [f"#! {rng.choice(kinds)} {some_condition(image, rng, names)}"
             for _ in range(rng.randint(1, 3))]
    if ends:
        lines.append(rng.choice(["#! ends", "#! ends fairly"]))
    lines += [f"#! sweep {sweep}" for sweep in sweeps]
    return "\n".join(lines) + "\n"
