"""The machine: instructions, harts, memory, one step of a hart, a sweep.

A step sees its own hart and at most one granule of memory (16 bytes), and changes no more.
"""

from __future__ import annotations

from typing import Callable, NamedTuple, Optional, Union

import values as v
from values import MASK64, NULL, TWO64, Value, address_of, has, integer, is_inside, type_of

CODE_BASE = 0x1000_0000
RAM_BASE = 0x8000_0000
GRANULE = 16
PCC = 32  # the register that a trap names where PCC is at fault

Tag, Seal, Execute, Load, Store, StoreCap, StoreLocal, Length, Align, Place, Fetch, Type, \
    Invoke = range(1, 14)
CAUSES = {name: cause for cause, name in enumerate(
    "Tag Seal Execute Load Store StoreCap StoreLocal Length Align Place Fetch Type CInvoke".split(),
    1)}

RUNNING = ("running",)
HALTED = ("halted",)


def signed(number: int, width: int = 64) -> int:
    number %= 1 << width
    return number - (1 << width) if number >> width - 1 else number


ARITHMETIC: dict[str, Callable[[int, int], int]] = {
    "add": lambda x, y: x + y,
    "sub": lambda x, y: x - y,
    "sll": lambda x, y: x << y % 64,
    "slt": lambda x, y: signed(x) < signed(y),
    "sltu": lambda x, y: x < y,
    "xor": lambda x, y: x ^ y,
    "srl": lambda x, y: x >> y % 64,
    "sra": lambda x, y: signed(x) >> y % 64,
    "or": lambda x, y: x | y,
    "and": lambda x, y: x & y,
    "addw": lambda x, y: signed(x + y, 32),
    "subw": lambda x, y: signed(x - y, 32),
    "sllw": lambda x, y: signed(x << y % 32, 32),
    "srlw": lambda x, y: signed(x % 2**32 >> y % 32, 32),
    "sraw": lambda x, y: signed(x, 32) >> y % 32,
}
WITH_IMMEDIATE = {
    "addi": "add", "slti": "slt", "sltiu": "sltu", "xori": "xor", "ori": "or", "andi": "and",
    "addiw": "addw", "slli": "sll", "srli": "srl", "srai": "sra", "slliw": "sllw",
    "srliw": "srlw", "sraiw": "sraw",
}
BRANCHES: dict[str, Callable[[int, int], bool]] = {
    "beq": lambda x, y: x == y,
    "bne": lambda x, y: x != y,
    "blt": lambda x, y: signed(x) < signed(y),
    "bge": lambda x, y: signed(x) >= signed(y),
    "bltu": lambda x, y: x < y,
    "bgeu": lambda x, y: x >= y,
}
LOADS = {"lb": 1, "lh": 2, "lw": 4, "lbu": 1, "lhu": 2, "lwu": 4, "ld": 8, "lc": 16}
EXTENDED = ("lb", "lh", "lw")
STORES = {"sb": 1, "sh": 2, "sw": 4, "sd": 8, "sc": 16}

# The operands of each instruction as they are written: registers, an immediate with its range,
# an offset and a register, a label or the number of an instruction.
RANGES = {"imm12": (-2048, 2047), "len12": (0, 4095), "imm20": (0, 2**20 - 1),
          "shift6": (0, 63), "shift5": (0, 31)}
OPERANDS: dict[str, tuple[str, ...]] = {
    "ecall": (), "cjal": ("cd", "target"), "cjalr": ("cd", "mem"), "cinvoke": ("c1", "c2"),
    "amoswap.c": ("cd", "c2", "c1"), "lui": ("cd", "imm20"), "auipcc": ("cd", "imm20"),
    "csetboundsimm": ("cd", "c1", "len12"), "cincoffsetimm": ("cd", "c1", "imm12"),
    **{name: ("cd", "c1") for name in v.ONE},
    **{name: ("cd", "c1", "c2") for name in (*v.TWO, *ARITHMETIC)},
    **{name: ("cd", "c1", "imm12") for name in WITH_IMMEDIATE},
    **{name: ("cd", "c1", "shift6") for name in ("slli", "srli", "srai")},
    **{name: ("cd", "c1", "shift5") for name in ("slliw", "srliw", "sraiw")},
    **{name: ("c1", "c2", "target") for name in BRANCHES},
    **{name: ("cd", "mem") for name in LOADS},
    **{name: ("c2", "mem") for name in STORES},
}
ACCESSES = {*LOADS, *STORES, "amoswap.c"}


class Instruction(NamedTuple):
    name: str
    cd: int = 0
    c1: int = 0
    c2: int = 0
    imm: int = 0  # of a jump the number of an instruction

    def __str__(self) -> str:
        told = {"mem": f"{self.imm}(c{self.c1})", "target": f"@{self.imm}", "cd": f"c{self.cd}",
                "c1": f"c{self.c1}", "c2": f"c{self.c2}"}
        return f"{self.name} " + ", ".join(told.get(role, str(self.imm))
                                           for role in OPERANDS[self.name])


class Hart(NamedTuple):
    regs: tuple[Value, ...]
    pcc: Value
    status: tuple = RUNNING  # or HALTED, or ("trapped", cause, register)


class Image(NamedTuple):
    program: tuple[Instruction, ...]
    ram: int
    granules: tuple[tuple[int, Value], ...]  # those that aren't null, ascending
    harts: tuple[Hart, ...]


class State(NamedTuple):
    harts: tuple[Hart, ...]
    memory: tuple[tuple[int, Value], ...]


class Step(NamedTuple):
    hart: int


class Sweep(NamedTuple):
    lo: int
    hi: int


Operation = Union[Step, Sweep]


class Trap(Exception):
    def __init__(self, cause: int, register: int):
        self.cause, self.register = cause, register


class Asked(Exception):
    """What a step asks of memory: it can't go on before it is told what the granule holds."""

    def __init__(self, granule: int):
        self.granule = granule


class Granule:
    """The one granule that a step may see, and what the step leaves there."""

    def __init__(self, number: Optional[int] = None, value: Value = NULL):
        self.number, self.value, self.is_written = number, value, False

    def load(self, place: int) -> Value:
        if place // GRANULE != self.number:
            raise Asked(place // GRANULE)
        return self.value

    def store(self, place: int, value: Value) -> None:
        self.load(place)
        self.value, self.is_written = value, True


def fetch(program: tuple[Instruction, ...], pcc: Value) -> Instruction:
    pc = address_of(pcc)
    if not pcc[0]:
        raise Trap(Tag, PCC)
    if type_of(pcc) != v.UNSEALED:
        raise Trap(Seal, PCC)
    if not has(pcc, v.EXECUTE):
        raise Trap(Execute, PCC)
    if not is_inside(pcc, pc, 4):
        raise Trap(Length, PCC)
    if pc % 4:
        raise Trap(Align, PCC)
    number = (pc - CODE_BASE) // 4
    if not 0 <= number < len(program):
        raise Trap(Fetch, PCC)
    return program[number]


def check_access(ram: int, authority: Value, register: int, place: int, width: int,
                 loads: bool = False, stores: bool = False, stored: Value = NULL) -> None:
    """`stored` is what `sc` and `amoswap.c` store."""
    if not authority[0]:
        raise Trap(Tag, register)
    if type_of(authority) != v.UNSEALED:
        raise Trap(Seal, register)
    if loads and not has(authority, v.LOAD):
        raise Trap(Load, register)
    if stores and not has(authority, v.STORE):
        raise Trap(Store, register)
    if stored[0] and not has(authority, v.STORE_CAP):
        raise Trap(StoreCap, register)
    if stored[0] and not has(stored, v.GLOBAL) and not has(authority, v.STORE_LOCAL):
        raise Trap(StoreLocal, register)
    if not is_inside(authority, place, width):
        raise Trap(Length, register)
    if place % width:
        raise Trap(Align, register)
    if not RAM_BASE <= place <= RAM_BASE + ram - width:
        raise Trap(Place, register)


def check_jump(target: Value, register: int, address: int) -> Value:
    """Where a jump through a capability leads, if its permissions and bounds allow it."""
    if not is_inside(target, address, 4):
        raise Trap(Length, register)
    if address % 4:
        raise Trap(Align, register)
    return 1, v.changed(target[1], otype=v.UNSEALED, address=address)


def access(instr: Instruction, one: Value, two: Value, ram: int,
           memory: Granule) -> Optional[Value]:
    """A load, a store or an exchange: what it writes to its register, if anything."""
    name = instr.name
    place = address_of(one) + instr.imm & MASK64
    if name == "amoswap.c":
        check_access(ram, one, instr.c1, place, 16, loads=True, stores=True, stored=two)
        found = memory.load(place)
        memory.store(place, two)
    elif name in STORES:
        width = STORES[name]
        check_access(ram, one, instr.c1, place, width, stores=True,
                     stored=two if name == "sc" else NULL)
        old, shift = memory.load(place)[1], 8 * (place % GRANULE)
        mask = (1 << 8 * width) - 1 << shift
        memory.store(place, two if name == "sc" else (0, old & ~mask | two[1] << shift & mask))
        return None
    else:
        width = LOADS[name]
        check_access(ram, one, instr.c1, place, width, loads=True)
        found = memory.load(place)
        if name != "lc":
            number = found[1] >> 8 * (place % GRANULE) & (1 << 8 * width) - 1
            return integer(signed(number, 8 * width) if name in EXTENDED else number)
    return found if has(one, v.LOAD_CAP) else (0, found[1])


def check_invoke(one: Value, two: Value, instr: Instruction) -> Value:
    for wrong, cause, register in (
            (not one[0], Tag, instr.c1), (not two[0], Tag, instr.c2),
            (not v.can_be_type(type_of(one)), Seal, instr.c1),
            (not v.can_be_type(type_of(two)), Seal, instr.c2),
            (type_of(one) != type_of(two), Type, instr.c1),
            (not has(one, v.CINVOKE), Invoke, instr.c1),
            (not has(two, v.CINVOKE), Invoke, instr.c2),
            (not has(one, v.EXECUTE), Execute, instr.c1), (has(two, v.EXECUTE), Execute, instr.c2)):
        if wrong:
            raise Trap(cause, register)
    return check_jump(one, instr.c1, address_of(one) & ~1)


def jump(instr: Instruction, one: Value, two: Value, pcc: Value) -> Optional[Value]:
    """Where a branch that is taken, a call or an invocation leads, `None` to the next one."""
    name = instr.name
    if name == "cinvoke":
        return check_invoke(one, two, instr)
    if name == "cjalr":
        if not one[0]:
            raise Trap(Tag, instr.c1)
        if type_of(one) != v.UNSEALED and not (type_of(one) == v.SENTRY and instr.imm == 0):
            raise Trap(Seal, instr.c1)
        if not has(one, v.EXECUTE):
            raise Trap(Execute, instr.c1)
        return check_jump(one, instr.c1, (address_of(one) + instr.imm & MASK64) & ~1)
    if name == "cjal" or BRANCHES[name](address_of(one), address_of(two)):
        target = CODE_BASE + 4 * instr.imm
        if not is_inside(pcc, target, 4):
            raise Trap(Length, PCC)
        return 1, v.changed(pcc[1], address=target)
    return None


def computed(instr: Instruction, one: Value, two: Value, pcc: Value) -> Value:
    """What an instruction makes that touches no memory and never jumps nor traps."""
    name, imm = instr.name, instr.imm
    if name in ARITHMETIC:
        return integer(ARITHMETIC[name](address_of(one), address_of(two)))
    if name in WITH_IMMEDIATE:
        return integer(ARITHMETIC[WITH_IMMEDIATE[name]](address_of(one), imm % TWO64))
    if name == "lui":
        return integer(signed(imm << 12, 32))
    if name == "auipcc":
        return v.moved(pcc, signed(imm << 12, 32))
    if name in v.ONE:
        return v.ONE[name](one)
    if name in v.TWO:
        return v.TWO[name](one, two)
    return v.WITH_NUMBER[name](one, imm)


def execute(program: tuple[Instruction, ...], ram: int, hart: Hart, memory: Granule) -> Hart:
    instr = fetch(program, hart.pcc)
    if instr.name == "ecall":
        return hart._replace(status=HALTED)
    pc, pcc = address_of(hart.pcc), hart.pcc
    one, two = hart.regs[instr.c1], hart.regs[instr.c2]
    following = 1, v.changed(pcc[1], address=pc + 4 & MASK64)
    into, result, there = instr.cd, None, None
    if instr.name in ACCESSES:
        result = access(instr, one, two, ram, memory)
    elif instr.name in BRANCHES or instr.name in ("cjal", "cjalr", "cinvoke"):
        there = jump(instr, one, two, pcc)
        if instr.name == "cinvoke":
            into, result = 31, (1, v.changed(two[1], otype=v.UNSEALED))
        elif instr.name in ("cjal", "cjalr"):
            result = v.sealed_entry(following)
    else:
        result = computed(instr, one, two, pcc)
    regs = hart.regs
    if result is not None and into:
        regs = (*regs[:into], result, *regs[into + 1:])
    return Hart(regs, there or following, hart.status)


def step(program: tuple[Instruction, ...], ram: int, hart: Hart, memory: Granule) -> Hart:
    """One instruction of a running hart; raises `Asked` where it needs another granule."""
    try:
        return execute(program, ram, hart, memory)
    except Trap as trap:
        return hart._replace(status=("trapped", trap.cause, trap.register))


def swept_value(value: Value, sweep: Sweep) -> Value:
    if value[0] and sweep.lo <= v.bounds_of(value[1])[0] < sweep.hi:
        return 0, value[1]
    return value


def swept_hart(hart: Hart, sweep: Sweep) -> Hart:
    regs = tuple(swept_value(value, sweep) for value in hart.regs)
    return Hart(regs, swept_value(hart.pcc, sweep), hart.status)


def opening(image: Image) -> State:
    return State(image.harts, image.granules)


def take(image: Image, state: State, operation: Operation) -> State:
    """One operation of the machine itself, which knows nothing of searches."""
    if isinstance(operation, Sweep):
        memory = tuple((number, swept_value(value, operation)) for number, value in state.memory)
        return State(tuple(swept_hart(hart, operation) for hart in state.harts), memory)
    granules, at = dict(state.memory), operation.hart
    hart = state.harts[at]
    assert hart.status == RUNNING, "an order steps a hart that has stopped"
    memory = Granule()
    try:
        after = step(image.program, image.ram, hart, memory)
    except Asked as asked:
        memory = Granule(asked.granule, granules.get(asked.granule, NULL))
        after = step(image.program, image.ram, hart, memory)
    if memory.is_written:
        granules[memory.number] = memory.value
        granules = {number: value for number, value in granules.items() if value != NULL}
    harts = (*state.harts[:at], after, *state.harts[at + 1:])
    return State(harts, tuple(sorted(granules.items())))


def replay(image: Image, order: list[Operation], state: Optional[State] = None) -> State:
    state = state or opening(image)
    for operation in order:
        state = take(image, state, operation)
    return state
