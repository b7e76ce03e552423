"""A proved CHERI-RISC-V machine, opened by a listing and stepped hart by hart.

The functions of the C library `cheri_machine`, whose answers are proved. One file over `ctypes`; it
needs no other package. The library is found beside this file, as `bindings/build` lays both out, or
where the environment variable CHERI_MACHINE_LIBRARY names it.

    >>> machine = Machine('''
    ... .ram 16
    ... .hart 0x10000000 8 0x10000000 execute
    ... addi c5, c0, 7
    ... ecall
    ... ''')
    >>> machine.step(0)
    <Step of hart 0 at 0x10000000>
    >>> machine.register(0, 5)
    <Value 0x7>
    >>> machine.run("0")
    [<Step of hart 0 at 0x10000004: halts>]
    >>> machine
    <Machine of 1 hart and 1 granule after 2 events: hart 0 halted>
    >>> print(machine.why, end="")
    1 hart=0 pc=0000000010000004 halt | line 5: ecall
    >>> machine.step(0)
    Traceback (most recent call last):
    ...
    cheri_machine.Refused: the hart has halted or trapped

A listing and an order are texts that docs/FORMATS.md of this project describes. A machine is freed
when it is closed or no longer used.
"""

from __future__ import annotations

import ctypes
import os
import re
import threading
from pathlib import Path
from typing import Any, Iterable, Iterator, List, NamedTuple, Optional, Tuple, Union

__all__ = ["CAUSES", "Event", "Hart", "ListingFault", "Machine", "Refused", "Step", "Sweep", "Value"]

#: The causes of traps by their numbers, which are this project's own.
CAUSES = {
    1: "tag", 2: "seal", 3: "execute", 4: "load", 5: "store", 6: "store_cap", 7: "store_local",
    8: "length", 9: "alignment", 10: "place", 11: "fetch", 12: "type", 13: "cinvoke",
}
#: The register number that means PCC.
PCC = 32
#: The most events that a trace may have.
GREATEST_LIMIT = 100_000
#: The address of granule 0.
RAM_BASE = 0x8000_0000

_LISTING, _NO_MEMORY, _NO_ROOM = 1, 3, 12
_REFUSALS = {
    2: "the limit is not from 1 to 100,000", 4: "the machine is closed",
    5: "no hart has this number", 6: "the trace is full", 7: "the hart has halted or trapped",
    8: "the range ends before it begins, or past the address space",
    9: "no register has this number", 10: "memory has no granule of this number",
    11: "the trace has no event of this number",
}


class Refused(Exception):
    """A call that is refused, and changed nothing. `status` is its number, as in the C header; of an
    order `place` is the place of the refused operation, counted from 0."""

    def __init__(self, status: int, place: Optional[int] = None) -> None:
        where = "" if place is None else f"operation {place}: "
        super().__init__(where + _REFUSALS[status])
        self.status, self.place = status, place


class ListingFault(Exception):
    """A refused listing. `kind` is the number of its fault, as in docs/FORMATS.md, and `line` its
    line, 0 where it is of the whole listing."""

    def __init__(self, kind: int, line: int) -> None:
        super().__init__(f"listing line {line}: fault {kind}")
        self.kind, self.line = kind, line


class _Handle(ctypes.Structure):
    _fields_ = [("at", ctypes.c_void_p), ("is_open", ctypes.c_bool)]


def _layout(text: str) -> List[Tuple[str, Any]]:
    """The fields of a struct, written as in the C header."""
    types = {
        "u64": ctypes.c_uint64, "u32": ctypes.c_uint32, "u8": ctypes.c_uint8, "bool": ctypes.c_bool,
    }
    pairs = (field.split() for field in text.split(","))
    return [(name, types[kind]) for kind, name in pairs]


class _Opened(ctypes.Structure):
    _fields_ = _layout("u32 status, u32 kind, u64 line")


class _Sizes(ctypes.Structure):
    _fields_ = _layout("u32 status, u32 limit, u64 harts, u64 granules, u64 events")


class _Event(ctypes.Structure):
    _fields_ = _layout(
        "u32 status, u32 cleared, u8 kind, u8 hart, u8 outcome, u8 cause, u8 reg, u64 pc, u64 lo, "
        "u64 hi, u64 hi_high"
    )


class _Value(ctypes.Structure):
    _fields_ = _layout("u64 addr, u64 upper, bool tag, u32 status")


class _Hart(ctypes.Structure):
    _fields_ = _layout("u32 status, u8 state, u8 cause, u8 reg")


class _Text(ctypes.Structure):
    _fields_ = _layout("u32 status, u64 length")


def _library() -> ctypes.CDLL:
    named = os.environ.get("CHERI_MACHINE_LIBRARY")
    folder = Path(__file__).resolve().parent.parent / "lib"
    return ctypes.CDLL(named or str(folder / "libcheri_machine.so.1"))


_lib = _library()


def _function(name: str, result: Any, *arguments: Any) -> Any:
    function = getattr(_lib, "cheri_machine_" + name)
    function.restype, function.argtypes = result, (ctypes.POINTER(_Handle), *arguments)
    return function


_u64, _u32, _u8, _size = ctypes.c_uint64, ctypes.c_uint32, ctypes.c_uint8, ctypes.c_size_t
_new = _function("new", _Opened, ctypes.c_char_p, _size, _u32)
_free = _function("free", None)
_step = _function("step", _Event, _u8)
_sweep = _function("sweep", _Event, _u64, _u64, _u64)
_sizes = _function("sizes", _Sizes)
_hart = _function("hart", _Hart, _u8)
_register = _function("register", _Value, _u8, _u8)
_pcc = _function("pcc", _Value, _u8)
_granule = _function("granule", _Value, _u32)
_event = _function("event", _Event, _u32)
_report = _function("report", _Text, ctypes.c_char_p, _size)
_explain = _function("explain", _Text, _u32, _u32, ctypes.c_char_p, _size)


class Value(NamedTuple):
    """A word of 128 bits as memory has it, and its tag."""

    word: int
    tag: bool

    @property
    def address(self) -> int:
        """Its lower 64 bits."""
        return self.word % 2**64

    @property
    def capability(self) -> Any:
        """It as a `Capability` of the module cheri_caps, which decodes it."""
        from cheri_caps import Capability

        return Capability(self.word, self.tag)

    def __repr__(self) -> str:
        return f"<Value{' tagged' if self.tag else ''} {self.word:#x}>"


class Step(NamedTuple):
    """A step of a hart. `outcome` is 'done', 'halt' or 'trap'; of a trap `cause` is its number and
    `reg` the register that it speaks of, 32 for PCC."""

    hart: int
    pc: int
    outcome: str
    cause: Optional[int] = None
    reg: Optional[int] = None

    @property
    def reason(self) -> Optional[str]:
        """The name of the cause."""
        return None if self.cause is None else CAUSES[self.cause]

    def __repr__(self) -> str:
        register = "pcc" if self.reg == PCC else f"c{self.reg}"
        ends = {"done": "", "halt": ": halts", "trap": f": traps for {self.reason} of {register}"}
        return f"<Step of hart {self.hart} at {self.pc:#x}{ends[self.outcome]}>"


class Sweep(NamedTuple):
    """A sweep of the addresses from `lo` up to, not including, `hi`, and how many tags it cleared."""

    lo: int
    hi: int
    cleared: int

    def __repr__(self) -> str:
        return f"<Sweep [{self.lo:#x}, {self.hi:#x}) cleared {self.cleared}>"


Event = Union[Step, Sweep]

_OUTCOMES = ("done", "halt", "trap")


class Hart(NamedTuple):
    """Whether a hart runs: `state` is 'running', 'halted' or 'trapped'; of a trap as in `Step`."""

    state: str
    cause: Optional[int] = None
    reg: Optional[int] = None

    def __repr__(self) -> str:
        if self.cause is None or self.reg is None:
            return f"<Hart {self.state}>"
        register = "pcc" if self.reg == PCC else f"c{self.reg}"
        return f"<Hart trapped for {CAUSES[self.cause]} of {register}>"


_STATES = ("running", "halted", "trapped")


def _told_event(answer: Any) -> Event:
    if answer.kind == 2:
        return Sweep(answer.lo, answer.hi + (answer.hi_high << 64), answer.cleared)
    if answer.outcome == 2:
        return Step(answer.hart, answer.pc, "trap", answer.cause, answer.reg)
    return Step(answer.hart, answer.pc, _OUTCOMES[answer.outcome])


_TOKEN = re.compile(r"[ \n]*(?:([0-7])|\[(0x[0-9a-fA-F]+|[0-9]+),(0x[0-9a-fA-F]+|[0-9]+)\])[ \n]*")

Operation = Union[int, Tuple[int, int]]


def _operations(order: Union[str, bytes, Iterable[Operation]]) -> List[Operation]:
    """The operations of an order: of its text, or as they are."""
    if isinstance(order, bytes):
        order = order.decode("latin-1")
    if not isinstance(order, str):
        return list(order)
    swept = order.startswith("order 2\n")
    text, at, found = order[8:] if swept else order, 0, []  # type: str, int, List[Operation]
    if not text.strip(" \n"):
        return found
    while at < len(text):
        token = _TOKEN.match(text, at)
        if token is None or token[2] is not None and not swept:
            raise ValueError(f"the order has no operation at its character {at + 8 * swept}")
        if token[1] is not None:
            found.append(int(token[1]))
        else:
            found.append((_number(token[2]), _number(token[3])))
        at = token.end()
    return found


def _number(digits: str) -> int:
    return int(digits, 16) if digits.startswith("0x") else int(digits)


def _within(number: int, bits: int) -> int:
    if not 0 <= number < 1 << bits:
        raise ValueError(f"{number} is no number of {bits} bits")
    return number


class Machine:
    """The machine of a listing. Iterating gives the events of its trace, and `len` their count."""

    def __init__(self, listing: Union[str, bytes], limit: int = GREATEST_LIMIT) -> None:
        """Opens the machine before its first step, whose trace may have `limit` events. A refused
        listing raises ListingFault, a limit that is not from 1 to 100,000 Refused."""
        self._handle, self._lock = _Handle(None, False), threading.Lock()
        text = listing.encode() if isinstance(listing, str) else bytes(listing)
        opened = self._call(_new, text, len(text), _within(limit, 32))
        if opened.status == _LISTING:
            raise ListingFault(opened.kind, opened.line)
        self._looked_at(opened)

    def _call(self, function: Any, *arguments: Any) -> Any:
        """One call, while no other thread is in one of this machine."""
        with self._lock:
            return function(ctypes.byref(self._handle), *arguments)

    def _looked_at(self, answer: Any, place: Optional[int] = None) -> Any:
        if answer.status == _NO_MEMORY:
            raise MemoryError("cheri_machine")
        if answer.status != 0:
            raise Refused(answer.status, place)
        return answer

    def close(self) -> None:
        """Frees the machine. Later calls raise Refused."""
        self._call(_free)

    def __enter__(self) -> Machine:
        return self

    def __exit__(self, *_: Any) -> None:
        self.close()

    def __del__(self) -> None:
        if hasattr(self, "_lock"):
            self.close()

    def __reduce__(self) -> Any:
        raise TypeError("a machine can't be copied: it owns memory of its own")

    def _take(self, operation: Operation, place: Optional[int] = None) -> Event:
        if isinstance(operation, int):
            answer = self._call(_step, _within(operation, 8))
        else:
            lo, hi = operation
            _within(hi, 128)
            answer = self._call(_sweep, _within(lo, 64), hi % 2**64, hi >> 64)
        return _told_event(self._looked_at(answer, place))

    def step(self, hart: int = 0) -> Event:
        """One step of this hart: the event of the trace. A refused one changes nothing."""
        return self._take(hart)

    def sweep(self, lo: int, hi: int) -> Event:
        """Clears the tag of every capability whose base lies from `lo` up to, not including, `hi`."""
        return self._take((lo, hi))

    def run(self, order: Union[str, bytes, Iterable[Operation]]) -> List[Event]:
        """Takes the operations of an order: its text, or harts and pairs (lo, hi). Gives their
        events. Where one is refused, it raises Refused, and those before it are taken. A text that
        is no order raises ValueError, and then none is taken."""
        return [self._take(operation, place) for place, operation in enumerate(_operations(order))]

    @property
    def sizes(self) -> Tuple[int, int, int, int]:
        """How many harts, granules and events it has, and the limit of its events."""
        answer = self._looked_at(self._call(_sizes))
        return answer.harts, answer.granules, answer.events, answer.limit

    def hart(self, number: int = 0) -> Hart:
        """Whether a hart runs."""
        answer = self._looked_at(self._call(_hart, _within(number, 8)))
        if answer.state == 2:
            return Hart("trapped", answer.cause, answer.reg)
        return Hart(_STATES[answer.state])

    def _value(self, function: Any, *arguments: int) -> Value:
        answer = self._looked_at(self._call(function, *arguments))
        return Value(answer.upper << 64 | answer.addr, answer.tag)

    def register(self, hart: int, number: int) -> Value:
        """One of a hart's registers c0 to c31."""
        return self._value(_register, _within(hart, 8), _within(number, 8))

    def pcc(self, hart: int = 0) -> Value:
        """PCC of a hart."""
        return self._value(_pcc, _within(hart, 8))

    def granule(self, number: int) -> Value:
        """A granule, which has the 16 bytes from 0x80000000 + 16 * number on, and its tag."""
        return self._value(_granule, _within(number, 32))

    def event(self, number: int) -> Event:
        """An event of the trace, counted from 0; from the end where the number is negative."""
        if number < 0:
            number += len(self)
        if number < 0:
            raise Refused(11)
        return _told_event(self._looked_at(self._call(_event, _within(number, 32))))

    @property
    def last(self) -> Optional[Event]:
        """The last event, if there is one."""
        return self.event(-1) if len(self) else None

    def __len__(self) -> int:
        return self.sizes[2]

    def __bool__(self) -> bool:
        return True

    def __iter__(self) -> Iterator[Event]:
        number = 0
        while number < len(self):
            yield self.event(number)
            number += 1

    def report(self) -> str:
        """The report, as `cheri_sim run` prints it."""
        return self._text(_report)

    def _text(self, function: Any, *arguments: int) -> str:
        length = 0
        while True:
            room = ctypes.create_string_buffer(length + 1)
            answer = self._call(function, *arguments, room, length)
            if answer.status != _NO_ROOM:
                self._looked_at(answer)
                return room.raw[: answer.length].decode("ascii")
            length = answer.length

    def explanation(self, first: int = 0, last: Optional[int] = None) -> str:
        """The explanation of the events from `first` to `last`, or of all from there on, as
        `cheri_explain` prints it."""
        to = 2**32 - 1 if last is None else _within(last, 32)
        return self._text(_explain, _within(first, 32), to)

    @property
    def why(self) -> str:
        """What the last event read, found, left and set, and why it trapped or lost a tag: its lines
        of the explanation."""
        last = max(len(self) - 1, 0)
        return "".join(self.explanation(last, last).splitlines(keepends=True)[3:-1])

    def __repr__(self) -> str:
        if not self._handle.is_open:
            return "<Machine closed>"
        harts, granules, events, _ = self.sizes
        states = ", ".join(f"hart {number} {self.hart(number).state}" for number in range(harts))
        return (f"<Machine of {_counted(harts, 'hart')} and {_counted(granules, 'granule')} after "
                f"{_counted(events, 'event')}: {states}>")


def _counted(count: int, what: str) -> str:
    return f"{count:,} {what}" if count == 1 else f"{count:,} {what}s"
