"""Conditions: what they say, whether a state has them, and what they look at.

A condition is plain data, so that what it looks at can be read off it: which registers, which
granules, and which harts it names.
"""

from __future__ import annotations

import operator
import re
from functools import lru_cache
from typing import Callable, NamedTuple, Optional, Sequence, Union

import values as v
from listing import Listing, code_address, number_of, perms_of
from machine import CAUSES, GRANULE, NULL, Hart

H = "h"  # the hart that a quantifier speaks of
Who = Union[int, str]

COMPARE = {"=": operator.eq, "!=": operator.ne, "<": operator.lt, "<=": operator.le,
           ">": operator.gt, ">=": operator.ge}
FIELDS: dict[str, Callable[[v.Value], int]] = {
    "addr": v.address_of, "word": lambda value: value[1], "tag": lambda value: value[0],
    "base": lambda value: v.bounds_of(value[1])[0], "top": lambda value: v.bounds_of(value[1])[1],
    "len": v.length_of, "perms": v.perms_of, "type": v.type_of,
    "sealed": lambda value: int(v.type_of(value) != v.UNSEALED),
}


class Number(NamedTuple):
    number: int


class Register(NamedTuple):
    who: Who
    number: int  # 32 is PCC
    field: str


class Granule(NamedTuple):
    number: int
    field: str


class Data(NamedTuple):
    place: int
    width: int


class Compared(NamedTuple):
    left: "Term"
    name: str
    right: "Term"


class Has(NamedTuple):
    """What is said of one hart: `is`, `in` or `reaches`, and with what."""

    who: Who
    verb: str
    what: tuple


class Negated(NamedTuple):
    part: "Condition"


class Joined(NamedTuple):
    joint: str
    parts: tuple["Condition", ...]


class Counted(NamedTuple):
    """How many harts the part holds of."""

    part: "Condition"
    name: str
    number: int


Term = Union[Number, Register, Granule, Data]
Condition = Union[Compared, Has, Negated, Joined, Counted]


class Seen(NamedTuple):
    """What conditions look at: harts, of which only some are asked for, and memory."""

    harts: Sequence[Hart]
    memory: dict[int, v.Value]


def value_in(term: Term, seen: Seen, bound: Optional[int]) -> int:
    if isinstance(term, Number):
        return term.number
    if isinstance(term, Register):
        hart = seen.harts[bound if term.who == H else term.who]
        return FIELDS[term.field](hart.pcc if term.number == 32 else hart.regs[term.number])
    if isinstance(term, Granule):
        return FIELDS[term.field](seen.memory.get(term.number, NULL))
    word = seen.memory.get(term.place // GRANULE, NULL)[1]
    return word >> 8 * (term.place % GRANULE) & (1 << 8 * term.width) - 1


def is_so_of(said: Has, hart: Hart) -> bool:
    if said.verb == "is":
        return hart.status[:len(said.what)] == said.what
    if said.verb == "in":
        return said.what[0] <= v.address_of(hart.pcc) < said.what[1]
    address, perms = said.what
    return any(tag and low <= address < high and perms & ~v.fields_of(word).perms == 0
               for tag, word in (*hart.regs, hart.pcc) for low, high in (v.bounds_of(word),))


def holds(condition: Condition, seen: Seen, bound: Optional[int] = None) -> bool:
    if isinstance(condition, Compared):
        return COMPARE[condition.name](value_in(condition.left, seen, bound),
                                       value_in(condition.right, seen, bound))
    if isinstance(condition, Has):
        return is_so_of(condition, seen.harts[bound if condition.who == H else condition.who])
    if isinstance(condition, Negated):
        return not holds(condition.part, seen, bound)
    if isinstance(condition, Joined):
        whether = (holds(part, seen, bound) for part in condition.parts)
        return all(whether) if condition.joint == "and" else any(whether)
    count = sum(holds(condition.part, seen, hart) for hart in range(len(seen.harts)))
    return COMPARE[condition.name](count, condition.number)


# --------------------------------------------------------------------------
# Reading
# --------------------------------------------------------------------------

PLACE = re.compile(r"([0-7h])\.(pcc|c[0-9]+)(?:\.([a-z]+))?")
GRANULE_PLACE = re.compile(r"mem\[([^\]]*)\](?:\.([a-z]+))?")
DATA_PLACE = re.compile(r"mem([1248])\[([^\]]*)\]")


class Reader:
    """Reads a good condition word by word."""

    def __init__(self, text: str, listing: Listing):
        self.words = re.findall("[()]|[^() ]+", text)
        self.listing = listing
        self.at = 0

    def skips(self, *wanted: str) -> bool:
        found = self.words[self.at:self.at + 1] and self.words[self.at] in wanted
        self.at += bool(found)
        return bool(found)

    def word(self) -> str:
        self.at += 1
        return self.words[self.at - 1]

    def either(self) -> Condition:
        parts = [self.both()]
        while self.skips("or"):
            parts.append(self.both())
        return parts[0] if len(parts) == 1 else Joined("or", tuple(parts))

    def both(self) -> Condition:
        parts = [self.part()]
        while self.skips("and"):
            parts.append(self.part())
        return parts[0] if len(parts) == 1 else Joined("and", tuple(parts))

    def part(self) -> Condition:
        if self.skips("not"):
            return Negated(self.unit())
        return self.unit()

    def unit(self) -> Condition:
        if self.skips("("):
            inside = self.either()
            self.word()
            return inside
        return self.atom(self.word())

    def atom(self, word: str) -> Condition:
        if word in ("any", "no", "two", "all"):
            self.word()
            part = self.unit() if self.words[self.at] == "(" else self.said_of(H)
            harts = len(self.listing.image.harts)
            name, number = {"any": (">=", 1), "no": ("=", 0), "two": (">=", 2),
                            "all": (">=", harts)}[word]
            return Counted(part, name, number)
        if word == "count":
            part = self.unit()
            return Counted(part, self.word(), number_of(self.word()))
        if word == H or word.isdigit():
            return self.said_of(H if word == H else int(word))
        return Compared(self.term(word), self.word(), self.term(self.word()))

    def said_of(self, who: Who) -> Condition:
        verb = self.word()
        if verb in ("is", "are"):
            name, _, cause = self.word().partition(":")
            number = CAUSES[cause] if cause in CAUSES else number_of(cause)
            return Has(who, "is", (name, number) if cause else (name,))
        if verb == "at":
            place = self.target(self.word())
            return Has(who, "in", (place, place + 1))
        if verb == "in":
            return Has(who, "in", tuple(map(self.target, self.word().split(".."))))
        return Has(who, "reaches", (number_of(self.word()), perms_of(self.word())))

    def target(self, word: str) -> int:
        return code_address(number_of(word[1:]) if word[0] == "@" else self.listing.labels[word])

    def term(self, word: str) -> Term:
        if word.startswith("&"):
            return Number(self.target(word[1:]))
        return place_of(word) or Number(number_of(word))


def place_of(word: str) -> Optional[Term]:
    if match := PLACE.fullmatch(word):
        who, name, field = match.groups()
        number = 32 if name == "pcc" else int(name[1:])
        return Register(H if who == H else int(who), number, field or "addr")
    if match := GRANULE_PLACE.fullmatch(word):
        return Granule(number_of(match[1]) // GRANULE, match[2] or "addr")
    if match := DATA_PLACE.fullmatch(word):
        return Data(number_of(match[2]), int(match[1]))
    return None


def read_condition(text: str, listing: Listing) -> Condition:
    return Reader(text, listing).either()


# --------------------------------------------------------------------------
# What a condition looks at
# --------------------------------------------------------------------------

EVERY_REGISTER = frozenset(range(1, 32))


def parts_of(condition: Condition) -> tuple:
    if isinstance(condition, Compared):
        return condition.left, condition.right
    if isinstance(condition, (Negated, Counted)):
        return (condition.part,)
    return condition.parts if isinstance(condition, Joined) else ()


def registers_seen(condition: Union[Condition, Term]) -> frozenset[int]:
    """The registers that a condition looks at, of any hart.  `reaches` looks at all."""
    if isinstance(condition, Register):
        return frozenset({condition.number} - {0, 32})
    if isinstance(condition, Has):
        return EVERY_REGISTER if condition.verb == "reaches" else frozenset()
    return frozenset().union(*map(registers_seen, parts_of(condition)))


def granules_seen(condition: Union[Condition, Term]) -> frozenset[int]:
    if isinstance(condition, Granule):
        return frozenset({condition.number})
    if isinstance(condition, Data):
        return frozenset({condition.place // GRANULE})
    return frozenset().union(*map(granules_seen, parts_of(condition)))


def harts_named(condition: Union[Condition, Term], counted: bool = False) -> frozenset[int]:
    """The harts that a condition names by their numbers.  `h` stands for each hart in turn where
    harts are counted; outside of that it is hart 0."""
    if isinstance(condition, (Register, Has)):
        if condition.who == H:
            return frozenset() if counted else frozenset({0})
        return frozenset({condition.who})
    counted = counted or isinstance(condition, Counted)
    return frozenset().union(*(harts_named(part, counted) for part in parts_of(condition)))


# --------------------------------------------------------------------------
# Which steps a condition can't see
# --------------------------------------------------------------------------

Asked = Callable[[Hart, Hart], bool]  # of a hart before a step and after it


class Everyone:
    """The same hart under each number."""

    def __init__(self, hart: Hart):
        self.hart = hart

    def __getitem__(self, number: int) -> Hart:
        return self.hart


def owners_of(condition: Union[Condition, Term]) -> set:
    """The harts that it speaks of, and `None` where it speaks of memory or counts harts."""
    if isinstance(condition, (Register, Has)):
        return {condition.who}
    if isinstance(condition, (Granule, Data)):
        return {None}
    counts = {None} if isinstance(condition, Counted) else set()
    return counts.union(*map(owners_of, parts_of(condition)))


def is_of_one(condition: Condition) -> bool:
    owners = owners_of(condition)
    return len(owners) == 1 and None not in owners


def stays(condition: Condition, wanted: bool) -> Asked:
    """A condition of one hart doesn't cease to be as wanted."""
    def is_so(hart: Hart) -> bool:
        return holds(condition, Seen(Everyone(hart), {}), 0) == wanted
    return lambda before, after: is_so(after) or not is_so(before)


def side_moves(term: Term, name: str, is_left: bool, wanted: bool) -> Asked:
    """A side of a comparison with another hart or memory moves only as suits the comparison."""
    if name in ("=", "!="):
        way = operator.eq
    else:
        falls = (name in ("<", "<=")) == (is_left == wanted)
        way = operator.le if falls else operator.ge

    def asked(before: Hart, after: Hart) -> bool:
        old, new = (value_in(term, Seen(Everyone(hart), {}), 0) for hart in (before, after))
        return way(new, old)
    return asked


def units_of(condition: Condition, wanted: bool) -> list[Asked]:
    """What must be so of a step that doesn't end that the condition is as wanted, whichever hart
    takes it."""
    if is_of_one(condition):
        return [stays(condition, wanted)]
    if isinstance(condition, Negated):
        return units_of(condition.part, not wanted)
    if isinstance(condition, Joined):
        ones: dict[Who, list[Condition]] = {}
        units = []
        for part in condition.parts:
            if is_of_one(part):
                ones.setdefault(next(iter(owners_of(part))), []).append(part)
            else:
                units += units_of(part, wanted)
        return units + [stays(Joined(condition.joint, tuple(parts)), wanted)
                        for parts in ones.values()]
    if isinstance(condition, Counted):
        ways = [wanted] if condition.name in (">=", ">") else [not wanted]
        if condition.name in ("=", "!=") and (condition.name, condition.number) != ("=", 0):
            ways = [True, False]
        return [unit for way in ways for unit in units_of(condition.part, way)]
    return [side_moves(term, condition.name, term is condition.left, wanted)
            for term in (condition.left, condition.right) if isinstance(term, Register)]


@lru_cache(maxsize=None)
def hides(condition: Condition) -> Asked:
    units = units_of(condition, True)
    return lambda before, after: all(unit(before, after) for unit in units)
