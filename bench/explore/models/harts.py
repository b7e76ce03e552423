"""Equal harts: those that begin equal and that the question names nowhere change places freely.

Of the states that differ only in which hart of a group is where, one is chosen: the one whose
harts are in the order of what they hold.
"""

from __future__ import annotations

from typing import Sequence

from machine import HALTED, RUNNING, Hart, Image

Group = tuple[int, ...]
Key = tuple[int, ...]  # harts go by these


def groups_of(image: Image, named: frozenset[int]) -> tuple[Group, ...]:
    """The groups of two or more harts with equal images, none of them named, in the order of
    their first harts."""
    groups: dict[Hart, list[int]] = {}
    for number, hart in enumerate(image.harts):
        if number not in named:
            groups.setdefault(hart, []).append(number)
    return tuple(tuple(group) for group in groups.values() if len(group) > 1)


def code_of(status: tuple) -> int:
    """A hart that runs comes first, then one that halted, then traps by cause and register."""
    if status in (RUNNING, HALTED):
        return int(status == HALTED)
    _, cause, register = status
    return 2 + 256 * cause + register


def key_of(hart: Hart) -> Key:
    """The status, then PCC, then c1 to c31: of each value its 128 bits, then its tag."""
    key = [code_of(hart.status)]
    for tag, word in (hart.pcc, *hart.regs[1:]):
        key += [word, tag]
    return tuple(key)


def places_in_order(keys: Sequence[Key], groups: tuple[Group, ...]) -> list[int]:
    """The place where the hart that goes to each place stands.  One hart of a group after the
    other goes in: it changes places with each one in front of it that it comes before, from the
    first place on, so that what stands at its place then is put further back.  Which of several
    equal harts comes first is told by this, and orders show it."""
    places = list(range(len(keys)))
    for group in groups:
        for count, high in enumerate(group):
            for low in group[:count]:
                if keys[places[high]] < keys[places[low]]:
                    places[low], places[high] = places[high], places[low]
    return places
