"""The questions, and which reductions each of them allows."""

from __future__ import annotations

from typing import Callable, NamedTuple, Optional

import values as v
from conditions import (
    Condition, Negated, Seen, Term, granules_seen, harts_named, hides, holds, place_of,
    read_condition, registers_seen, value_in,
)
from graph import MOST_QUIET, Graph, Node, Plan
from harts import groups_of
from listing import Claim, Listing
from machine import Hart, State, Sweep
from registers import live_registers
from search import Found, search

REDUCTIONS = ("registers", "granules", "harts")
NOTHING = frozenset()
ALL_STATES = 1_000_000


class Item(NamedTuple):
    """What `--show` tells of an outcome: a place, or a hart's status."""

    name: str
    place: Optional[Term]
    hart: int = 0

    def text_in(self, state: State) -> str:
        if self.place is not None:
            return f"{value_in(self.place, seen_of(state), None):#x}"
        name, *cause = state.harts[self.hart].status[:2]
        return f"{name}:{cause[0]}" if cause else name

    def registers(self) -> frozenset[int]:
        return registers_seen(self.place) if self.place else NOTHING

    def harts(self) -> frozenset[int]:
        return harts_named(self.place) if self.place else frozenset({self.hart})


def read_items(text: str) -> tuple[Item, ...]:
    return tuple(Item(name, None, int(name[0])) if name.endswith(".status")
                 else Item(name, place_of(name)) for name in text.split(","))


def seen_of(state: State) -> Seen:
    return Seen(state.harts, dict(state.memory))


class Question(NamedTuple):
    command: str  # outcomes, find, check, authority
    looks: tuple[Condition, ...] = ()  # a state that has one of these must not be passed over
    at_ends: tuple[Condition, ...] = ()  # these are looked at where no hart runs
    items: Optional[tuple[Item, ...]] = None
    claims: tuple[Claim, ...] = ()
    of_endless: bool = False  # it asks whether runs end
    alike: bool = False  # of `outcomes`: up to the names of equal harts


def outcomes(show: Optional[str] = None, alike: bool = False) -> Question:
    items = None if show is None else read_items(show)
    return Question("outcomes", items=items, of_endless=not alike, alike=alike)


def find(condition: Condition) -> Question:
    return Question("find", (condition,))


def authority() -> Question:
    return Question("authority")


def check(claims: list[Claim], listing: Listing) -> Question:
    looks, at_ends = [], []
    for claim in claims:
        if claim.condition:
            condition = read_condition(claim.condition, listing)
            if claim.kind == "finally":
                at_ends.append(condition)
            else:
                looks.append(Negated(condition) if claim.kind == "always" else condition)
    return Question("check", tuple(looks), tuple(at_ends), claims=tuple(claims),
                    of_endless=any(claim.kind.startswith("ends") for claim in claims))


# --------------------------------------------------------------------------
# What a question allows
# --------------------------------------------------------------------------

Right = tuple[int, int, int]  # base, top, permissions


def rights_of(values) -> set[Right]:
    return {(*v.bounds_of(word), v.fields_of(word).perms) for tag, word in values if tag}


def lies_within(one: Right, other: Right) -> bool:
    return other[0] <= one[0] and one[1] <= other[1] and not one[2] & ~other[2]


def keeps_all(before, after) -> bool:
    new = rights_of(after)
    return all(any(lies_within(one, other) for other in new) for one in rights_of(before))


def keeps_rights(before: Hart, after: Hart) -> bool:
    return keeps_all((*before.regs, before.pcc), (*after.regs, after.pcc))


def keeps_right_of_granule(before: v.Value, after: v.Value) -> bool:
    """Of this granule alone: what other granules hold may be lost by another hart's quiet step."""
    return keeps_all([before], [after])


def hides_of(question: Question) -> Callable[[Hart, Hart], bool]:
    if question.command == "authority":
        return keeps_rights
    tests = [hides(condition) for condition in question.looks]
    return lambda before, after: all(test(before, after) for test in tests)


def forgets_registers(question: Question) -> bool:
    """Not where whole states are told, nor of what is held."""
    return question.command in ("find", "check") or question.items is not None


def registers_asked(question: Question) -> frozenset[int]:
    parts = [registers_seen(one) for one in (*question.looks, *question.at_ends)]
    return NOTHING.union(*parts, *(item.registers() for item in question.items or ()))


def harts_asked(question: Question) -> frozenset[int]:
    """The harts that the question speaks of by their numbers."""
    parts = [harts_named(one) for one in (*question.looks, *question.at_ends)]
    return NOTHING.union(*parts, *(item.harts() for item in question.items or ()))


def exchanges_harts(question: Question) -> bool:
    """Not where runs without an end are asked for, nor where every outcome is told."""
    return not question.of_endless


def plan_of(listing: Listing, question: Question, keep: frozenset[str] = NOTHING,
            most: int = MOST_QUIET) -> Plan:
    plan = Plan(hides=hides_of(question), most=most)
    if question.command == "authority":
        plan = plan._replace(hides_store=keeps_right_of_granule)
    if "registers" not in keep and forgets_registers(question):
        plan = plan._replace(live=live_registers(listing.image.program, registers_asked(question)))
    if "granules" not in keep:
        looked = NOTHING.union(*map(granules_seen, question.looks))
        plan = plan._replace(own=True, shared=looked)
    if "harts" not in keep and exchanges_harts(question):
        plan = plan._replace(groups=groups_of(listing.image, harts_asked(question)))
    return plan


def program_plan(listing: Listing, question: Question, sweeps: list[Sweep],
                 keep: frozenset[str] = NOTHING) -> Plan:
    """What `cheri_explore` leaves out: no granules, and nothing where there are sweeps."""
    kept = frozenset(REDUCTIONS) if sweeps else frozenset({"granules"})
    return plan_of(listing, question, keep | kept)


def reduced_of(found: Found) -> list[str]:
    """The reductions that a search used."""
    plan, used = found.graph.plan, []
    if plan.live and any(len(live) < 31 for live in plan.live.sets):
        used.append("registers")
    if found.graph.touches.own():
        used.append("granules")
    return used + ["harts=" + ",".join(map(str, group)) for group in plan.groups]


def ask(listing: Listing, sweeps: list[Sweep], question: Question, plan: Plan,
        limit: int = ALL_STATES) -> Found:
    wanted = None
    if question.command == "find":
        [condition] = question.looks

        def wanted(graph: Graph, node: Node) -> bool:
            return holds(condition, seen_of(graph.state(node)))
    return search(listing.image, sweeps, plan, limit, wanted)
