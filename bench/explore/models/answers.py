"""The answers: what a search found, each with an order of the machine's own steps."""

from __future__ import annotations

from typing import NamedTuple, Optional

import machine
from conditions import Condition, holds, read_condition
from graph import Node, Plan
from listing import Claim, Listing
from machine import ACCESSES, Hart, Operation, State, Step, Sweep
from questions import Item, Question, Right, lies_within, rights_of, seen_of
from search import Endless, Found, endless
from values import Value

class Row(NamedTuple):
    values: tuple[str, ...]
    count: int  # the nodes that have these values; they may stand for more outcomes
    order: list[Operation]


def shown_rows(found: Found, items: tuple[Item, ...]) -> list[Row]:
    """The distinct rows of values at ends, read off the states where orders lead."""
    first: dict[tuple[str, ...], list[int]] = {}
    for number in found.outcomes():
        state = found.graph.state(found.nodes[number])
        first.setdefault(tuple(item.text_in(state) for item in items), []).append(number)
    return [Row(values, len(numbers), found.order_to(numbers[0]))
            for values, numbers in first.items()]


class Met(NamedTuple):
    order: list[Operation]
    state: State


def found_state(found: Found, question: Question) -> Optional[Met]:
    """The trimmed order of `find` and the state where it leads."""
    if found.wanted is None:
        return None
    [condition] = question.looks
    return trimmed(found.graph.image, found.order_to(found.wanted), condition)


def asks_memory(image: machine.Image, hart: Hart) -> bool:
    try:
        return machine.fetch(image.program, hart.pcc).name in ACCESSES
    except machine.Trap:
        return False


def trimmed(image: machine.Image, order: list[Operation], condition: Condition) -> Met:
    """Without steps behind the last sweep that are their hart's last, ask for no memory, and
    aren't needed; the last such goes first."""
    state = machine.opening(image)
    taken: list[list[tuple[int, Hart, bool]]] = [[] for _ in state.harts]
    for place, operation in enumerate(order):
        if isinstance(operation, Sweep):
            taken = [[] for _ in state.harts]
        else:
            hart = state.harts[operation.hart]
            taken[operation.hart].append((place, hart, asks_memory(image, hart)))
        state = machine.take(image, state, operation)
    left_out: set[int] = set()
    while True:
        last = sorted(((steps[-1], hart) for hart, steps in enumerate(taken) if steps),
                      key=lambda it: -it[0][0])
        for (place, before, asks), hart in last:
            harts = (*state.harts[:hart], before, *state.harts[hart + 1:])
            if not asks and holds(condition, seen_of(state._replace(harts=harts))):
                state = state._replace(harts=harts)
                left_out.add(place)
                taken[hart].pop()
                break
        else:
            return Met([one for place, one in enumerate(order) if place not in left_out], state)


class Verdict(NamedTuple):
    answer: str
    order: Optional[list[Operation]] = None
    loop: Optional[list[Operation]] = None


def verdicts(found: Found, question: Question, listing: Listing) -> list[Verdict]:
    ends = endless(found) if question.of_endless else None
    return [verdict_of(found, ends, claim, listing) for claim in question.claims]


def verdict_of(found: Found, ends: Optional[Endless], claim: Claim, listing: Listing) -> Verdict:
    if claim.kind.startswith("ends"):
        good = ("no",) if claim.kind == "ends" else ("no", "unfair")
        if ends.answer == "unknown":
            return Verdict("unknown")
        return Verdict("holds") if ends.answer in good else Verdict("violated", *ends[1:])
    condition = read_condition(claim.condition, listing)
    wanted = claim.kind in ("never", "sometimes")
    for number in found.outcomes() if claim.kind == "finally" else range(len(found.nodes)):
        if holds(condition, seen_of(found.graph.state(found.nodes[number]))) == wanted:
            answer = "holds" if claim.kind == "sometimes" else "violated"
            return Verdict(answer, found.order_to(number))
    if not found.complete:
        return Verdict("unknown")
    return Verdict("violated" if claim.kind == "sometimes" else "holds")


class Entry(NamedTuple):
    right: Right
    order: list[Operation]


def greatest(rights: set[Right]) -> list[Right]:
    kept = [one for one in rights
            if not any(other != one and lies_within(one, other) for other in rights)]
    return sorted(kept, key=lambda right: (right[0], -right[1], right[2]))


def group_of(plan: Plan, hart: Optional[int]) -> tuple[Optional[int], ...]:
    """The harts that a hart is exchanged with, itself among them; of memory `None` alone."""
    return next((group for group in plan.groups if hart in group), (hart,))


def order_for(found: Found, number: int, hart: int, group: tuple[int, ...],
              right: Right) -> list[Operation]:
    """The order to a node where some hart of a group holds a right, with this hart's number and
    that of the first that does in each other's place, if it doesn't hold the right itself."""
    order, _, who = found.graph.order_of(found.labels_to(number))
    holders = [who[place] for place in group
               if right in rights_of(values_in(found, found.nodes[number], place))]
    return order if hart in holders else renamed(order, min(holders), hart)


def held_by(found: Found, hart: Optional[int]) -> list[Entry]:
    """What a hart, or memory, ever holds: of a hart that is exchanged with others, what any of
    them holds."""
    graph = found.graph
    group = group_of(graph.plan, hart)
    first: dict[Right, int] = {}
    seen: set[int] = set()
    for number, node in enumerate(found.nodes):
        for place in group:
            column = -1 if place is None else place
            if node[column] not in seen:
                seen.add(node[column])
                for right in rights_of(values_in(found, node, place)):
                    first.setdefault(right, number)
    entries = []
    for right in greatest(set(first)):
        if hart is None:
            order = graph.order_of(found.labels_to(first[right]))[0]
        else:
            order = order_for(found, first[right], hart, group, right)
        entries.append(Entry(right, order))
    return entries


def values_in(found: Found, node: Node, place: Optional[int]) -> list[Value]:
    """What the hart at a place of a node holds, or memory."""
    graph = found.graph
    if place is None:
        return [graph.values.things[value] for _, value in graph.memories.things[node[-1]]]
    hart = graph.harts.things[node[place]]
    return [*hart.regs, hart.pcc]


def renamed(order: list[Operation], one: int, other: int) -> list[Operation]:
    names = {one: other, other: one}
    return [Step(names.get(operation.hart, operation.hart)) if isinstance(operation, Step)
            else operation for operation in order]


def held(found: Found) -> list[list[Entry]]:
    """Of each hart, then of memory."""
    harts = range(len(found.graph.image.harts))
    return [held_by(found, hart) for hart in (*harts, None)]
