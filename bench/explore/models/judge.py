"""Compares what a search found with what the search of all steps found, and replays its orders.

Orders are replayed by the machine itself, step by step, which knows nothing of searches.
"""

from __future__ import annotations

import itertools
from answers import Verdict, found_state, held, shown_rows, verdicts
from conditions import holds, read_condition
from harts import Group
from listing import Claim, Listing
from machine import RUNNING, Operation, State, Step, replay
from questions import REDUCTIONS, Question, rights_of, seen_of
from search import Found, endless

KEEPS = [frozenset(keep) for size in range(len(REDUCTIONS) + 1)
         for keep in itertools.combinations(REDUCTIONS, size)]


class Differs(Exception):
    pass


def expect(is_so: bool, *what: object) -> None:
    if not is_so:
        raise Differs(" ".join(map(str, what)))


def in_groups(state: State, groups: tuple[Group, ...]) -> State:
    """The state with its equal harts sorted, whatever their names."""
    harts = list(state.harts)
    for group in groups:
        for place, hart in zip(group, sorted(state.harts[place] for place in group)):
            harts[place] = hart
    return state._replace(harts=tuple(harts))


def forgotten(found: Found, state: State) -> State:
    live = found.graph.plan.live
    return state._replace(harts=tuple(map(live.forget, state.harts))) if live else state


def judge_loop(found: Found, order: list[Operation], loop: list[Operation], fair: bool) -> None:
    """The loop can be taken from where the order leads, and again, for ever."""
    image = found.graph.image
    state = replay(image, order)
    there = replay(image, loop, state)
    expect(forgotten(found, there) == forgotten(found, state), "a loop doesn't come back")
    steppers = {one.hart for one in loop if isinstance(one, Step)}
    running = {number for number, hart in enumerate(state.harts) if hart.status == RUNNING}
    expect(bool(steppers), "a loop without a step")
    expect(not fair or steppers == running, "a loop that isn't fair")
    replay(image, loop, there)


def judge_outcomes(base: Found, found: Found, question: Question) -> None:
    image, groups = base.graph.image, found.graph.plan.groups
    if question.of_endless:
        told, mine = endless(base), endless(found)
        is_open = not found.complete and mine.answer == "unknown"
        expect(is_open or told.answer == mine.answer, "endless", told.answer, mine.answer)
        if mine.order is not None:
            judge_loop(found, mine.order, mine.loop, mine.answer == "yes")
    if question.items is not None:
        rows, mine = (shown_rows(one, question.items) for one in (base, found))
        told, mine_told = ({row.values for row in one} for one in (rows, mine))
        expect(told == mine_told if found.complete else told >= mine_told, "rows")
        for row in mine:
            state = replay(image, row.order)
            expect(tuple(item.text_in(state) for item in question.items) == row.values, "a row")
        return
    ends = {in_groups(base.graph.state(base.nodes[number]), groups) for number in base.outcomes()}
    mine = set()
    for number in found.outcomes():
        state, node = found.real(number), found.graph.state(found.nodes[number])
        expect(in_groups(state, groups) == in_groups(node, groups), "an order leads elsewhere")
        mine.add(in_groups(state, groups))
    expect(ends == mine if found.complete else ends >= mine, "outcomes")
    expect(len(mine) == len(found.outcomes()), "an outcome twice")


def judge_find(base: Found, found: Found, question: Question) -> None:
    if found.complete or found.wanted is not None:
        expect((base.wanted is None) == (found.wanted is None), "found or none")
    met = found_state(found, question)
    if met:
        expect(replay(base.graph.image, met.order) == met.state, "an order leads elsewhere")
        expect(holds(question.looks[0], seen_of(met.state)), "the condition doesn't hold")


def judge_authority(base: Found, found: Found) -> None:
    image = base.graph.image
    for column, (told, mine) in enumerate(zip(held(base), held(found))):
        rights, mine_held = ([entry.right for entry in one] for one in (told, mine))
        expect(rights == mine_held or not found.complete, "rights", column)
        for entry in mine:
            state = replay(image, entry.order)
            if column < len(image.harts):
                hart = state.harts[column]
                values = [*hart.regs, hart.pcc]
            else:
                values = [value for _, value in state.memory]
            expect(entry.right in rights_of(values), "a right isn't held", column)


def judge_claim(found: Found, claim: Claim, verdict: Verdict, listing: Listing) -> None:
    if verdict.loop is not None:
        judge_loop(found, verdict.order, verdict.loop, claim.kind == "ends fairly")
    elif verdict.order is not None:
        state = replay(found.graph.image, verdict.order)
        condition = read_condition(claim.condition, listing)
        wanted = claim.kind in ("never", "sometimes")
        expect(holds(condition, seen_of(state)) == wanted, "the condition isn't as it was told")
        stopped = all(hart.status != RUNNING for hart in state.harts)
        expect(claim.kind != "finally" or stopped, "no end")


def judge_check(base: Found, found: Found, question: Question, listing: Listing) -> None:
    told, mine = (verdicts(one, question, listing) for one in (base, found))
    for claim, one, two in zip(question.claims, told, mine):
        is_open = not found.complete and two.answer == "unknown"
        expect(is_open or one.answer == two.answer, claim.text, one.answer, two.answer)
        judge_claim(found, claim, two, listing)


def judge(base: Found, found: Found, question: Question, listing: Listing) -> None:
    """Of a search that was cut, what it says must be so, and it may leave open what it can."""
    if question.command == "outcomes":
        judge_outcomes(base, found, question)
    elif question.command == "find":
        judge_find(base, found, question)
    elif question.command == "authority":
        judge_authority(base, found)
    else:
        judge_check(base, found, question, listing)
