#!/usr/bin/env python3
"""Wrong models, each of which must be told from the right one by the tests.

    wrong.py [--count N] [--seed S] [NAME..]

Each leaves out one condition of what makes a reduction right, and has a listing in `cases/` that
tells it. With N generated listings those are tried alone, which says how soon chance finds it.
"""

from __future__ import annotations

import argparse
import sys
from pathlib import Path
from typing import Callable, NamedTuple
from unittest import mock

import answers
import conditions
import generate
import granules
import graph
import harts
import questions
import registers
from test import Trial, try_listing

CASES = Path(__file__).parent / "cases"


class Wrong(NamedTuple):
    case: str  # the listing in `cases/` that tells it
    place: object
    name: str
    instead: Callable


NOTHING = frozenset()
registers_after = registers.after
right_read_by = registers.read_by
right_note = granules.Touches.note
right_moved = graph.Graph.moved
right_of = registers.Live.of
right_plan = questions.plan_of


def moved_unnoted(self, node, label):
    with mock.patch.object(self, "note", lambda place, touches: None):
        return right_moved(self, node, label)


def unwritten_note(self, hart, touch):
    return right_note(self, hart, touch._replace(is_written=False))


def note_for_itself(self, hart, touch):
    self.owners = {}
    return right_note(self, hart, touch)


def read_less(name: str, register: str) -> Callable:
    def read_by(instr):
        if instr.name == name:
            return right_read_by(instr) - {getattr(instr, register)}
        return right_read_by(instr)
    return read_by


def plan_without(**changes) -> Callable:
    def plan_of(*asked):
        plan = right_plan(*asked)
        return plan._replace(**{name: value for name, value in changes.items()
                                if name != "shared" or plan.own})
    return plan_of


WRONG = {
    "registers of a condition are forgotten":
        Wrong("seen", questions, "registers_asked", lambda question: NOTHING),
    "what is seen of a hart that has stopped is forgotten":
        Wrong("seen", registers.Live, "of", lambda self, hart: NOTHING
              if hart.status != registers.RUNNING else right_of(self, hart)),
    "registers of `reaches` are forgotten":
        Wrong("reached", conditions, "EVERY_REGISTER", NOTHING),
    "what a jump through a capability may reach isn't looked at":
        Wrong("entered", registers, "after", lambda program, number: () if program[number].name in
              ("ecall", "cjalr", "cinvoke") else registers_after(program, number)),
    "a branch leads to its target alone":
        Wrong("fallen", registers, "after", lambda program, number: (program[number].imm,)
              if program[number].name in registers.BRANCHES else registers_after(program, number)),
    "a store doesn't read what it stores":
        Wrong("stored", registers, "read_by", read_less("sd", "c2")),
    "an exchange doesn't read what it stores":
        Wrong("swapped", registers, "read_by", read_less("amoswap.c", "c2")),
    "a load doesn't read its address":
        Wrong("loaded", registers, "read_by", read_less("ld", "c1")),
    "each instruction only computes":
        Wrong("loaded", registers, "only_computes", lambda instr: True),
    "a jump through a capability doesn't read it":
        Wrong("entered", registers, "read_by", read_less("cjalr", "c1")),
    "registers are forgotten of `authority` and of whole outcomes":
        Wrong("reached", questions, "forgets_registers", lambda question: True),
    "the granules of a condition aren't shared":
        Wrong("middle", questions, "plan_of", plan_without(shared=NOTHING)),
    "what a store takes from memory isn't looked at":
        Wrong("dropped", questions, "keeps_right_of_granule", lambda before, after: True),
    "stores aren't noted":
        Wrong("lost", granules.Touches, "note", unwritten_note),
    "touches aren't noted":
        Wrong("written", granules.Touches, "note", lambda self, hart, touch: None),
    "touches of edges aren't noted":
        Wrong("edge", graph.Graph, "moved", moved_unnoted),
    "an exchanged hart touches for itself alone":
        Wrong("late", granules.Touches, "note", note_for_itself),
    "a sweep before a quiet step isn't looked at":
        Wrong("before", graph.Graph, "no_sweep_sees",
              lambda self, before, after: self.is_whole(after)),
    "a sweep after a quiet step isn't looked at":
        Wrong("after", graph.Graph, "no_sweep_sees",
              lambda self, before, after: self.is_whole(before)),
    "harts are exchanged whose images differ":
        Wrong("unequal", questions, "groups_of", lambda image, named:
              harts.groups_of(image._replace(harts=image.harts[:1] * len(image.harts)), named)),
    "harts that a condition names are exchanged":
        Wrong("equal", questions, "harts_asked", lambda question: NOTHING),
    "harts are exchanged where `ends` is asked":
        Wrong("fair", questions, "exchanges_harts", lambda question: True),
    "orders have the names of places":
        Wrong("renamed", graph.Graph, "names", lambda self, who, node: who),
    "`authority` of exchanged harts isn't united":
        Wrong("taken", answers, "group_of", lambda plan, hart: (hart,)),
    "orders of `authority` aren't renamed":
        Wrong("taken", answers, "renamed", lambda order, one, other: order),
}


def trials(asked: argparse.Namespace, case: str) -> list[Trial]:
    if not asked.count:
        path = CASES / f"{case}.lst"
        return [Trial(path.name, path.read_text("ascii"), 0, 2000, 7, None)]
    return [Trial(f"listing {seed}", generate.generate(seed), seed, 400, 3, None)
            for seed in range(asked.seed, asked.seed + asked.count)]


def first_difference(wrong: Wrong, listings: list[Trial]) -> str:
    with mock.patch.object(wrong.place, wrong.name, wrong.instead):
        for trial in listings:
            try:
                differ = try_listing(trial)[1]
            except Exception as fault:  # a wrong model may also come to where it can't go on
                return f"{trial.name}: {type(fault).__name__} {fault}"
            if differ:
                return differ[0]
    return ""


def main() -> int:
    parser = argparse.ArgumentParser(usage=__doc__)
    parser.add_argument("--count", type=int, default=0)
    parser.add_argument("--seed", type=int, default=1)
    parser.add_argument("names", nargs="*")
    asked = parser.parse_args()
    passed = 0
    for name, wrong in WRONG.items():
        if asked.names and name not in asked.names:
            continue
        told = first_difference(wrong, trials(asked, wrong.case))
        passed += not told
        print(f"{name}: {told or 'NOT FOUND'}", flush=True)
    print(f"{passed} not found")
    return int(passed > 0)


if __name__ == "__main__":
    sys.exit(main())
