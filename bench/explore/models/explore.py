#!/usr/bin/env python3
"""A model of `cheri_explore` with all reductions.

    explore.py outcomes LISTING [--show ITEM[,ITEM]..] [--alike] [--sweep LO,HI].. [--json]
    explore.py find LISTING CONDITION [--sweep LO,HI].. [--json]
    explore.py authority LISTING [--sweep LO,HI]..
    explore.py check LISTING [--json]

and of each `--states N`, `--steps` (each step is a turn, and nothing is left out) and
`--keep WHAT[,WHAT]..`, of registers, granules and harts: those reductions aren't used.
Command lines and listings are taken to be good.
"""

from __future__ import annotations

import argparse
import sys
from pathlib import Path

import questions
from conditions import read_condition
from graph import Plan
from listing import claims_of, read_listing, sweep_of
from texts import answer_json, answer_text, status_of


def read_words(words: list[str]) -> argparse.Namespace:
    parser = argparse.ArgumentParser(usage=__doc__)
    parser.add_argument("command", choices=("outcomes", "find", "authority", "check"))
    parser.add_argument("listing")
    parser.add_argument("condition", nargs="?")
    parser.add_argument("--show")
    parser.add_argument("--alike", action="store_true")
    parser.add_argument("--sweep", action="append", default=[])
    parser.add_argument("--states", type=int, default=questions.ALL_STATES)
    parser.add_argument("--steps", action="store_true")
    parser.add_argument("--keep", default="")
    parser.add_argument("--json", action="store_true")
    return parser.parse_intermixed_args(words)


def answer(words: list[str]) -> tuple[str, int]:
    """The text and the status of an answer."""
    asked = read_words(words)
    listing = read_listing(Path(asked.listing).read_text("ascii"))
    sweeps = list(map(sweep_of, asked.sweep))
    if asked.command == "outcomes":
        question = questions.outcomes(asked.show, asked.alike)
    elif asked.command == "find":
        question = questions.find(read_condition(asked.condition, listing))
    elif asked.command == "authority":
        question = questions.authority()
    else:
        claims, sweeps = claims_of(listing.lines)
        question = questions.check(claims, listing)
    keep = frozenset(asked.keep.split(","))
    plan = Plan() if asked.steps else questions.plan_of(listing, question, keep)
    found = questions.ask(listing, sweeps, question, plan, asked.states)
    text = (answer_json if asked.json else answer_text)(found, question, listing)
    return text, status_of(found, question, listing)


def main() -> int:
    text, status = answer(sys.argv[1:])
    sys.stdout.write(text)
    return status


if __name__ == "__main__":
    sys.exit(main())
