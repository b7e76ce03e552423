#!/usr/bin/env python3
"""States with and without each reduction.

    table.py [--states N] [--command find|outcomes|authority] [LISTING or DIRECTORY ..]

A search that has more than N states is told as `N+`; programs of which nothing ends are left
out. `find` is of what never holds and sees no step. Where nothing is named, the examples are
searched.
"""

from __future__ import annotations

import argparse
import sys
from pathlib import Path
from typing import Optional

import questions
from conditions import read_condition
from graph import Plan
from listing import BadListing, Listing, claims_of, read_listing
from questions import REDUCTIONS, Question

EXAMPLES = Path(__file__).parents[3] / "examples"
NEVER = "any hart (h is running and h is halted)"
KEEPS = {"turns": REDUCTIONS, "registers": ("granules", "harts"),
         "granules": ("registers", "harts"), "harts": ("registers", "granules"), "all": ()}
COLUMNS = {"find": ("registers", "granules", "harts", "all"), "outcomes": ("granules",),
           "authority": ("granules", "harts", "all")}


def question_of(command: str, listing: Listing) -> Question:
    if command == "find":
        return questions.find(read_condition(NEVER, listing))
    return questions.outcomes() if command == "outcomes" else questions.authority()


def states_of(listing: Listing, question: Question, plan: Plan, limit: int) -> Optional[int]:
    """The count of states; `None` where there are more."""
    sweeps = claims_of(listing.lines)[1]
    found = questions.ask(listing, sweeps, question, plan, limit)
    return len(found.nodes) if found.complete else None


def row_of(path: Path, command: str, limit: int) -> Optional[str]:
    try:
        listing = read_listing(path.read_text("ascii"))
    except BadListing:
        return None
    question = question_of(command, listing)
    counts = [states_of(listing, question, Plan(), limit)]
    for name in ("turns", *COLUMNS[command]):
        plan = questions.plan_of(listing, question, frozenset(KEEPS[name]))
        counts.append(states_of(listing, question, plan, limit))
    if not any(counts):
        return None
    told = " | ".join(f"{count:,}" if count else f"{limit:,}+" for count in counts)
    return f"| {path.stem} | {len(listing.image.harts)} | {told} |"


def main() -> int:
    parser = argparse.ArgumentParser(usage=__doc__)
    parser.add_argument("--states", type=int, default=50_000)
    parser.add_argument("--command", choices=COLUMNS, default="find")
    parser.add_argument("places", nargs="*", type=Path, default=[EXAMPLES])
    asked = parser.parse_args()
    columns = ("Program", "Harts", "All steps", "Turns", *(
        "and all" if name == "all" else f"and {name}" for name in COLUMNS[asked.command]))
    print("| " + " | ".join(columns) + " |")
    print("|---" * len(columns) + "|")
    for place in asked.places:
        for path in sorted(place.glob("*.lst")) if place.is_dir() else [place]:
            row = row_of(path, asked.command, asked.states)
            if row:
                print(row, flush=True)
    return 0


if __name__ == "__main__":
    sys.exit(main())
