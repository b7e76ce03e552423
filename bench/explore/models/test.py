#!/usr/bin/env python3
"""Compares each question's answers with every set of reductions with those of all steps.

    test.py [--count N] [--seed S] [--states N] [--keeps K] [--jobs J] [--program PROGRAM]
            [LISTING..]

The listings are N generated ones, and those named. Each is asked `outcomes`, with items to show
and up to the names of equal harts, `find`, `authority` and `check`, with and without sweeps, with
all reductions and with K of the other seven sets of them (with all seven, if nothing is said),
by turns of at most 1, 3 or 1,000 quiet steps, and some of these searches are cut. PROGRAM is
`cheri_explore`: its text and its JSON are compared, with `--steps`, with each `--keep`, and of
searches that are cut. Listings with more than `--states` states are passed over.
"""

from __future__ import annotations

import argparse
import random
import subprocess
import sys
import tempfile
from collections import Counter
from multiprocessing import Pool
from pathlib import Path
from typing import Iterator, NamedTuple, Optional

import generate
import questions
from conditions import read_condition
from graph import MOST_QUIET, Plan
from judge import KEEPS, Differs, expect, judge
from listing import BadListing, Listing, claims_of, read_listing, sweep_of
from machine import Sweep
from questions import ALL_STATES, Question, reduced_of
from texts import answer_json, answer_text, status_of


class Asked(NamedTuple):
    question: Question
    words: list[str]  # what the program is asked, behind its command and listing
    lines: str = ""  # properties that the listing gets
    own: bool = False  # those that it has


def asked_of(listing: Listing, rng: random.Random, sweeps: list[str]) -> list[Asked]:
    """The questions about a listing: its own properties, and some by chance."""
    image = listing.image
    swept = [word for sweep in sweeps for word in ("--sweep", sweep)]
    asked = [Asked(questions.outcomes(), swept), Asked(questions.authority(), swept),
             Asked(questions.outcomes(alike=True), ["--alike", *swept])]
    for alike in (False, True):
        items = generate.some_items(image, rng)
        words = ["--alike", *swept] if alike else swept
        asked.append(Asked(questions.outcomes(items, alike), ["--show", items, *words]))
    conditions = [generate.some_condition(image, rng, names)
                  for names in (True, True, True, False, False)]
    for text in ["any hart is trapped", "0 is trapped", *conditions]:
        asked.append(Asked(questions.find(read_condition(text, listing)), [text, *swept]))
    for ends in (False, True):
        lines = generate.some_properties(image, rng, ends, sweeps)
        asked.append(Asked(questions.check(claims_of(lines.split("\n"))[0], listing), [], lines))
    return asked


def run_program(program: str, text: str, command: str, words: list[str]) -> tuple[str, int]:
    with tempfile.NamedTemporaryFile("w", suffix=".lst") as file:
        file.write(text)
        file.flush()
        done = subprocess.run([program, command, file.name, *words], capture_output=True, text=True)
    return done.stdout, done.returncode


KEEPING = ("", "harts", "registers", "registers,harts", "harts,registers")


def asked_ways(listing: Listing, question: Question,
               sweeps: list[Sweep]) -> Iterator[tuple[list[str], Plan, int]]:
    """In which ways the program is asked: by which words, what it may leave out, and how many
    states it may have."""
    yield ["--steps"], Plan(), ALL_STATES
    for keep in KEEPING:
        words = ["--keep", keep] if keep else []
        plan = questions.program_plan(listing, question, sweeps, frozenset(keep.split(",")))
        yield words, plan, ALL_STATES
        if not keep:
            for limit in (1, 2, 7, 20):
                yield [*words, "--states", str(limit)], plan, limit


def compare_program(program: str, text: str, asked: Asked, sweeps: list[Sweep]) -> int:
    """The text and the JSON in each way; how many were compared."""
    text = asked.lines + text
    listing, question = read_listing(text), asked.question
    if asked.lines:
        question = questions.check(claims_of(listing.lines)[0], listing)
    answers = {"": answer_text, "--json": answer_json}
    count = 0
    for words, plan, limit in asked_ways(listing, question, sweeps):
        found = questions.ask(listing, sweeps, question, plan, limit)
        for json, answer in answers.items():
            mine = answer(found, question, listing), status_of(found, question, listing)
            more = [*words, json] if json else words
            theirs = run_program(program, text, question.command, [*asked.words, *more])
            expect(mine == theirs, "the program", more)
            count += 1
    return count


class Trial(NamedTuple):
    name: str
    text: str
    seed: int
    states: int
    keeps: int
    program: Optional[str]


def try_listing(trial: Trial) -> tuple[Counter, list[str]]:
    """What was counted, and what differs."""
    rng = random.Random(f"asked {trial.seed}")
    try:
        listing = read_listing(trial.text)
    except BadListing:
        return Counter(refused=1), []
    counts: Counter = Counter()
    claims, own = claims_of(listing.lines)
    sweeps = [f"{sweep.lo:#x},{sweep.hi:#x}" for sweep in own]
    if not claims and rng.random() < .45:
        sweeps = [generate.some_sweep(listing.image, rng) for _ in range(rng.choice([1, 1, 2]))]
    allowed = list(map(sweep_of, sweeps))
    all_steps = questions.ask(listing, allowed, questions.outcomes(), Plan(), trial.states)
    if not all_steps.complete:
        return Counter(cut=1), []
    counts.update(listings=1, swept=bool(sweeps), states=len(all_steps.nodes),
                  outcomes=len(all_steps.outcomes()))
    wrong = []
    asked = asked_of(listing, rng, sweeps)
    if claims:
        asked.append(Asked(questions.check(claims, listing), [], own=True))
    for one in asked:
        question = one.question
        is_find = question.command == "find"
        base = questions.ask(listing, allowed, question, Plan()) if is_find else all_steps
        for keep in [KEEPS[0], *rng.sample(KEEPS[1:], trial.keeps)]:
            most = MOST_QUIET if one.own else rng.choice([MOST_QUIET, MOST_QUIET, 3, 1])
            plan = questions.plan_of(listing, question, keep, most)
            limit = rng.choice([ALL_STATES] * 6 + [2, 7, 20])
            limit = ALL_STATES if one.own else limit
            found = questions.ask(listing, allowed, question, plan, limit)
            expect(found.complete or limit < ALL_STATES, "unfinished")
            counts["searches cut"] += not found.complete
            counts.update({question.command: 1, "found": is_find and found.wanted is not None})
            for used in reduced_of(found):
                counts[f"used {used.split('=')[0]}"] += 1
            try:
                judge(base, found, question, listing)
            except Differs as fault:
                wrong.append(f"{trial.name} {question.command} {one.words} "
                             f"keep {sorted(keep)} most {most}: {fault}")
        if trial.program and (one.own or not claims):
            try:
                texts = compare_program(trial.program, trial.text, one, allowed)
                counts["texts of the program"] += texts
            except Differs as fault:
                wrong.append(f"{trial.name} {question.command} {one.words}: {fault}")
    return counts, wrong


def main() -> int:
    parser = argparse.ArgumentParser(usage=__doc__)
    parser.add_argument("--count", type=int, default=100)
    parser.add_argument("--seed", type=int, default=1)
    parser.add_argument("--states", type=int, default=2000)
    parser.add_argument("--keeps", type=int, choices=range(8), default=7)
    parser.add_argument("--jobs", type=int, default=1)
    parser.add_argument("--program")
    parser.add_argument("listings", nargs="*")
    asked = parser.parse_args()
    trials = [Trial(f"listing {seed}", generate.generate(seed), seed, asked.states, asked.keeps,
                    asked.program)
              for seed in range(asked.seed, asked.seed + asked.count)]
    trials += [Trial(name, Path(name).read_text("ascii"), seed, asked.states, asked.keeps,
                     asked.program)
               for seed, name in enumerate(asked.listings, asked.seed)]
    counts: Counter = Counter()
    differ = 0
    with Pool(asked.jobs) as pool:
        for number, (counted, wrong) in enumerate(pool.imap(try_listing, trials)):
            counts += counted
            differ += len(wrong)
            if number % 25 == 24:
                told = ", ".join(f"{name} {count}" for name, count in counts.items())
                print(f"{number + 1}: {told}; {differ} differ", file=sys.stderr, flush=True)
            for line in wrong[:5]:
                print(line, flush=True)
    print(", ".join(f"{name} {count}" for name, count in counts.items()))
    print(f"{differ} differ")
    return int(differ > 0)


if __name__ == "__main__":
    sys.exit(main())
