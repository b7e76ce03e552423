#!/usr/bin/env python3
"""Looks at the laws on which the reductions rest, in every state of all steps.

    laws.py [--count N] [--seed S] [--states N] [LISTING..]

forgotten  a step, and a sweep, of a hart of which what is dead was forgotten leads to the same as
           of the hart itself, forgotten, and leaves the same in memory
stays      a step leaves the merged state as it was, or it is an edge from the merged state to the
and forth  merged state where it leads
falls      no step of another hart, and no sweep, gives a hart more to go: its quiet steps, or
           1,001 where a sweep would clear a tag of it
leads      the quiet steps lead from a state to its rest, each legal; merging twice is merging once
still      a hart that runs in the merged state runs in the state
seen       a state in which a condition holds has a merged state in which it holds
apart      a touch of a granule that isn't shared is of one hart alone, or none of them writes

All are looked at where the search by all steps ends; what `apart` needs was noted by the search
with reductions.
"""

from __future__ import annotations

import argparse
import random
import sys
from collections import Counter
from pathlib import Path

import generate
import questions
from conditions import holds, read_condition
from graph import MOST_QUIET, Graph, Node, Plan
from judge import expect
from listing import Listing, claims_of, read_listing, sweep_of
from machine import Sweep
from questions import Question, seen_of
from registers import live_registers
from search import Found


def look_at_forgetting(listing: Listing, found: Found, counts: Counter) -> None:
    """Each hart with each memory that it meets, whatever registers are seen."""
    graph = found.graph
    for seen in (frozenset(), frozenset({8}), frozenset({6, 9, 12})):
        live = live_registers(listing.image.program, seen)
        plain = Graph(listing.image, graph.sweeps, Plan())
        for hart, memory in dict.fromkeys((h, node[-1]) for node in found.nodes for h in node[:-1]):
            before = graph.harts.things[hart]
            forgot = live.forget(before)
            cells = tuple((granule, graph.values.things[value])
                          for granule, value in graph.memories.things[memory])
            one, two, held = (plain.hart_number(before), plain.hart_number(forgot),
                              plain.memory_number(cells))
            if plain.is_running(one):
                first, second = plain.step(one, held), plain.step(two, held)
                expect(first[1:] == second[1:], "forgotten: memory")
                after = [live.forget(plain.harts.things[it.hart]) for it in (first, second)]
                expect(after[0] == after[1], "forgotten: a step")
                counts["steps forgotten"] += 1
            for sweep in graph.sweeps:
                after = [live.forget(plain.harts.things[plain.swept_hart(it, sweep)])
                         for it in (one, two)]
                expect(after[0] == after[1], "forgotten: a sweep")


def left_to_go(graph: Graph, node: Node) -> dict[int, int]:
    """What each hart has to go: its quiet steps, or more than those can be if it isn't whole."""
    quiet = dict(graph.rest(node)[1])
    return {place: quiet.get(place, 0) if graph.is_whole(hart) else graph.plan.most + 1
            for place, hart in enumerate(node[:-1])}


def look_at_merging(found: Found, by_turns: Found, question: Question, counts: Counter) -> None:
    graph = by_turns.graph
    nodes: list[Node] = []
    for node in found.nodes:
        state = found.graph.state(node)
        nodes.append((*map(graph.hart_number, state.harts), graph.memory_number(state.memory)))
    for node in nodes:
        merged = graph.merge(node)
        expect(merged in by_turns.number_of, "a merged state isn't reached")
        expect(graph.merge(merged) == merged, "merging twice")
        rest, ways = graph.rest(node)
        who = graph.places(rest)
        place_of = {hart: place for place, hart in enumerate(who)}
        at = node
        for hart, count in ways:
            for _ in range(count):
                expect(graph.is_running(at[hart]), "leads")
                at = graph.moved(at, hart)
        expect(at == rest, "leads")
        expect(all(hart in graph.running(node) for hart in graph.running(rest)), "still")
        edges = dict(graph.successors(merged))
        to_go = left_to_go(graph, node)
        for label in graph.labels(node):
            there = graph.moved(node, label)
            target = graph.merge(there)
            left = left_to_go(graph, there)
            stays = not graph.is_sweep(label) and target == merged and left[label] < to_go[label]
            expect(all(left[hart] <= to_go[hart] for hart in left if hart != label), "falls")
            counts["stays" if stays else "forth"] += 1
            edge = label if graph.is_sweep(label) else place_of[label]
            expect(stays or edges.get(edge) == target, "forth")
        if question.command == "find" and holds(question.looks[0], seen_of(graph.state(node))):
            counts["seen"] += 1
            expect(holds(question.looks[0], seen_of(graph.state(merged))), "seen")


def look_at(name: str, text: str, seed: int, limit: int) -> Counter:
    rng = random.Random(f"laws {seed}")
    listing = read_listing(text)
    counts: Counter = Counter()
    sweeps: list[Sweep] = claims_of(listing.lines)[1]
    if not sweeps and rng.random() < .4:
        sweeps = [sweep_of(generate.some_sweep(listing.image, rng))]
    found = questions.ask(listing, sweeps, questions.outcomes(), Plan(), limit)
    if not found.complete:
        return Counter(cut=1)
    counts["listings"] += 1
    look_at_forgetting(listing, found, counts)
    condition = read_condition(generate.some_condition(listing.image, rng), listing)
    # A search that doesn't stop where the condition holds is that of `never`.
    never = questions.Question("find", (condition,))
    asked = [questions.outcomes(), questions.outcomes("0.status"), questions.authority(), never,
             questions.outcomes(alike=True)]
    for question in asked:
        keep = frozenset(rng.sample(questions.REDUCTIONS, rng.choice([0, 0, 1, 2])))
        plan = questions.plan_of(listing, question, keep, rng.choice([MOST_QUIET, 3, 1]))
        by_turns = questions.ask(listing, sweeps, question._replace(command="laws"), plan)
        for granule, harts in by_turns.graph.touches.harts.items():
            written = granule in by_turns.graph.touches.written
            expect(len(harts) == 1 or not written, "apart")
        look_at_merging(found, by_turns, question, counts)
    return counts


def main() -> int:
    parser = argparse.ArgumentParser(usage=__doc__)
    parser.add_argument("--count", type=int, default=20)
    parser.add_argument("--seed", type=int, default=1)
    parser.add_argument("--states", type=int, default=500)
    parser.add_argument("listings", nargs="*")
    asked = parser.parse_args()
    counts: Counter = Counter()
    texts = [(f"listing {seed}", generate.generate(seed), seed)
             for seed in range(asked.seed, asked.seed + asked.count)]
    texts += [(name, Path(name).read_text("ascii"), 0) for name in asked.listings]
    for name, text, seed in texts:
        try:
            counts += look_at(name, text, seed, asked.states)
        except Exception:
            print(name, flush=True)
            raise
    print(", ".join(f"{name} {count}" for name, count in counts.items()))
    return 0


if __name__ == "__main__":
    sys.exit(main())
