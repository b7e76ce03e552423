"""The graph of a search: its nodes are rows of numbers, its edges are turns.

Each hart, each value and each memory gets a number when it is met.  A node has the number of
each hart and of the memory.  A turn is a step of a hart and then its quiet steps, or a sweep and
then the quiet steps of all.
"""

from __future__ import annotations

from typing import Callable, Iterator, NamedTuple, Optional

import machine
from granules import Touch, Touches
from harts import Group, Key, key_of, places_in_order
from machine import ACCESSES, NULL, RUNNING, Asked, Hart, Image, Operation, State, Step, Sweep
from registers import Live
from values import Value, bounds_of

MOST_QUIET = 1000  # a hart with more quiet steps stays where it is

Node = tuple[int, ...]


class Plan(NamedTuple):
    """What a search may leave out."""

    hides: Optional[Callable[[Hart, Hart], bool]] = None  # None: each step is seen
    hides_store: Callable[[Value, Value], bool] = lambda before, after: True
    live: Optional[Live] = None  # None: no register is forgotten
    own: bool = False  # whether accesses to own granules are quiet
    shared: frozenset[int] = frozenset()  # those that are not
    groups: tuple[Group, ...] = ()
    most: int = MOST_QUIET


class Numbers:
    def __init__(self) -> None:
        self.things: list = []
        self.number_of: dict = {}

    def number(self, thing) -> int:
        if thing not in self.number_of:
            self.number_of[thing] = len(self.things)
            self.things.append(thing)
        return self.number_of[thing]


class Looked(NamedTuple):
    """A hart's next step, as far as it goes without memory."""

    hart: Optional[int]  # where it leads; None where it needs a granule
    granule: Optional[int] = None
    asks: bool = False  # it is an access, also where it traps


class Stepped(NamedTuple):
    hart: int
    memory: int
    touch: Optional[Touch]


class Way(NamedTuple):
    """The quiet steps of a hart to its rest."""

    hart: int
    memory: int
    count: int
    touches: tuple[Touch, ...]


class Graph:
    def __init__(self, image: Image, sweeps: list[Sweep], plan: Plan):
        self.image, self.sweeps, self.plan = image, sweeps, plan
        self.operations: list[Operation] = [*map(Step, range(len(image.harts))), *sweeps]
        self.harts, self.values, self.memories = Numbers(), Numbers(), Numbers()
        self.touches = Touches(plan.shared, plan.groups)
        self.looks: dict[int, Looked] = {}
        self.meetings: dict[tuple[int, int], tuple[int, int, bool]] = {}
        self.ways: dict[tuple[int, int], Way] = {}
        self.puts: dict[tuple[int, int, int], int] = {}
        self.swept: dict[tuple[str, int, Sweep], int] = {}
        self.keys: dict[int, Key] = {}

    def is_sweep(self, label: Optional[int]) -> bool:
        """Whether it isn't a step: the beginning has no label."""
        return label is None or label >= len(self.image.harts)

    # Numbers

    def hart_number(self, hart: Hart) -> int:
        return self.harts.number(self.plan.live.forget(hart) if self.plan.live else hart)

    def memory_number(self, memory: tuple[tuple[int, Value], ...]) -> int:
        return self.memories.number(tuple((granule, self.values.number(value))
                                          for granule, value in memory))

    def start(self) -> Node:
        """The opening state, whose harts aren't at their rest."""
        return (*map(self.hart_number, self.image.harts),
                self.memory_number(self.image.granules))

    def state(self, node: Node) -> State:
        memory = tuple((granule, self.values.things[value])
                       for granule, value in self.memories.things[node[-1]])
        return State(tuple(self.harts.things[hart] for hart in node[:-1]), memory)

    def is_running(self, hart: int) -> bool:
        return self.harts.things[hart].status == RUNNING

    def running(self, node: Node) -> frozenset[int]:
        return frozenset(place for place, hart in enumerate(node[:-1]) if self.is_running(hart))

    # One step, one sweep

    def look(self, hart: int) -> Looked:
        if hart not in self.looks:
            before = self.harts.things[hart]
            try:
                asks = machine.fetch(self.image.program, before.pcc).name in ACCESSES
            except machine.Trap:
                asks = False
            try:
                after = machine.step(self.image.program, self.image.ram, before, machine.Granule())
                self.looks[hart] = Looked(self.hart_number(after), None, asks)
            except Asked as asked:
                self.looks[hart] = Looked(None, asked.granule, asks)
        return self.looks[hart]

    def held(self, memory: int, granule: int) -> int:
        """The number of a granule's value."""
        for number, value in self.memories.things[memory]:
            if number == granule:
                return value
        return self.values.number(NULL)

    def put(self, memory: int, granule: int, value: int) -> int:
        if (memory, granule, value) not in self.puts:
            cells = dict(self.memories.things[memory])
            cells[granule] = value
            if self.values.things[value] == NULL:
                del cells[granule]
            self.puts[memory, granule, value] = self.memories.number(tuple(sorted(cells.items())))
        return self.puts[memory, granule, value]

    def step(self, hart: int, memory: int) -> Stepped:
        looked = self.look(hart)
        if looked.hart is not None:
            return Stepped(looked.hart, memory, None)
        found = self.held(memory, looked.granule)
        if (hart, found) not in self.meetings:
            granule = machine.Granule(looked.granule, self.values.things[found])
            before = self.harts.things[hart]
            after = machine.step(self.image.program, self.image.ram, before, granule)
            self.meetings[hart, found] = (self.hart_number(after),
                                          self.values.number(granule.value), granule.is_written)
        after, left, is_written = self.meetings[hart, found]
        if is_written:
            memory = self.put(memory, looked.granule, left)
        return Stepped(after, memory, Touch(looked.granule, is_written))

    def swept_hart(self, hart: int, sweep: Sweep) -> int:
        if ("hart", hart, sweep) not in self.swept:
            self.swept["hart", hart, sweep] = self.hart_number(
                machine.swept_hart(self.harts.things[hart], sweep))
        return self.swept["hart", hart, sweep]

    def swept_memory(self, memory: int, sweep: Sweep) -> int:
        if ("memory", memory, sweep) not in self.swept:
            self.swept["memory", memory, sweep] = self.memory_number(tuple(
                (granule, machine.swept_value(self.values.things[value], sweep))
                for granule, value in self.memories.things[memory]))
        return self.swept["memory", memory, sweep]

    # Quiet steps

    def is_whole(self, hart: int) -> bool:
        """No sweep that is allowed clears a tag of the hart."""
        return all(self.swept_hart(hart, sweep) == hart for sweep in self.sweeps)

    def is_unswept(self, value: int) -> bool:
        """No sweep would clear the value, were it tagged.  So a sweep of memory changes nothing of
        what is quiet, which it would if the tag were asked."""
        base = bounds_of(self.values.things[value][1])[0]
        return not any(sweep.lo <= base < sweep.hi for sweep in self.sweeps)

    def no_sweep_sees(self, before: int, after: int) -> bool:
        return self.is_whole(before) and self.is_whole(after)

    def may_be_quiet(self, hart: int) -> bool:
        looked, plan = self.look(hart), self.plan
        if plan.own:
            return looked.granule is None or looked.granule not in plan.shared
        return not looked.asks

    def quiet_step(self, hart: int, memory: int) -> Optional[Stepped]:
        plan = self.plan
        if plan.hides is None or not self.is_running(hart) or not self.may_be_quiet(hart):
            return None
        there = self.step(hart, memory)
        if not self.no_sweep_sees(hart, there.hart):
            return None
        if not plan.hides(self.harts.things[hart], self.harts.things[there.hart]):
            return None
        if there.touch and not self.is_unswept(self.held(memory, there.touch.granule)):
            return None
        if there.touch and there.touch.is_written:
            old, new = (self.held(one, there.touch.granule) for one in (memory, there.memory))
            if not plan.hides_store(self.values.things[old], self.values.things[new]):
                return None
        return there

    def way(self, hart: int, memory: int) -> Way:
        if (hart, memory) not in self.ways:
            at, held, count, touches, met = hart, memory, 0, {}, set()
            while (at, held) not in met and (there := self.quiet_step(at, held)):
                met.add((at, held))  # a way that comes back here has no end
                at, held, count = there.hart, there.memory, count + 1
                touches.setdefault(there.touch)
            ends = (at, held) not in met and count <= self.plan.most
            self.ways[hart, memory] = (Way(at, held, count, tuple(filter(None, touches))) if ends
                                       else Way(hart, memory, 0, ()))
        return self.ways[hart, memory]

    def rest(self, node: Node, label: Optional[int] = None) -> tuple[Node, list[tuple[int, int]]]:
        """Each hart at its rest, and by how many steps.  After a step of a hart it is the only one
        that wasn't: a touch of what others take for their own is noted, and the search ends."""
        row, counts = list(node), []
        for place in range(len(node) - 1) if self.is_sweep(label) else (label,):
            way = self.way(row[place], row[-1])
            if way.count:
                self.note(place, way.touches)
                row[place], row[-1] = way.hart, way.memory
                counts.append((place, way.count))
        return tuple(row), counts

    def note(self, place: int, touches: tuple[Touch, ...]) -> None:
        if self.plan.own:
            for touch in touches:
                self.touches.note(place, touch)

    # Turns

    def moved(self, node: Node, label: int) -> Node:
        """A step or a sweep, before anything comes to rest."""
        if self.is_sweep(label):
            operation = self.operations[label]
            return (*(self.swept_hart(hart, operation) for hart in node[:-1]),
                    self.swept_memory(node[-1], operation))
        there = self.step(node[label], node[-1])
        self.note(label, (there.touch,) if there.touch else ())
        return (*node[:label], there.hart, *node[label + 1:-1], there.memory)

    def key(self, hart: int) -> Key:
        if hart not in self.keys:
            self.keys[hart] = key_of(self.harts.things[hart])
        return self.keys[hart]

    def places(self, node: Node) -> list[int]:
        """Where the hart at each place of the chosen node stands."""
        return places_in_order([self.key(hart) for hart in node[:-1]], self.plan.groups)

    def choose(self, node: Node) -> Node:
        if not self.plan.groups:
            return node
        return (*(node[place] for place in self.places(node)), node[-1])

    def merge(self, node: Node, label: Optional[int] = None) -> Node:
        return self.choose(self.rest(node, label)[0])

    def opening(self) -> Node:
        return self.merge(self.start())

    def labels(self, node: Node) -> Iterator[int]:
        for label in range(len(self.operations)):
            if self.is_sweep(label) or self.is_running(node[label]):
                yield label

    def successors(self, node: Node) -> Iterator[tuple[int, Node]]:
        for label in self.labels(node):
            yield label, self.merge(self.moved(node, label), label)

    def names(self, who: list[int], node: Node) -> list[int]:
        """Which hart stands at each place of the chosen node, from those at the node's."""
        return [who[place] for place in self.places(node)] if self.plan.groups else who

    def order_of(self, labels: list[int]) -> tuple[list[Operation], list[int], list[int]]:
        """All steps of turns from the opening state, how many steps there are up to each turn's
        end, and which hart stands at each place of the last node."""
        order: list[Operation] = []
        ends: list[int] = []
        who = list(range(len(self.image.harts)))
        node = self.start()
        for label in [None, *labels]:
            if label is not None:
                operation = self.operations[label]
                order.append(operation if isinstance(operation, Sweep) else Step(who[label]))
                node = self.moved(node, label)
            node, counts = self.rest(node, label)
            for place, count in counts:
                order += [Step(who[place])] * count
            node, who = self.choose(node), self.names(who, node)
            ends.append(len(order))
        return order, ends, who
