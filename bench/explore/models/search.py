"""The search: breadth first over a graph, and what it finds of endless runs."""

from __future__ import annotations

from typing import Callable, NamedTuple, Optional

from granules import Shared
from graph import Graph, Node, Plan
from machine import Image, Operation, State, Step, Sweep, replay

Test = Callable[[Graph, Node], bool]


class Found:
    """The kept nodes, in the order in which they were met, and the edges between them."""

    def __init__(self, graph: Graph):
        opening = graph.opening()
        self.graph = graph
        self.nodes: list[Node] = [opening]
        self.number_of: dict[Node, int] = {opening: 0}
        self.came_from: list[tuple[int, int]] = [(0, 0)]
        self.edges: list[list[tuple[int, int]]] = []
        self.complete = True
        self.wanted: Optional[int] = None

    def labels_to(self, number: int) -> list[int]:
        labels = []
        while number:
            number, label = self.came_from[number]
            labels.append(label)
        return labels[::-1]

    def order_to(self, number: int) -> list[Operation]:
        return self.graph.order_of(self.labels_to(number))[0]

    def real(self, number: int) -> State:
        """A state of the machine that this node stands for: the one where its order leads."""
        return replay(self.graph.image, self.order_to(number))

    def outcomes(self) -> list[int]:
        return [number for number, node in enumerate(self.nodes) if not self.graph.running(node)]

    def is_step(self, label: int) -> bool:
        return isinstance(self.graph.operations[label], Step)


def explore(graph: Graph, limit: int, wanted: Optional[Test]) -> Found:
    found = Found(graph)
    if wanted and wanted(graph, found.nodes[0]):
        found.wanted = 0
        return found
    for number, node in enumerate(found.nodes):  # the list grows meanwhile
        found.edges.append([])
        for label, there in graph.successors(node):
            if there not in found.number_of:
                if len(found.nodes) == limit:
                    found.complete = False
                    return found
                found.number_of[there] = len(found.nodes)
                found.nodes.append(there)
                found.came_from.append((number, label))
                if wanted and wanted(graph, there):
                    found.wanted = found.number_of[there]
                    return found
            found.edges[number].append((label, found.number_of[there]))
    return found


def finish_edges(found: Found) -> None:
    """Of a search that was cut: the edges of kept nodes that lead to kept nodes."""
    for number in range(max(0, len(found.edges) - 1), len(found.nodes)):
        del found.edges[number:]
        found.edges.append([(label, found.number_of[there])
                            for label, there in found.graph.successors(found.nodes[number])
                            if there in found.number_of])


def search(image: Image, sweeps: list[Sweep], plan: Plan, limit: int = 10**8,
           wanted: Optional[Test] = None) -> Found:
    """Begun anew with one granule more that is shared, until no touch says that a guess was
    wrong."""
    while True:
        graph = Graph(image, sweeps, plan)
        try:
            found = explore(graph, limit, wanted)
            if not found.complete and wanted is None:
                finish_edges(found)
            return found
        except Shared as shared:
            plan = plan._replace(shared=plan.shared | {shared.granule})


# --------------------------------------------------------------------------
# Endless runs
# --------------------------------------------------------------------------

def components(found: Found) -> list[int]:
    """Two nodes have the same number where each leads to the other."""
    count = len(found.nodes)
    backwards: list[list[int]] = [[] for _ in range(count)]
    for number, edges in enumerate(found.edges):
        for _, there in edges:
            backwards[there].append(number)
    left: list[int] = []  # the nodes in the order in which a walk leaves them
    seen = [False] * count
    for root in range(count):
        if seen[root]:
            continue
        seen[root] = True
        path = [(root, iter(found.edges[root]))]
        while path:
            here, rest = path[-1]
            for _, there in rest:
                if not seen[there]:
                    seen[there] = True
                    path.append((there, iter(found.edges[there])))
                    break
            else:
                left.append(here)
                path.pop()
    component = [-1] * count
    for root in reversed(left):
        if component[root] >= 0:
            continue
        component[root], pile = root, [root]
        while pile:
            for there in backwards[pile.pop()]:
                if component[there] < 0:
                    component[there] = root
                    pile.append(there)
    return component


class Endless(NamedTuple):
    answer: str  # no, unfair, yes or unknown
    order: Optional[list[Operation]] = None
    loop: Optional[list[Operation]] = None


def endless(found: Found) -> Endless:
    """Whether a run can go on for ever, and whether a fair one can.  No plan for this exchanges
    harts: they would change names along a loop."""
    component = components(found)
    steppers: dict[int, set[int]] = {}
    for number, edges in enumerate(found.edges):
        for label, there in edges:
            if found.is_step(label) and component[there] == component[number]:
                steppers.setdefault(component[number], set()).add(label)
    unfair = None
    for number, node in enumerate(found.nodes):
        stepping = steppers.get(component[number])
        if stepping and found.graph.running(node) == stepping:
            return Endless("yes", *lasso(found, number, component, frozenset(stepping)))
        if stepping and unfair is None:
            unfair = number
    if not found.complete:
        return Endless("unknown")
    if unfair is None:
        return Endless("no")
    return Endless("unfair", *lasso(found, unfair, component, None))


def lasso(found: Found, start: int, component: list[int],
          steppers: Optional[frozenset[int]]) -> tuple[list[Operation], list[Operation]]:
    """The order to a node, and the least of the shortest ways back to it on which each of these
    harts steps, or any where none is named."""
    opening = (start, frozenset())
    came_from: dict = {opening: None}
    for place in (queue := [opening]):
        number, stepped = place
        for label, there in found.edges[number]:
            if component[there] != component[start]:
                continue
            now = stepped | {label} if found.is_step(label) else stepped
            if (there, now) in came_from:
                continue
            came_from[there, now] = place, label
            if there == start and (now == steppers if steppers is not None else now):
                labels, at = [], (there, now)
                while came_from[at]:
                    at, label = came_from[at]
                    labels.append(label)
                before = found.labels_to(start)
                order, ends, _ = found.graph.order_of(before + labels[::-1])
                return order[:ends[len(before)]], order[ends[len(before)]:]
            queue.append((there, now))
    raise AssertionError("a node of a loop without a loop")
