"""Own granules: those that one hart alone touches, or that nobody writes.

Each granule is taken for one until the search meets a touch that says otherwise.  Then it is
shared, and the search begins anew.  So what is left at the end was checked at each touch.
"""

from __future__ import annotations

from typing import NamedTuple

from harts import Group


class Touch(NamedTuple):
    granule: int
    is_written: bool


class Shared(Exception):
    """A granule that was taken for one hart's own, and isn't."""

    def __init__(self, granule: int):
        self.granule = granule


class Touches:
    """Who touched which granule.  A hart that is exchanged with others touches for them, too."""

    def __init__(self, shared: frozenset[int], groups: tuple[Group, ...]):
        self.shared = shared
        self.owners = {hart: frozenset(group) for group in groups for hart in group}
        self.harts: dict[int, frozenset[int]] = {}
        self.written: set[int] = set()
        self.noted: set[tuple[int, Touch]] = set()

    def note(self, hart: int, touch: Touch) -> None:
        if (hart, touch) in self.noted or touch.granule in self.shared:
            return
        self.noted.add((hart, touch))
        granule = touch.granule
        mine = self.owners.get(hart, frozenset({hart}))
        self.harts[granule] = self.harts.get(granule, frozenset()) | mine
        if touch.is_written:
            self.written.add(granule)
        if granule in self.written and len(self.harts[granule]) > 1:
            raise Shared(granule)

    def own(self) -> list[int]:
        """The granules whose accesses were quiet where nothing else forbade it."""
        return sorted(self.harts)
