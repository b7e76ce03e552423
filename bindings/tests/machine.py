"""Runs listings in orders by the Python module, and compares what it says with the programs' files.

    machine.py FOLDER [PROGRAM]

FOLDER has NAME.lst with NAME.N.order, NAME.N.report and NAME.N.explanation, as examples/ does. With
PROGRAM, which is cheri_sim, each run is made by `PROGRAM run` too. The module is found by PYTHONPATH.
Prints each difference and, last, the counts; ends with 0 where nothing differs.
"""

from __future__ import annotations

import copy
import doctest
import pickle
import re
import subprocess
import sys
import threading
from pathlib import Path
from typing import Any, Callable, List, Type

import cheri_machine
from cheri_machine import Hart, ListingFault, Machine, Refused, Step, Sweep, Value

SMALL = ".ram 16\n.hart 0x10000000 4 0x10000000 execute\necall\n"


def raises(error: Type[BaseException], call: Callable[[], Any]) -> Any:
    try:
        call()
    except error as caught:
        return caught
    raise AssertionError(f"{error.__name__} is not raised")


def event_line(number: int, event: Any) -> str:
    """The report's line of an event."""
    if isinstance(event, Sweep):
        return f"{number} sweep lo={event.lo:016x} hi={event.hi:017x} cleared={event.cleared}"
    ends = event.outcome if event.cause is None else f"trap cause={event.cause} reg={event.reg}"
    return f"{number} hart={event.hart} pc={event.pc:016x} {ends}"


def hart_line(number: int, hart: Hart) -> str:
    ends = "" if hart.cause is None else f" cause={hart.cause} reg={hart.reg}"
    return f"hart {number} {hart.state}{ends}"


def value_start(name: str, value: Value) -> str:
    """What a report's line of a value begins with, whose tagged ones go on."""
    return f"{name} {int(value.tag)} {value.word >> 64:016x}_{value.address:016x}"


def told_lines(machine: Machine) -> List[str]:
    """The lines of a report, each as far as the calls that read tell it."""
    harts, granules, events, _ = machine.sizes
    lines = [event_line(number, event) for number, event in enumerate(machine)]
    assert len(lines) == events == len(machine)
    for number in range(harts):
        lines.append(hart_line(number, machine.hart(number)))
        lines.append(value_start("pcc", machine.pcc(number)))
        values = [(reg, machine.register(number, reg)) for reg in range(32)]
        lines += [value_start(f"c{reg}", value) for reg, value in values if value != Value(0, False)]
    for number in range(granules):
        value = machine.granule(number)
        if value != Value(0, False):
            lines.append(value_start(f"mem {cheri_machine.RAM_BASE + 16 * number:016x}", value))
    return lines


def differences(listing: Path, order: Path, program: List[str]) -> int:
    """How much the module says otherwise of a run than the files and the program."""
    wrong = 0
    text, asked = listing.read_text(), order.read_text()
    with Machine(text) as machine:
        try:
            events = machine.run(asked)
        except Refused as refused:
            events = list(machine)
            assert refused.place == len(events)
        assert events == list(machine) and (not events or machine.last == events[-1])
        printed = order.with_suffix(".report").read_text()
        report = machine.report()
        if program:
            ran = subprocess.run([*program, "run", listing, "--order", order], capture_output=True, text=True)
            wrong += ran.stdout != report
        shown = [line for line in printed.splitlines() if not re.match(r"cheri-sim|image|entries|end", line)]
        told = told_lines(machine)
        wrong += report != printed
        explained = order.with_suffix(".explanation").read_text()
        wrong += machine.explanation() != explained
        parts = [machine.explanation(number, number).splitlines(True)[3:-1] for number in range(len(events))]
        wrong += "".join(line for part in parts for line in part) != "".join(explained.splitlines(True)[3:-1])
        wrong += machine.why != "".join(parts[-1]) if parts else machine.why != ""
        wrong += len(shown) != len(told)
        wrong += sum(not line.startswith(start) for line, start in zip(shown, told))
    if wrong:
        print(f"{order}: {wrong} differ")
    return wrong


def try_class() -> None:
    machine = Machine(SMALL, limit=2)
    assert repr(machine) == "<Machine of 1 hart and 1 granule after 0 events: hart 0 running>"
    assert machine.sizes == (1, 1, 0, 2) and machine.last is None and bool(machine)
    assert raises(Refused, lambda: machine.step(1)).status == 5
    assert raises(Refused, lambda: machine.sweep(2, 1)).status == 8
    assert raises(Refused, lambda: machine.sweep(0, 1 << 65)).status == 8
    assert raises(Refused, lambda: machine.register(0, 32)).status == 9
    assert raises(Refused, lambda: machine.register(1, 32)).status == 5
    assert raises(Refused, lambda: machine.granule(1)).status == 10
    assert raises(Refused, lambda: machine.event(0)).status == 11
    assert raises(Refused, lambda: machine.event(-1)).status == 11
    for call in (lambda: machine.step(256), lambda: machine.step(-1), lambda: machine.sweep(1 << 64, 1 << 64),
                 lambda: machine.granule(1 << 32), lambda: machine.run("9"), lambda: machine.run("[0,1]"),
                 lambda: machine.run("order 2\n[0,1"), lambda: Machine(SMALL, limit=1 << 32)):
        raises(ValueError, call)
    assert len(machine) == 0
    stopped = raises(Refused, lambda: machine.run("0 0\n0"))
    assert (stopped.status, stopped.place) == (7, 1)
    assert machine.last == Step(0, 0x10000000, "halt")
    assert machine.run([(0, 1 << 64)]) == [Sweep(0, 1 << 64, 1)]
    assert raises(Refused, lambda: machine.step(0)).status == 6
    assert machine.hart(0) == Hart("halted") and not machine.pcc(0).tag
    for way in (copy.copy, copy.deepcopy, pickle.dumps):
        raises(TypeError, lambda: way(machine))
    machine.close()
    machine.close()
    assert repr(machine) == "<Machine closed>"
    assert raises(Refused, machine.report).status == raises(Refused, machine.explanation).status == 4
    assert raises(Refused, lambda: Machine(SMALL, limit=0)).status == 2
    fault = raises(ListingFault, lambda: Machine(".ram 16\naddi\n"))
    assert fault.kind > 0 and fault.line == 2
    assert raises(ListingFault, lambda: Machine("")).line == 0
    raises(ListingFault, lambda: Machine(b".ram \xff\n"))


def try_threads() -> None:
    """Threads that step one machine, and threads with one each."""
    loop = ".ram 16\n.hart 0x10000000 8 0x10000000 execute\n.hart 0x10000000 8 0x10000000 execute\n"
    loop += "again:\naddi c5, c5, 1\nbeq c0, c0, again\n"
    shared, own = Machine(loop), [Machine(loop) for _ in range(2)]

    def go(hart: int) -> None:
        for _ in range(2000):
            shared.step(hart)
            own[hart].step(hart)

    threads = [threading.Thread(target=go, args=(hart,)) for hart in range(2)]
    for thread in threads:
        thread.start()
    for thread in threads:
        thread.join()
    assert len(shared) == 4000
    for hart in range(2):
        assert shared.register(hart, 5) == own[hart].register(hart, 5) == Value(1000, False)
        assert len(own[hart]) == 2000


def main() -> int:
    folder, program = Path(sys.argv[1]), sys.argv[2:]
    runs = wrong = 0
    for order in sorted(folder.glob("*.order")):
        listing = folder / (order.name.split(".")[0] + ".lst")
        runs += 1
        wrong += differences(listing, order, program)
    try_class()
    try_threads()
    examples = doctest.testmod(cheri_machine)
    print(f"{runs} runs, {wrong} differ, {examples.attempted} examples, {examples.failed} fail")
    return 0 if runs and wrong == 0 and examples.failed == 0 else 1


if __name__ == "__main__":
    sys.exit(main())
