"""Compares the Python module with rows of test vectors, and tries its class, its errors and its arrays.

    test.py FILE..

The module is found by PYTHONPATH. Prints each difference and, last, the counts; ends with 0 where no
row differs, no test fails and each file is whole.
"""

from __future__ import annotations

import doctest
import pickle
import re
import sys
from pathlib import Path
from typing import Callable, List

import cheri_caps
from cheri_caps import Capability, MakeError

HALF = (1 << 64) - 1
UNARY = ("clear_tag", "seal_entry")
OF_NUMBERS = (
    "set_address", "inc_offset", "set_bounds", "set_bounds_exact", "and_perms", "set_flags", "set_high",
)
OF_VALUES = ("seal", "unseal", "build")


def check_word(f: List[int]) -> bool:
    word = f[0] << 64 | f[1]
    value = Capability(word)
    return (
        cheri_caps.decode(word) == (f[2], f[3])
        and cheri_caps.fields(word) == (f[4], f[5], f[6], f[7], f[8], f[9])
        and int(cheri_caps.is_capability(word)) == f[10]
        and (value.address, value.high, value.base, value.top) == (f[1], f[0], f[2], f[3])
        and (value.perms, value.otype, value.flags) == (f[4], f[5], f[6])
        and value.sealed == (f[5] != cheri_caps.UNSEALED)
        and value.offset == (f[1] - f[2]) & HALF
        and value.length == min((f[3] - f[2]) % (1 << 65), HALF)
    )


def check_range(f: List[int]) -> bool:
    return (
        cheri_caps.round_bounds(f[0], f[1]) == tuple(f[2:9])
        and cheri_caps.representable_length(f[1]) == f[9]
        and cheri_caps.alignment_mask(f[1]) == f[10]
    )


def check_address(f: List[int]) -> bool:
    return int(cheri_caps.is_representable(f[0] << 64 | f[1], f[2])) == f[3]


def value_of(tag: int, upper: int, addr: int) -> Capability:
    """A value, whose tag counts only on the word of a capability: elsewhere it is a ValueError."""
    word = upper << 64 | addr
    try:
        return Capability(word, bool(tag))
    except ValueError:
        assert not cheri_caps.is_capability(word)
        return Capability(word)


def reason_of(operation: str, first: Capability, second: Capability) -> int:
    reason = cheri_caps.why(operation, first, second)
    assert reason is None or reason.text == cheri_caps.REASONS[reason.number]
    return reason.number if reason else 0


def check_why(operation: str, f: List[int]) -> bool:
    return reason_of(operation, value_of(*f[:3]), value_of(*f[3:6])) == f[6]


def check_value(operation: str, f: List[int]) -> bool:
    first, second = value_of(*f[:3]), value_of(*f[3:6])
    if operation in UNARY:
        found = getattr(first, operation)()
    elif operation in OF_NUMBERS:
        found = getattr(first, operation)(second.address)
    elif operation in OF_VALUES:
        found = getattr(first, operation)(second)
    elif operation == "test_subset":
        found = Capability.integer(first.test_subset(second))
    else:
        found = Capability.integer(first == second)
    if operation in cheri_caps.OPERATIONS and found.tag != (reason_of(operation, first, second) == 0):
        return False
    return (int(found.tag), found.word) == (f[6], f[7] << 64 | f[8]) and found == value_of(*f[6:])


CHECKS = {"word": (11, check_word), "range": (11, check_range), "address": (4, check_address)}


def check_row(line: str) -> bool:
    kind, *rest = line.split(" ")
    if kind in ("value", "why"):
        length, check = (10, check_value) if kind == "value" else (8, check_why)
        return len(rest) == length and check(rest[0], [int(number, 16) for number in rest[1:]])
    count, check = CHECKS[kind]
    return len(rest) == count and check([int(number, 16) for number in rest])


def read_rows(name: str) -> List[str]:
    """The rows of a file of vectors, which must be whole."""
    lines = open(name, encoding="ascii").read().split("\n")
    firsts = ("cheri-caps vectors 1", "cheri-caps reasons 1")
    assert lines[0] in firsts and lines[-2:] == ["end", ""], f"{name} is not whole"
    lines = [line for line in lines[1:-2] if not line.startswith("#")]
    assert lines[0] == f"rows {len(lines) - 1}", f"{name} is not whole"
    return lines[1:]


def raises(error: type, call: Callable[[], object]) -> bool:
    try:
        call()
    except error:
        return True
    return False


def try_class() -> None:
    root = Capability.root()
    sixteen = Capability.make(0x80000000, 16)
    assert sixteen == root.set_address(0x80000000).set_bounds(16)
    assert len({sixteen, Capability.make(0x80000000, 16), sixteen.clear_tag()}) == 2
    assert sixteen != sixteen.word and sixteen in [root, sixteen]
    assert pickle.loads(pickle.dumps(sixteen)) == sixteen
    assert sixteen.permissions == frozenset(cheri_caps.PERMISSIONS)
    assert Capability.root(0b1100).permissions == {"load", "store"}
    assert Capability.null() == Capability(0) and Capability.integer(5).word == 5
    assert sixteen.inc_offset(-1).address == 0x7FFFFFFF and sixteen.inc_offset(-1).tag
    assert sixteen.build(sixteen.clear_tag()) == sixteen
    sealed = sixteen.seal(root.set_address(5))
    assert sealed.sealed and sealed.otype == 5 and sealed.unseal(root.set_address(5)) == sixteen
    assert repr(sixteen.seal_entry()).endswith(" sentry>")
    assert repr(Capability.root(0)) == "<Capability 0x0 [0x0, 0x10000000000000000) none>"
    assert raises(AttributeError, lambda: setattr(sixteen, "address", 0))
    assert raises(AttributeError, lambda: delattr(sixteen, "_cap"))


def try_errors() -> None:
    for call in (
        lambda: Capability(1 << 128), lambda: Capability(-1),
        lambda: Capability(1 << 110, True),  # a reserved bit
        lambda: Capability.integer(1 << 64), lambda: Capability.root(1 << 32),
        lambda: Capability.null().set_address(-1), lambda: Capability.null().set_bounds(1 << 64),
        lambda: cheri_caps.decode(1 << 128), lambda: cheri_caps.representable_length(-1),
        lambda: cheri_caps.round_bounds(0, 1 << 64),
    ):
        assert raises(ValueError, call)
    for status, parts in (
        (4, (0, 16, 0, 0, cheri_caps.LAST_SEALABLE + 1)), (4, (1, 1 << 64, 0, 0, 1 << 18)),
        (1, (1, 1 << 64, 1)), (1, (0, 1 << 127, 0)), (2, (1, 4096, 1)),
        (3, (0x80000000, 16, 0x80010000)),
    ):
        try:
            Capability.make(*parts)
        except MakeError as error:
            assert error.status == status, (parts, error.status)
        else:
            raise AssertionError(parts)


def try_reasons() -> None:
    """The names and texts of the header, and operands that are integers."""
    header = Path(cheri_caps.__file__).parents[1] / "include" / "cheri_caps.h"
    text = header.read_text(encoding="ascii")
    reasons = {int(number): words for number, words in re.findall(r'REASON\((\d+), \w+, "(.*)"\)', text)}
    assert reasons.pop(0) and reasons.pop(255) and reasons == cheri_caps.REASONS
    numbers = re.findall(r"CHERI_CAPS_OP_(\w+) = (\d+)", text)
    assert {name.lower(): int(number) for name, number in numbers} == cheri_caps.OPERATIONS
    sixteen = Capability.make(0x80000000, 16)
    assert cheri_caps.why("inc_offset", sixteen, -1) is None
    assert cheri_caps.why("set_bounds", sixteen, 17) == (14, cheri_caps.REASONS[14])
    assert raises(ValueError, lambda: cheri_caps.why("set_bounds", sixteen, -1))
    assert raises(ValueError, lambda: cheri_caps.why("csetbounds", sixteen, 1))


def try_arrays(rows: List[str]) -> bool:
    """The arrays against the functions of one value; False where numpy isn't there."""
    words = [int(f[1], 16) << 64 | int(f[2], 16) for f in map(str.split, rows) if f[0] == "word"]
    ranges = [(int(f[1], 16), int(f[2], 16)) for f in map(str.split, rows) if f[0] == "range"]
    assert cheri_caps.bounds_of(words) == [cheri_caps.decode(word) for word in words]
    assert cheri_caps.round_of(ranges) == [cheri_caps.round_bounds(*pair) for pair in ranges]
    try:
        import numpy
    except ImportError:
        return False
    table = numpy.array([(word & HALF, word >> 64) for word in words], numpy.uint64)
    found = cheri_caps.bounds_of(table)
    assert [(int(b), int(h) << 64 | int(t)) for b, t, h in found] == cheri_caps.bounds_of(words)
    assert (cheri_caps.bounds_of(table[::2]) == found[::2]).all()
    rounded = cheri_caps.round_of(numpy.array(ranges, numpy.uint64))
    for one, record in zip(cheri_caps.round_of(ranges), rounded):
        top = int(record["top_high"]) << 64 | int(record["top"])
        rest = tuple(int(record[name]) for name in ("b", "t", "ie", "e"))
        assert one == (int(record["base"]), top, *rest, bool(record["exact"]))
    assert len(cheri_caps.bounds_of(numpy.empty((0, 2), numpy.uint64))) == 0
    assert raises(ValueError, lambda: cheri_caps.bounds_of(numpy.zeros((3, 2))))
    assert raises(ValueError, lambda: cheri_caps.bounds_of(numpy.zeros(4, numpy.uint64)))
    return True


def main() -> int:
    rows = [row for name in sys.argv[1:] for row in read_rows(name)]
    differ = 0
    for row in rows:
        if not check_row(row):
            differ += 1
            print(row)
    try_class()
    try_errors()
    try_reasons()
    arrays = try_arrays(rows)
    examples = doctest.testmod(cheri_caps)
    print(f"{len(rows)} rows, {differ} differ, {examples.attempted} examples, {examples.failed} fail, "
          f"arrays {'with' if arrays else 'without'} numpy")
    return 0 if rows and differ == 0 and examples.failed == 0 else 1


if __name__ == "__main__":
    sys.exit(main())
