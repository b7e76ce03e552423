"""Values of the machine: 128 bits and a tag, and what instructions make of them.

A value is a pair (tag, word).  A word's fields are those of the value 0, but for the bits in
which the two differ.  A tagged word always has just the fields that `lawful_word` gives.
"""

from __future__ import annotations

from functools import lru_cache
from typing import Callable, NamedTuple, Optional

TWO64 = 1 << 64
TWO65 = 1 << 65
MASK64 = TWO64 - 1
NULL_UPPER = 0x00001FFFFC018004

Value = tuple[int, int]
NULL: Value = (0, 0)

UNSEALED, SENTRY, LAST_SEALABLE = 2**18 - 1, 2**18 - 2, 2**18 - 5

PERMISSIONS = {
    "global": 0, "execute": 1, "load": 2, "store": 3, "load_cap": 4, "store_cap": 5,
    "store_local": 6, "seal": 7, "cinvoke": 8, "unseal": 9, "sysregs": 10, "set_cid": 11,
    "sw0": 15, "sw1": 16, "sw2": 17, "sw3": 18,
}
ALL_PERMISSIONS = sum(1 << bit for bit in PERMISSIONS.values())
GLOBAL, EXECUTE, LOAD, STORE, LOAD_CAP, STORE_CAP, STORE_LOCAL, SEAL, CINVOKE, UNSEAL = (
    1 << PERMISSIONS[name] for name in (
        "global", "execute", "load", "store", "load_cap", "store_cap", "store_local", "seal",
        "cinvoke", "unseal"))


class Fields(NamedTuple):
    perms: int
    reserved: int
    flag: int
    otype: int
    internal: int  # whether the exponent stands in the lowest digits of top and base
    top: int
    base: int
    address: int


@lru_cache(maxsize=None)
def fields_of(word: int) -> Fields:
    bits = word ^ NULL_UPPER << 64
    return Fields(bits >> 112 & 0xFFF | (bits >> 124) << 15, bits >> 110 & 3, bits >> 109 & 1,
                  bits >> 91 & 0x3FFFF, bits >> 90 & 1, bits >> 78 & 0xFFF, bits >> 64 & 0x3FFF,
                  bits & MASK64)


def word_of(fields: Fields) -> int:
    bits = ((fields.perms >> 15) << 124 | (fields.perms & 0xFFF) << 112 | fields.reserved << 110
            | fields.flag << 109 | fields.otype << 91 | fields.internal << 90
            | fields.top << 78 | fields.base << 64 | fields.address)
    return bits ^ NULL_UPPER << 64


def changed(word: int, **fields: int) -> int:
    return word_of(fields_of(word)._replace(**fields))


@lru_cache(maxsize=None)
def bounds_of(word: int) -> tuple[int, int]:
    """Base and top of any word, tagged or not."""
    fields = fields_of(word)
    exponent, top, base = 0, fields.top, fields.base
    if fields.internal:
        exponent = min((top & 7) << 3 | base & 7, 52)
        top, base = top & ~7, base & ~7
    carry = int(top < base & 0xFFF)
    top |= ((base >> 12) + carry + fields.internal & 3) << 12
    edge = ((base >> 11) - 1 & 7) << 11
    space = 1 << exponent + 14
    # The region of the addresses for which these fields mean the same bounds begins here.
    start = fields.address - (fields.address - (edge << exponent)) % space
    low = (start + (base - edge << exponent) % space) % TWO64
    high = (start + (top - edge << exponent) % space) % TWO65
    if exponent < 51 and ((high >> 63) - (low >> 63) & 3) > 1:
        high ^= TWO64
    return low, high


class Rounded(NamedTuple):
    fields: dict[str, int]
    base: int
    top: int


@lru_cache(maxsize=None)
def rounded(base: int, length: int) -> Rounded:
    """The least bounds around these that fields can mean."""
    if length < 1 << 12:
        fields = {"internal": 0, "top": base + length & 0xFFF, "base": base & 0x3FFF}
        return Rounded(fields, base, base + length)
    exponent = (length >> 13).bit_length()
    while True:
        unit = 8 << exponent
        low, high = base // unit * unit, -(-(base + length) // unit) * unit
        if high - low < 1 << exponent + 13:
            break
        exponent += 1
    return Rounded({"internal": 1, "top": high >> exponent & 0xFFF | exponent >> 3,
                    "base": low >> exponent & 0x3FFF | exponent & 7}, low, high)


def lawful_word(base: int, length: int, address: int, perms: int, otype: int = UNSEALED,
                flag: int = 0) -> Optional[int]:
    """The word of a tagged value with just these bounds, where there is one."""
    if base + length > TWO64:
        return None
    fields, low, high = rounded(base, length)
    word = word_of(Fields(perms, 0, flag, otype, address=address, **fields))
    exact = (low, high) == (base, base + length)
    return word if exact and bounds_of(word) == (low, high) else None


def address_of(value: Value) -> int:
    return value[1] & MASK64


def perms_of(value: Value) -> int:
    return fields_of(value[1]).perms


def type_of(value: Value) -> int:
    return fields_of(value[1]).otype


def length_of(value: Value) -> int:
    base, top = bounds_of(value[1])
    return min((top - base) % TWO65, MASK64)


def has(value: Value, permission: int) -> bool:
    return bool(perms_of(value) & permission)


def is_open(value: Value) -> bool:
    """Tagged and not sealed."""
    return bool(value[0]) and type_of(value) == UNSEALED


def can_be_type(number: int) -> bool:
    return number <= LAST_SEALABLE


def is_inside(value: Value, place: int, count: int) -> bool:
    base, top = bounds_of(value[1])
    return base <= place and place + count <= top


def integer(number: int) -> Value:
    return 0, number % TWO64


# --------------------------------------------------------------------------
# Instructions that make a value of values
# --------------------------------------------------------------------------

def with_address(value: Value, address: int) -> Value:
    word = changed(value[1], address=address % TWO64)
    return int(is_open(value) and bounds_of(word) == bounds_of(value[1])), word


def moved(value: Value, amount: int) -> Value:
    return with_address(value, address_of(value) + amount)


def bounded(value: Value, length: int, exactly: bool = False) -> Value:
    start = address_of(value)
    fields, low, high = rounded(start, length)
    exact = (low, high) == (start, start + length)
    keeps = is_open(value) and is_inside(value, start, length) and (exact or not exactly)
    return int(keeps), changed(value[1], **fields)


def with_perms(value: Value, mask: int) -> Value:
    return int(is_open(value)), changed(value[1], perms=perms_of(value) & mask)


def with_flag(value: Value, flags: int) -> Value:
    return int(is_open(value)), changed(value[1], flag=flags & 1)


def gives_type(authority: Value, permission: int) -> bool:
    base, top = bounds_of(authority[1])
    return (is_open(authority) and has(authority, permission)
            and base <= address_of(authority) < top)


def sealed(value: Value, authority: Value) -> Value:
    wanted = address_of(authority)
    keeps = is_open(value) and gives_type(authority, SEAL) and can_be_type(wanted)
    return int(keeps), changed(value[1], otype=wanted % 2**18)


def unsealed(value: Value, authority: Value) -> Value:
    otype, perms = type_of(value), perms_of(value)
    if not has(authority, GLOBAL):
        perms &= ~GLOBAL
    keeps = (value[0] and can_be_type(otype) and gives_type(authority, UNSEAL)
             and address_of(authority) == otype)
    return int(bool(keeps)), changed(value[1], otype=UNSEALED, perms=perms)


def sealed_entry(value: Value) -> Value:
    return int(is_open(value) and has(value, EXECUTE)), changed(value[1], otype=SENTRY)


def built(authority: Value, source: Value) -> Value:
    """A word made a capability again, as far as the authority reaches."""
    fields = fields_of(source[1])
    base, top = bounds_of(source[1])
    low, high = bounds_of(authority[1])
    if (is_open(authority) and fields.reserved == 0 and low <= base <= top <= high
            and fields.perms & ~perms_of(authority) == 0):
        word = lawful_word(base, top - base, fields.address, fields.perms, flag=fields.flag)
        if word is not None:
            return 1, word
    return 0, source[1]


def is_subset(outer: Value, inner: Value) -> int:
    low, high = bounds_of(outer[1])
    base, top = bounds_of(inner[1])
    return int(outer[0] == inner[0] and low <= base and top <= high
               and perms_of(inner) & ~perms_of(outer) == 0)


def shown_type(value: Value) -> int:
    otype = type_of(value)
    return otype if can_be_type(otype) else otype - 2**18


def representable_length(length: int) -> int:
    return rounded(0, length).top % TWO64


def alignment_mask(length: int) -> int:
    fields, _, top = rounded(0, length)
    if not fields["internal"]:
        return MASK64
    exponent = (fields["top"] & 7) << 3 | fields["base"] & 7
    return -(8 << exponent) % TWO64


ONE: dict[str, Callable[[Value], Value]] = {
    "cmove": lambda v: v,
    "ccleartag": lambda v: (0, v[1]),
    "csealentry": sealed_entry,
    "cgetperm": lambda v: integer(perms_of(v)),
    "cgettype": lambda v: integer(shown_type(v)),
    "cgetbase": lambda v: integer(bounds_of(v[1])[0]),
    "cgetaddr": lambda v: integer(address_of(v)),
    "cgethigh": lambda v: integer(v[1] >> 64),
    "cgetflags": lambda v: integer(fields_of(v[1]).flag),
    "cgettag": lambda v: integer(v[0]),
    "cgetlen": lambda v: integer(length_of(v)),
    "cgetoffset": lambda v: integer(address_of(v) - bounds_of(v[1])[0]),
    "cgetsealed": lambda v: integer(type_of(v) != UNSEALED),
    "crrl": lambda v: integer(representable_length(address_of(v))),
    "cram": lambda v: integer(alignment_mask(address_of(v))),
}

TWO: dict[str, Callable[[Value, Value], Value]] = {
    "csetaddr": lambda v, w: with_address(v, address_of(w)),
    "cincoffset": lambda v, w: moved(v, address_of(w)),
    "csetbounds": lambda v, w: bounded(v, address_of(w)),
    "csetboundsexact": lambda v, w: bounded(v, address_of(w), True),
    "candperm": lambda v, w: with_perms(v, address_of(w)),
    "csetflags": lambda v, w: with_flag(v, address_of(w)),
    "csethigh": lambda v, w: (0, address_of(w) << 64 | address_of(v)),
    "cseal": sealed,
    "cunseal": unsealed,
    "cbuildcap": built,
    "ctestsubset": lambda v, w: integer(is_subset(v, w)),
    "csetequalexact": lambda v, w: integer(v == w),
}

WITH_NUMBER: dict[str, Callable[[Value, int], Value]] = {
    "cincoffsetimm": moved,
    "csetboundsimm": bounded,
}
