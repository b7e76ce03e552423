"""Bounds, words and instructions of compressed CHERI capabilities (CHERI Concentrate, 128 bits, RV64).

The functions of the C library `cheri_caps`, whose answers are proved. One file over `ctypes`; it
needs no other package. The library is found beside this file, as the wheel or `bindings/build` lays
both out, or where the environment variable CHERI_CAPS_LIBRARY names it.

    >>> Capability.root().set_address(0x80000000).set_bounds(100)
    <Capability 0x80000000 [0x80000000, 0x80000064) all>
    >>> Capability.root().set_address(1).set_bounds(4096)
    <Capability 0x1 [0x0, 0x1008) all>
    >>> Capability(5)
    <Capability untagged 0x00000000000000000000000000000005>

A word is a number of 128 bits as memory has it, and its lower 64 bits are the address. A number out
of range raises ValueError; offsets may be negative, as they count modulo 2^64.
"""

from __future__ import annotations

import ctypes
import os
from pathlib import Path
from typing import Any, FrozenSet, List, NamedTuple, Optional, Sequence, Tuple, Union

__all__ = [
    "ALL", "CAUSES", "LAST_SEALABLE", "OPERATIONS", "PERMISSIONS", "REASONS", "SENTRY", "UNSEALED",
    "Capability", "Fields", "Jumped", "MakeError", "Reason", "Rounded", "Trap", "alignment_mask",
    "bounds_of", "decode", "fields", "is_capability", "is_representable", "representable_length",
    "round_bounds", "round_of", "why",
]

#: The permissions by name, as CGetPerm shows them.
PERMISSIONS = {
    "global": 1 << 0, "execute": 1 << 1, "load": 1 << 2, "store": 1 << 3, "load_cap": 1 << 4,
    "store_cap": 1 << 5, "store_local": 1 << 6, "seal": 1 << 7, "cinvoke": 1 << 8,
    "unseal": 1 << 9, "sysregs": 1 << 10, "set_cid": 1 << 11, "sw0": 1 << 15, "sw1": 1 << 16,
    "sw2": 1 << 17, "sw3": 1 << 18,
}
#: All of them.
ALL = 0x78FFF
#: The object type of what is not sealed, that of a sentry, and the last one that CSeal can give.
UNSEALED, SENTRY, LAST_SEALABLE = 0x3FFFF, 0x3FFFE, 0x3FFFB

_HALF = (1 << 64) - 1


def _layout(text: str) -> List[Tuple[str, Any]]:
    """The fields of a struct, written as in the C header."""
    types = {
        "u64": ctypes.c_uint64, "u32": ctypes.c_uint32, "u16": ctypes.c_uint16,
        "u8": ctypes.c_uint8, "bool": ctypes.c_bool,
    }
    pairs = (field.split() for field in text.split(","))
    return [(name, types[kind]) for kind, name in pairs]


class _Cap(ctypes.Structure):
    _fields_ = _layout("u64 addr, u64 upper, bool tag")


class _Bounds(ctypes.Structure):
    _fields_ = _layout("u64 base, u64 top, u64 top_high")


class _Fields(ctypes.Structure):
    _fields_ = _layout("u32 perms, u32 otype, u8 flag, u8 reserved, u8 ie, u8 e")


class _Rounded(ctypes.Structure):
    _fields_ = _layout(
        "u64 base, u64 top, u64 top_high, u16 b, u16 t, u8 ie, u8 e, bool exact"
    )


class _Parts(ctypes.Structure):
    _fields_ = _layout(
        "u64 base, u64 top, u64 top_high, u64 len, u64 offset, u64 otype, u32 perms, u8 flags, "
        "bool sealed, bool tag"
    )


class _Made(ctypes.Structure):
    _fields_ = [("cap", _Cap), ("status", ctypes.c_uint8)]


class _Range(ctypes.Structure):
    _fields_ = _layout("u64 base, u64 len")


class _Trap(ctypes.Structure):
    _fields_ = _layout("u8 cause, u8 reg")


class _Jumped(ctypes.Structure):
    _fields_ = [("pcc", _Cap), ("left", _Cap), ("trap", _Trap)]


def _library() -> ctypes.CDLL:
    named = os.environ.get("CHERI_CAPS_LIBRARY")
    here = Path(__file__).resolve().parent
    folder = here / "cheri_caps.libs"  # where a wheel has it
    if not folder.is_dir():
        folder = here.parent / "lib"  # where bindings/build puts it
    return ctypes.CDLL(named or str(folder / "libcheri_caps.so.1"))


_lib = _library()


def _function(name: str, result: Any, *arguments: Any) -> Any:
    function = getattr(_lib, "cheri_caps_" + name)
    function.restype, function.argtypes = result, arguments
    return function


_u64, _u32, _bool = ctypes.c_uint64, ctypes.c_uint32, ctypes.c_bool
_bounds = _function("bounds", _Bounds, _u64, _u64)
_fields = _function("fields", _Fields, _u64)
_is_representable = _function("is_representable", _bool, _u64, _u64, _u64)
_is_capability = _function("is_capability", _bool, _u64, _u64)
_round = _function("round", _Rounded, _u64, _u64)
_representable_length = _function("representable_length", _u64, _u64)
_alignment_mask = _function("alignment_mask", _u64, _u64)
_null = _function("null", _Cap)
_of_integer = _function("of_integer", _Cap, _u64)
_root = _function("root", _Cap, _u32)
_make = _function("make", _Made, _u64, _u64, _u64, _u64, _u32, _u32)
_read = _function("read", _Parts, _Cap)
_clear_tag = _function("clear_tag", _Cap, _Cap)
_set_address = _function("set_address", _Cap, _Cap, _u64)
_inc_offset = _function("inc_offset", _Cap, _Cap, _u64)
_set_bounds = _function("set_bounds", _Cap, _Cap, _u64)
_set_bounds_exact = _function("set_bounds_exact", _Cap, _Cap, _u64)
_and_perms = _function("and_perms", _Cap, _Cap, _u64)
_set_flags = _function("set_flags", _Cap, _Cap, _u64)
_set_high = _function("set_high", _Cap, _Cap, _u64)
_seal = _function("seal", _Cap, _Cap, _Cap)
_unseal = _function("unseal", _Cap, _Cap, _Cap)
_seal_entry = _function("seal_entry", _Cap, _Cap)
_build = _function("build", _Cap, _Cap, _Cap)
_test_subset = _function("test_subset", _bool, _Cap, _Cap)
_equal_exact = _function("equal_exact", _bool, _Cap, _Cap)
_u8 = ctypes.c_uint8
_check_load = _function("check_load", _Trap, _Cap, _u8, _u64, _u8, _Range)
_check_store = _function("check_store", _Trap, _Cap, _u8, _u64, _u8, _Range)
_check_load_cap = _function("check_load_cap", _Trap, _Cap, _u8, _u64, _Range)
_check_store_cap = _function("check_store_cap", _Trap, _Cap, _u8, _u64, _Cap, _Range)
_check_swap = _function("check_swap", _Trap, _Cap, _u8, _u64, _Cap, _Range)
_check_fetch = _function("check_fetch", _Trap, _Cap, _Range)
_check_branch = _function("check_branch", _Trap, _Cap, _u64)
_check_jump = _function("check_jump", _Trap, _Cap, _u8, _u64)
_check_invoke = _function("check_invoke", _Trap, _Cap, _u8, _Cap, _u8)
_jump = _function("jump", _Jumped, _Cap, _Cap, _u8, _u64)
_invoke = _function("invoke", _Jumped, _Cap, _u8, _Cap, _u8)
_why = _function("why", _u8, _u8, _Cap, _Cap)
_bounds_of = _function(
    "bounds_of", ctypes.c_size_t, ctypes.c_void_p, ctypes.c_size_t, ctypes.c_void_p, ctypes.c_size_t
)
_round_of = _function(
    "round_of", ctypes.c_size_t, ctypes.c_void_p, ctypes.c_size_t, ctypes.c_void_p, ctypes.c_size_t
)


def _number(number: int, bits: int, what: str) -> int:
    if not 0 <= number < 1 << bits:
        raise ValueError(f"{what} {number} is not a number of {bits} bits")
    return number


class Fields(NamedTuple):
    """Fields of a word: permissions in CGetPerm's form, object type, flag, the two reserved bits,
    the internal exponent bit, and the exponent that is used, 0 to 52."""

    perms: int
    otype: int
    flag: int
    reserved: int
    ie: int
    e: int


class Rounded(NamedTuple):
    """The least bounds that hold a range, the fields B and T that encode them, the internal
    exponent bit, the exponent, and whether the bounds are the range."""

    base: int
    top: int
    b: int
    t: int
    ie: int
    e: int
    exact: bool


#: The causes of traps by their numbers, which are this project's own.
CAUSES = {
    1: "tag", 2: "seal", 3: "execute", 4: "load", 5: "store", 6: "store_cap", 7: "store_local",
    8: "length", 9: "alignment", 10: "place", 11: "fetch", 12: "type", 13: "cinvoke",
}


class Trap(NamedTuple):
    """The first check that fails: the number of its cause, and the register that it speaks of, 32
    for PCC."""

    cause: int
    register: int

    def __repr__(self) -> str:
        place = "pcc" if self.register == 32 else f"c{self.register}"
        return f"<Trap {self.cause} {CAUSES[self.cause]} {place}>"


class Jumped(NamedTuple):
    """What becomes of PCC, and what the jump leaves in a register."""

    pcc: Capability
    left: Capability


def _trap(trap: _Trap) -> Optional[Trap]:
    return Trap(trap.cause, trap.reg) if trap.cause else None


def _range(addresses: range, what: str) -> _Range:
    if addresses.step != 1 or not 0 <= addresses.start <= addresses.stop:
        raise ValueError(f"{what} {addresses} is no range of addresses")
    length = addresses.stop - addresses.start
    return _Range(_number(addresses.start, 64, what), _number(length, 64, what))


def _log2_bytes(size: int) -> int:
    if size not in (1, 2, 4, 8):
        raise ValueError(f"size {size} is none of 1, 2, 4 and 8")
    return size.bit_length() - 1


def decode(word: int) -> Tuple[int, int]:
    """The base and the top that any word is read with.

    >>> [hex(bound) for bound in decode(0xffff0000040580040000000080000000)]
    ['0x80000000', '0x80000010']
    """
    _number(word, 128, "word")
    bounds = _bounds(word >> 64, word & _HALF)
    return bounds.base, bounds.top_high << 64 | bounds.top


def fields(word: int) -> Fields:
    """The fields of any word.

    >>> fields(0)
    Fields(perms=0, otype=262143, flag=0, reserved=0, ie=1, e=52)
    """
    found = _fields(_number(word, 128, "word") >> 64)
    return Fields(found.perms, found.otype, found.flag, found.reserved, found.ie, found.e)


def is_representable(word: int, address: int) -> bool:
    """Whether the word has the same bounds with another address."""
    _number(word, 128, "word")
    return _is_representable(word >> 64, word & _HALF, _number(address, 64, "address"))


def is_capability(word: int) -> bool:
    """Whether a tagged capability can have this word."""
    _number(word, 128, "word")
    return _is_capability(word >> 64, word & _HALF)


def round_bounds(base: int, length: int) -> Rounded:
    """The rounding of the range of `length` addresses from `base` on.

    >>> round_bounds(1, 4096)
    Rounded(base=0, top=4104, b=0, t=8, ie=1, e=0, exact=False)
    """
    found = _round(_number(base, 64, "base"), _number(length, 64, "length"))
    top = found.top_high << 64 | found.top
    return Rounded(found.base, top, found.b, found.t, found.ie, found.e, found.exact)


def representable_length(length: int) -> int:
    """The least length, from this one on, that aligned bounds can have, modulo 2^64 (CRRL).

    >>> representable_length(8191)
    8192
    """
    return _representable_length(_number(length, 64, "length"))


def alignment_mask(length: int) -> int:
    """The mask that aligns a base for that length (CRAM).

    >>> hex(alignment_mask(8191))
    '0xfffffffffffffff0'
    """
    return _alignment_mask(_number(length, 64, "length"))


class MakeError(ValueError):
    """No capability has these parts. `status` says why: 4, the type is reserved; 1, the end is past
    the address space; 2, the bounds would be rounded; 3, the bounds cannot have this address."""

    REASONS = {
        1: "the end is past the address space", 2: "the bounds would be rounded",
        3: "the bounds cannot have this address", 4: "no capability has this type",
    }

    def __init__(self, status: int) -> None:
        super().__init__(self.REASONS[status])
        self.status = status


class Capability:
    """A word of 128 bits and a tag. It never changes: each method is the instruction of its name
    and gives a new one. A change that is not allowed gives the edited word without a tag."""

    __slots__ = ("_cap", "_found")
    _cap: _Cap
    _found: Optional[_Parts]

    def __init__(self, word: int, tag: bool = False) -> None:
        """The value of a word and a tag. A tag on a word that no capability has is a ValueError."""
        _number(word, 128, "word")
        cap = _Cap(word & _HALF, word >> 64, bool(tag))
        if tag and not _is_capability(cap.upper, cap.addr):
            raise ValueError(f"no capability has the word 0x{word:032x}")
        self._set(cap)

    def _set(self, cap: _Cap) -> None:
        object.__setattr__(self, "_cap", cap)
        object.__setattr__(self, "_found", None)

    @classmethod
    def _of(cls, cap: _Cap) -> Capability:
        made = object.__new__(cls)
        made._set(cap)
        return made

    def __setattr__(self, name: str, value: object) -> None:
        raise AttributeError("a Capability never changes")

    def __delattr__(self, name: str) -> None:
        raise AttributeError("a Capability never changes")

    @classmethod
    def null(cls) -> Capability:
        """The untagged word 0."""
        return cls._of(_null())

    @classmethod
    def integer(cls, number: int) -> Capability:
        """What a register holds to which this integer was written."""
        return cls._of(_of_integer(_number(number, 64, "integer")))

    @classmethod
    def root(cls, perms: int = ALL) -> Capability:
        """The capability of the whole address space with these permissions, at address 0. Bits that
        no permission has are dropped."""
        return cls._of(_root(_number(perms, 32, "perms")))

    @classmethod
    def make(
        cls, base: int, length: int, address: Optional[int] = None, perms: int = ALL,
        otype: int = UNSEALED,
    ) -> Capability:
        """The capability of just the `length` addresses from `base` on, at its base where no
        address is given. Where there is none it raises MakeError.

        >>> Capability.make(0x80000000, 16, perms=PERMISSIONS["load"])
        <Capability 0x80000000 [0x80000000, 0x80000010) load>
        >>> Capability.make(1, 4096)
        Traceback (most recent call last):
        cheri_caps.MakeError: the bounds would be rounded
        """
        _number(length, 128, "length")
        made = _make(
            _number(base, 64, "base"), length & _HALF, length >> 64,
            _number(base if address is None else address, 64, "address"),
            _number(perms, 32, "perms"), _number(otype, 32, "otype"),
        )
        if made.status != 0:
            raise MakeError(made.status)
        return cls._of(made.cap)

    # the instructions

    def clear_tag(self) -> Capability:
        """The same word without a tag (CClearTag)."""
        return self._of(_clear_tag(self._cap))

    def set_address(self, address: int) -> Capability:
        """Another address (CSetAddr)."""
        return self._of(_set_address(self._cap, _number(address, 64, "address")))

    def inc_offset(self, offset: int) -> Capability:
        """The address raised by an offset, modulo 2^64 (CIncOffset).

        >>> Capability.root().inc_offset(-16)
        <Capability 0xfffffffffffffff0 [0x0, 0x10000000000000000) all>
        """
        return self._of(_inc_offset(self._cap, offset & _HALF))

    def set_bounds(self, length: int) -> Capability:
        """The rounding of the `length` addresses from the address on as bounds (CSetBounds)."""
        return self._of(_set_bounds(self._cap, _number(length, 64, "length")))

    def set_bounds_exact(self, length: int) -> Capability:
        """The same, tagged only where nothing is rounded (CSetBoundsExact)."""
        return self._of(_set_bounds_exact(self._cap, _number(length, 64, "length")))

    def and_perms(self, mask: int) -> Capability:
        """The permissions that are also in the mask (CAndPerm)."""
        return self._of(_and_perms(self._cap, _number(mask, 64, "mask")))

    def set_flags(self, flags: int) -> Capability:
        """The lowest bit of a number as the flag (CSetFlags)."""
        return self._of(_set_flags(self._cap, _number(flags, 64, "flags")))

    def set_high(self, upper: int) -> Capability:
        """Another upper half, never tagged (CSetHigh)."""
        return self._of(_set_high(self._cap, _number(upper, 64, "upper half")))

    def seal(self, authority: Capability) -> Capability:
        """Sealed with the authority's address as the type (CSeal).

        >>> Capability.make(0x1000, 16).seal(Capability.root().set_address(5))
        <Capability 0x1000 [0x1000, 0x1010) all type 5>
        """
        return self._of(_seal(self._cap, authority._cap))

    def unseal(self, authority: Capability) -> Capability:
        """Unsealed under an authority (CUnseal)."""
        return self._of(_unseal(self._cap, authority._cap))

    def seal_entry(self) -> Capability:
        """Sealed as a sentry (CSealEntry)."""
        return self._of(_seal_entry(self._cap))

    def build(self, source: Capability) -> Capability:
        """What the source's word says, unsealed, under this authority (CBuildCap).

        >>> Capability.root().build(Capability.make(0x1000, 16).clear_tag()).tag
        True
        """
        return self._of(_build(self._cap, source._cap))

    def test_subset(self, other: Capability) -> bool:
        """Whether the tags are equal, and the other's bounds and permissions lie in this one's
        (CTestSubset)."""
        return _test_subset(self._cap, other._cap)

    # the checks of accesses, fetches and jumps: the first that fails, or None

    def check_load(
        self, size: int, memory: range, address: Optional[int] = None, register: int = 0
    ) -> Optional[Trap]:
        """The first check that fails of a load of 1, 2, 4 or 8 bytes through this, at its address
        where none is given.

        >>> memory = range(0x80000000, 0x80001000)
        >>> sixteen = Capability.make(0x80000000, 16)
        >>> sixteen.check_load(8, memory)
        >>> sixteen.check_load(8, memory, 0x8000000c, register=3)
        <Trap 8 length c3>
        """
        return _trap(_check_load(*self._access(register, address), _log2_bytes(size),
                                 _range(memory, "memory")))

    def check_store(
        self, size: int, memory: range, address: Optional[int] = None, register: int = 0
    ) -> Optional[Trap]:
        """The same of a store."""
        return _trap(_check_store(*self._access(register, address), _log2_bytes(size),
                                  _range(memory, "memory")))

    def check_load_cap(
        self, memory: range, address: Optional[int] = None, register: int = 0
    ) -> Optional[Trap]:
        """The same of a load of a capability. What it loads loses its tag where this lacks
        load_cap."""
        return _trap(_check_load_cap(*self._access(register, address), _range(memory, "memory")))

    def check_store_cap(
        self, stored: Capability, memory: range, address: Optional[int] = None, register: int = 0
    ) -> Optional[Trap]:
        """The same of a store of a capability."""
        return _trap(_check_store_cap(*self._access(register, address), stored._cap,
                                      _range(memory, "memory")))

    def check_swap(
        self, stored: Capability, memory: range, address: Optional[int] = None, register: int = 0
    ) -> Optional[Trap]:
        """The same of a swap with a capability."""
        return _trap(_check_swap(*self._access(register, address), stored._cap,
                                 _range(memory, "memory")))

    def check_fetch(self, code: range) -> Optional[Trap]:
        """The first check that fails of a fetch, where this is PCC.

        >>> Capability.null().check_fetch(range(0x10000000, 0x10000040))
        <Trap 1 tag pcc>
        """
        return _trap(_check_fetch(self._cap, _range(code, "code")))

    def check_branch(self, target: int) -> Optional[Trap]:
        """Whether a taken branch or CJAL traps, where this is PCC."""
        return _trap(_check_branch(self._cap, _number(target, 64, "target")))

    def check_jump(self, offset: int = 0, register: int = 0) -> Optional[Trap]:
        """The first check that fails of a jump through this, by an offset (CJALR)."""
        return _trap(_check_jump(self._cap, _number(register, 8, "register"), offset & _HALF))

    def check_invoke(
        self, data: Capability, register: int = 0, data_register: int = 0
    ) -> Optional[Trap]:
        """The first check that fails of a jump through this and its sealed data (CInvoke)."""
        return _trap(_check_invoke(self._cap, _number(register, 8, "register"), data._cap,
                                   _number(data_register, 8, "register")))

    def jump(
        self, through: Capability, offset: int = 0, register: int = 0
    ) -> Union[Jumped, Trap]:
        """A jump through a capability, where this is PCC (CJALR): what becomes of PCC and what
        is left to come back by, or the trap.

        >>> pcc = Capability.make(0x10000000, 64)
        >>> pcc.jump(pcc.inc_offset(8).seal_entry()).pcc.address == 0x10000008
        True
        """
        return self._jumped(_jump(self._cap, through._cap, _number(register, 8, "register"),
                                  offset & _HALF))

    def invoke(
        self, data: Capability, register: int = 0, data_register: int = 0
    ) -> Union[Jumped, Trap]:
        """A jump through this and its sealed data (CInvoke): what becomes of PCC and the unsealed
        data, or the trap."""
        return self._jumped(_invoke(self._cap, _number(register, 8, "register"), data._cap,
                                    _number(data_register, 8, "register")))

    def _access(self, register: int, address: Optional[int]) -> Tuple[_Cap, int, int]:
        return (self._cap, _number(register, 8, "register"),
                _number(self.address if address is None else address, 64, "address"))

    def _jumped(self, jumped: _Jumped) -> Union[Jumped, Trap]:
        if jumped.trap.cause:
            return Trap(jumped.trap.cause, jumped.trap.reg)
        return Jumped(self._of(jumped.pcc), self._of(jumped.left))

    # what instructions read

    @property
    def _parts(self) -> _Parts:
        if self._found is None:
            object.__setattr__(self, "_found", _read(self._cap))
        return self._found  # type: ignore[return-value]

    @property
    def word(self) -> int:
        """The 128 bits as in memory."""
        return self._cap.upper << 64 | self._cap.addr

    @property
    def address(self) -> int:
        """The address (CGetAddr)."""
        return self._cap.addr

    @property
    def high(self) -> int:
        """The upper half (CGetHigh)."""
        return self._cap.upper

    @property
    def tag(self) -> bool:
        """Whether it is a tagged capability (CGetTag)."""
        return self._cap.tag

    @property
    def base(self) -> int:
        """The base (CGetBase)."""
        return self._parts.base

    @property
    def top(self) -> int:
        """The first address above the bounds."""
        return self._parts.top_high << 64 | self._parts.top

    @property
    def length(self) -> int:
        """The length, at most 2^64 - 1 (CGetLen)."""
        return self._parts.len

    @property
    def offset(self) -> int:
        """The address less the base, modulo 2^64 (CGetOffset)."""
        return self._parts.offset

    @property
    def perms(self) -> int:
        """The permissions as a number (CGetPerm)."""
        return self._parts.perms

    @property
    def permissions(self) -> FrozenSet[str]:
        """The names of the permissions."""
        perms = self._parts.perms
        return frozenset(name for name, bit in PERMISSIONS.items() if perms & bit)

    @property
    def otype(self) -> int:
        """The object type, of 18 bits. CGetType sign-extends those above LAST_SEALABLE."""
        return self._parts.otype & UNSEALED

    @property
    def flags(self) -> int:
        """The flag, 0 or 1 (CGetFlags)."""
        return self._parts.flags

    @property
    def sealed(self) -> bool:
        """Whether the type is any but unsealed (CGetSealed)."""
        return self._parts.sealed

    def __eq__(self, other: object) -> bool:
        """Whether the tags and the words are equal (CSetEqualExact)."""
        if not isinstance(other, Capability):
            return NotImplemented
        return _equal_exact(self._cap, other._cap)

    def __hash__(self) -> int:
        return hash((self._cap.addr, self._cap.upper, self._cap.tag))

    def __reduce__(self) -> Tuple[Any, ...]:
        return type(self), (self.word, self.tag)

    def __repr__(self) -> str:
        if not self.tag:
            return f"<Capability untagged 0x{self.word:032x}>"
        names = [name for name, bit in PERMISSIONS.items() if self.perms & bit]
        perms = "all" if self.perms == ALL else "+".join(names) or "none"
        kind = {UNSEALED: "", SENTRY: " sentry"}.get(self.otype, f" type {self.otype}")
        return f"<Capability {self.address:#x} [{self.base:#x}, {self.top:#x}) {perms}{kind}>"


# why a result has no tag

#: The instructions that `why` knows, by their methods' names, with their numbers. "move" is CMove,
#: and "unsealed_by_jump" what CJALR and CInvoke do to the values that they unseal.
OPERATIONS = {
    "move": 1, "clear_tag": 2, "set_address": 3, "inc_offset": 4, "set_bounds": 5,
    "set_bounds_exact": 6, "and_perms": 7, "set_flags": 8, "set_high": 9, "seal": 10, "unseal": 11,
    "seal_entry": 12, "build": 13, "unsealed_by_jump": 14,
}

#: The reasons by their numbers. The source is the first value, and the authority is the second;
#: under "build" the source is the authority, and the word is the second value.
REASONS = {
    1: "the instruction clears the tag",
    2: "the upper half is replaced",
    3: "the source is untagged",
    4: "the source is sealed",
    5: "the source is not sealed",
    6: "the source is a sentry",
    7: "the authority is untagged",
    8: "the authority is sealed",
    9: "the source lacks Execute",
    10: "the authority lacks Seal",
    11: "the authority lacks Unseal",
    12: "the address is outside the representable region",
    13: "the new base is below the source's",
    14: "the end of the requested range is above the source's top",
    15: "the new top is above the source's",
    16: "the requested range is rounded",
    17: "the object type is not in the authority's bounds",
    18: "no capability can be sealed with the object type",
    19: "the authority's address is not the source's object type",
    20: "the word has a reserved bit",
    21: "the word's base is above its top",
    22: "the word has a permission that the source lacks",
    23: "the word's bounds are not aligned for their length",
}


class Reason(NamedTuple):
    """Why a result has no tag: the number of the first condition that takes it, and its text."""

    number: int
    text: str

    def __repr__(self) -> str:
        return f"<Reason {self.number} {self.text}>"


def why(
    operation: str, first: Capability, second: Union[Capability, int] = 0
) -> Optional[Reason]:
    """The first condition that takes the tag of an instruction's result, or None where it has one.
    `operation` is one of OPERATIONS, and the values are those of c1 and c2.

    >>> sixteen = Capability.make(0x80000000, 16)
    >>> why("set_bounds", sixteen, 32)
    <Reason 14 the end of the requested range is above the source's top>
    >>> why("inc_offset", sixteen, -16)
    >>> why("seal", sixteen, sixteen)
    <Reason 18 no capability can be sealed with the object type>
    """
    if operation not in OPERATIONS:
        raise ValueError(f"operation {operation!r} is none of {', '.join(OPERATIONS)}")
    if isinstance(second, Capability):
        other = second._cap
    elif operation == "inc_offset":
        other = _of_integer(second & _HALF)
    else:
        other = _of_integer(_number(second, 64, "operand"))
    number = _why(OPERATIONS[operation], first._cap, other)
    return Reason(number, REASONS[number]) if number else None


# arrays: a call for each word costs some microseconds, a place of an array some nanoseconds

_Table = Union[Sequence[Tuple[int, int]], Any]


def _as_pairs(table: _Table, what: str) -> Any:
    """A numpy array of pairs, as it is or copied to lie in one piece; or None for other sequences."""
    if not hasattr(table, "__array_interface__"):
        return None
    import numpy

    array = numpy.ascontiguousarray(table)
    if array.dtype != numpy.uint64 or array.ndim != 2 or array.shape[1] != 2:
        raise ValueError(f"{what} are not an array of uint64 with two columns")
    return array


def bounds_of(words: _Table) -> Any:
    """The bounds that words are read with.

    Of a numpy array of uint64 whose rows are (address, upper half) it is one whose rows are
    (base, top modulo 2^64, top / 2^64). Of any other sequence of words it is a list of `decode`.

    >>> bounds_of([0])
    [(0, 18446744073709551616)]
    """
    array = _as_pairs(words, "words")
    if array is None:
        return [decode(word) for word in words]
    import numpy

    found = numpy.empty((len(array), 3), numpy.uint64)
    _bounds_of(array.ctypes.data, len(array), found.ctypes.data, len(found))
    return found


def round_of(ranges: _Table) -> Any:
    """The roundings of ranges.

    Of a numpy array of uint64 whose rows are (base, length) it is an array of records with the
    fields base, top, top_high, b, t, ie, e and exact. Of any other sequence of pairs it is a list
    of `round_bounds`.

    >>> round_of([(1, 4096)])[0].top
    4104
    """
    array = _as_pairs(ranges, "ranges")
    if array is None:
        return [round_bounds(base, length) for base, length in ranges]
    import numpy

    found = numpy.zeros(len(array), numpy.dtype(_Rounded))
    _round_of(array.ctypes.data, len(array), found.ctypes.data, len(found))
    return found
