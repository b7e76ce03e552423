"""Reads a good listing: its image, its labels, and the properties that it carries.

A listing that the simulator refuses is no input here: little of what is read is judged.
"""

from __future__ import annotations

import re
from typing import NamedTuple, Optional

import values as v
from machine import (
    CODE_BASE, GRANULE, NULL, OPERANDS, RAM_BASE, Hart, Image, Instruction, Sweep,
)

DEFAULT_RAM = 4096


class BadListing(Exception):
    pass


def number_of(word: str) -> Optional[int]:
    """The number that a word spells, `None` where it spells none."""
    if not re.fullmatch(r"0x[0-9a-fA-F]+|[0-9]+", word):
        return None
    return int(word, 16) if word.startswith("0x") else int(word, 10)


def immediate_of(word: str) -> int:
    return -number_of(word[1:]) if word.startswith("-") else number_of(word)


def perms_of(word: str) -> Optional[int]:
    if word in ("all", "none"):
        return v.ALL_PERMISSIONS if word == "all" else 0
    perms = 0
    for name in word.split("+"):
        if name not in v.PERMISSIONS:
            return None
        perms |= 1 << v.PERMISSIONS[name]
    return perms


def capability(words: list[str]) -> v.Value:
    """BASE LEN ADDR PERMS [TYPE]"""
    base, length, address = (number_of(word) for word in words[:3])
    otype = v.UNSEALED
    if len(words) == 5:
        otype = v.SENTRY if words[4] == "sentry" else number_of(words[4])
    word = v.lawful_word(base, length, address, perms_of(words[3]), otype)
    if word is None:
        raise BadListing(f"no capability: {words}")
    return 1, word


def instruction(words: list[str], labels: dict[str, int]) -> Instruction:
    parts: dict[str, int] = {}
    for role, word in zip(OPERANDS[words[0]], words[1:], strict=True):
        if role in ("cd", "c1", "c2"):
            parts[role] = int(word[1:])
        elif role == "mem":
            offset, register = word.rstrip(")").split("(")
            parts["imm"], parts["c1"] = immediate_of(offset), int(register[1:])
        elif role == "target":
            parts["imm"] = number_of(word[1:]) if word.startswith("@") else labels[word]
        else:
            parts["imm"] = immediate_of(word)
    return Instruction(words[0], **parts)


def words_in(line: str) -> list[str]:
    return [word for word in re.split(r"[ \t,]+", line.split("#", 1)[0]) if word]


class Listing(NamedTuple):
    image: Image
    labels: dict[str, int]  # how many instructions come before each
    lines: list[str]


def read_listing(text: str) -> Listing:
    lines = text.split("\n")
    labels: dict[str, int] = {}
    count = 0
    for words in map(words_in, lines):
        if words and words[0] in OPERANDS:
            count += 1
        elif words and words[0].endswith(":"):
            labels[words[0][:-1]] = count
    program: list[Instruction] = []
    harts: list[tuple[v.Value, dict[int, v.Value]]] = []
    ram, granules = DEFAULT_RAM, {}
    for words in map(words_in, lines):
        if not words or words[0].endswith(":"):
            continue
        first, rest = words[0], words[1:]
        if first in OPERANDS:
            program.append(instruction(words, labels))
        elif first == ".ram":
            ram = number_of(rest[0])
        elif first == ".hart":
            harts.append((capability(rest), {}))
        elif first == ".set":
            value = capability(rest[2:]) if rest[1] == "cap" else (0, number_of(rest[2]))
            put_register(harts[-1][1], int(rest[0][1:]), value)
        elif first == ".cap":
            granules[number_of(rest[0]) // GRANULE] = capability(rest[1:])
        elif first == ".bytes":
            put_bytes(granules, number_of(rest[0]), bytes.fromhex(rest[1]))
        else:
            raise BadListing(first)
    held = tuple(sorted((number, value) for number, value in granules.items() if value != NULL))
    image = Image(tuple(program), ram, held, tuple(
        Hart(tuple(regs.get(number, NULL) for number in range(32)), pcc) for pcc, regs in harts))
    return Listing(image, labels, lines)


def put_register(regs: dict[int, v.Value], number: int, value: v.Value) -> None:
    if number in regs:
        raise BadListing(f"c{number} is set twice")
    regs[number] = value


def put_bytes(granules: dict[int, v.Value], place: int, data: bytes) -> None:
    for at, byte in enumerate(data, place):
        shift = 8 * (at % GRANULE)
        word = granules.get(at // GRANULE, NULL)[1]
        granules[at // GRANULE] = 0, word & ~(0xFF << shift) | byte << shift


# --------------------------------------------------------------------------
# Properties
# --------------------------------------------------------------------------

class Claim(NamedTuple):
    """A line of a listing that says what must be so."""

    line: int
    text: str
    kind: str  # never, always, sometimes, finally, ends, ends fairly
    condition: str


def claims_of(lines: list[str]) -> tuple[list[Claim], list[Sweep]]:
    """The properties of a listing and the sweeps that it allows."""
    claims, sweeps = [], []
    for number, line in enumerate(lines, 1):
        text = line.strip(" \t")
        if not text.startswith("#! "):
            continue
        text = text[3:]
        kind, _, rest = text.partition(" ")
        if kind == "sweep":
            sweeps.append(sweep_of(rest))
        elif kind == "ends":
            claims.append(Claim(number, text, text, ""))
        else:
            claims.append(Claim(number, text, kind, rest))
    return claims, sweeps


def sweep_of(word: str) -> Sweep:
    """LO,HI as it stands between the brackets of an order."""
    return Sweep(*(number_of(part) for part in word.split(",")))


def code_address(number: int) -> int:
    return CODE_BASE + 4 * number


# --------------------------------------------------------------------------
# Writing
# --------------------------------------------------------------------------

def perms_text(perms: int) -> str:
    names = [name for name, bit in v.PERMISSIONS.items() if perms >> bit & 1]
    return "+".join(names) or "none"


def value_words(value: v.Value) -> str:
    """A register's value as `.set` has it."""
    tag, word = value
    if not tag:
        return f"int {word}" if word < v.TWO64 else f"word {word:#x}"
    return f"cap {capability_words(word)}"


def capability_words(word: int) -> str:
    base, top = v.bounds_of(word)
    fields = v.fields_of(word)
    otype = {v.UNSEALED: "", v.SENTRY: " sentry"}.get(fields.otype, f" {fields.otype}")
    return f"{base:#x} {top - base} {fields.address:#x} {perms_text(fields.perms)}{otype}"


def write_listing(image: Image) -> str:
    lines = [f".ram {image.ram}"]
    for number, (tag, word) in image.granules:
        place = f"{number * GRANULE:#x}"
        lines.append(f".cap {place} {capability_words(word)}" if tag
                     else f".bytes {place} {word.to_bytes(16, 'little').hex()}")
    for hart in image.harts:
        lines.append(f".hart {capability_words(hart.pcc[1])}")
        lines += [f".set c{number} {value_words(value)}"
                  for number, value in enumerate(hart.regs) if value != NULL]
    return "\n".join([*lines, *map(str, image.program)]) + "\n"


def is_in_ram(image: Image, place: int, width: int) -> bool:
    return RAM_BASE <= place <= RAM_BASE + image.ram - width
