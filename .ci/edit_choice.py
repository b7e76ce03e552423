"""Which edits .ci/edits tries."""

import os
import re
import subprocess
import sys
from dataclasses import dataclass

ROOT = os.getcwd()
# One for each first digit of a commit's hash.
SLICES = 16


@dataclass
class Wanted:
    """The edits of a crate that are to be tried, and whether they count among those of the last commit's crates."""

    crate: str
    files: list[str]
    cost: float
    is_limited: bool = False


def edit_files(crate: str) -> list[str]:
    """The files of a crate's edits."""
    folder = f"{ROOT}/crates/{crate}/edits"
    if not os.path.isdir(folder):
        return []
    return [f"{folder}/{it}" for it in sorted(os.listdir(folder)) if not it.endswith(".md")]


def below() -> dict[str, list[str]]:
    """Each crate of crates.txt with the crates of this repository that its line names."""
    found = {}
    with open(f"{ROOT}/crates.txt", encoding="utf-8") as lines:
        for line in lines:
            crate, colon, names = line.partition("#")[0].partition(":")
            if colon:
                found[crate.split()[0]] = names.split()
    return {crate: [it for it in names if it in found] for crate, names in found.items()}


def size_of(crate: str) -> int:
    """How many lines of code, definitions and proofs a crate has."""
    count = 0
    for part in ("src", "specs", "proofs"):
        for at, _, names in os.walk(f"{ROOT}/crates/{crate}/{part}"):
            for name in names:
                with open(f"{at}/{name}", "rb") as it:
                    count += it.read().count(b"\n")
    return count


def wanted_of(crates: dict[str, list[str]]) -> list[Wanted]:
    """The edits of all crates, with what they cost in about seconds: a first check of the whole crate, and for each
    edit its search and its part of a load of the libraries."""
    sizes = {crate: size_of(crate) for crate in crates}
    found = []
    for crate, names in crates.items():
        seen, left = set(names), list(names)
        while left:
            more = [it for it in crates[left.pop()] if it not in seen]
            seen.update(more)
            left += more
        load = 10 + sum(sizes[it] for it in seen) / 1500
        files = edit_files(crate)
        if files:
            found.append(Wanted(crate, files, round(2 * load + sizes[crate] / 20 + len(files) * (5 + load / 3))))
    return sorted(found, key=lambda it: (-it.cost, it.crate))


def slice_of(wanted: list[Wanted], number: int, count: int) -> list[Wanted]:
    """A slice of whole crates: each crate, dearest first, goes to the slice that has the least so far."""
    slices: list[list[Wanted]] = [[] for _ in range(count)]
    for it in wanted:
        min(slices, key=lambda one: sum(other.cost for other in one)).append(it)
    return slices[number]


def git(*words: str) -> str | None:
    """What git prints, or None where it fails."""
    ran = subprocess.run(["git", *words], capture_output=True, text=True)
    return ran.stdout if ran.returncode == 0 else None


def for_the_gate(wanted: list[Wanted]) -> list[Wanted]:
    """The crates that the last commit changed, and the slice of its hash."""
    commit = (git("rev-parse", "HEAD") or "").strip()
    if not commit:
        sys.exit("edits: no commit: name crates, or a slice as 0/8, or all")
    paths = (git("diff-tree", "-r", "--name-only", "HEAD^1", "HEAD") or "").split("\n")
    changed = {it[1] for path in paths if (it := re.match(r"crates/([^/]+)/(?:src|specs|proofs)/", path))}
    number = int(commit[0], 16) % SLICES
    chosen = slice_of(wanted, number, SLICES)
    limited = [it for it in wanted if it.crate in changed and it not in chosen]
    for it in limited:
        it.is_limited = True
    names = " ".join(it.crate for it in limited) or "no more"
    print(f"edits: slice {number}/{SLICES}, and of the crates that the last commit changed: {names}", flush=True)
    # the cheaper of the changed crates come first, so that more of them are tried
    return sorted(chosen, key=lambda it: -it.cost) + limited[::-1]


def chosen(words: list[str], wanted: list[Wanted]) -> list[Wanted]:
    """The edits that the command line asks for."""
    if not words:
        return for_the_gate(wanted)
    if words == ["all"]:
        return wanted
    if len(words) == 1 and (part := re.fullmatch(r"(\d+)/(\d+)", words[0])):
        if int(part[1]) >= int(part[2]):
            sys.exit("edits: slices are counted from 0, so K/N has K below N")
        return slice_of(wanted, int(part[1]), int(part[2]))
    unknown = [it for it in words if it not in [one.crate for one in wanted]]
    if unknown:
        sys.exit(f"edits: {unknown[0]} is no crate with edits in crates/{unknown[0]}/edits")
    return [it for it in wanted if it.crate in words]
