"""Which functions of a crate an edit changes, which of them can reach which, and what the prover says of each."""

import re
from dataclasses import dataclass, field

HEADING = re.compile(r'( *)(?:pub(?:\([a-z ]+\))? )?(const )?(?:unsafe )?(?:extern "C" )?fn (\w+)')
BLOCK = re.compile(r"(?:pub(?:\([a-z ]+\))? )?(impl\b|trait\b|mod\b)")
CALL = re.compile(r"(\w+)(?:::<[^()]*>)?\(|::(\w+)")
SAID = re.compile(r"^fn (\S+): (.*)$", re.MULTILINE)
# What the prover says of a function that it refuses for itself: where it has a file of answers, and where it has none.
# With '; it calls ..' behind it, or 'no proof: it calls ..', it may be refused for what another function lacks.
REFUSED = re.compile(r"not proved|no proof: expected answers in \S+; `search` did not prove `[^`]*`(, `[^`]*`)*")


@dataclass(frozen=True)
class Block:
    """An impl, a trait or an inline module, by its first and last line, and the types that its heading names."""

    first: int
    last: int
    kind: str
    owner: str = ""
    trait: str = ""


@dataclass
class Function:
    """A function of a crate: its file, the line that its body begins after, its last one, and how the prover may name
    it."""

    path: str
    opening: int
    last: int
    name: str
    is_const: bool
    pattern: str
    calls: set[str] = field(default_factory=set)


def module_of(crate: str, path: str) -> str:
    """The module of a file src/.., as the prover names it."""
    inner = path.removeprefix("src/").removesuffix(".rt").removesuffix("/mod")
    return crate if inner in ("lib", "main") else f"{crate}::{inner.replace('/', '::')}"


def without_generics(text: str) -> str:
    """The text without what stands in < >."""
    before = None
    while before != text:
        before, text = text, re.sub(r"(?<!-)<[^<>]*(?<!-)>", "", text)
    return text


def block_of(lines: list[str], first: int) -> Block:
    """The block whose heading begins in a line without indentation."""
    body = first
    while not lines[body].rstrip().endswith(("{", "}", ";")) and body + 1 < len(lines):
        body += 1
    heading = " ".join(lines[first : body + 1])
    last = body
    if heading.rstrip().endswith("{"):
        last = next((at for at in range(body, len(lines)) if lines[at].startswith("}")), len(lines) - 1)
    kind = BLOCK.match(heading)[1]
    if kind != "impl":
        return Block(first, last, kind, re.search(rf"{kind} (\w+)", heading)[1])
    words = re.sub(r"\bwhere\b.*", "", heading.rstrip("{} "))
    words = re.sub(r"^impl\s*(<(?:[^<>]|<[^<>]*>)*>)?\s*", "", words)
    trait, found, owner = words.rpartition(" for ")
    simple = lambda it: without_generics(it).strip().rpartition("::")[2]
    given = "".join(re.findall(r"\w+", trait.partition("<")[2])) if found else ""
    return Block(first, last, kind, simple(owner), simple(trait) + given)


def end_of(lines: list[str], first: int, indent: str) -> int:
    """The last line of a function, in text as the formatter lays it out."""
    for at in range(first, len(lines)):
        line = lines[at].rstrip()
        if line == f"{indent}}}" or line.endswith(("{}", ";")) and re.match(rf"{indent}\S", line):
            return at
        if at == first and line.endswith("}") and line.count("{") == line.count("}"):
            return at
    return len(lines) - 1


def pattern_of(crate: str, path: str, name: str, indent: str, block: Block | None) -> str:
    """What the prover's name of a function must match; nothing where this script can't tell."""
    if not indent:
        return re.escape(f"{module_of(crate, path)}::{name}")
    if block is None or block.kind == "mod" or not re.fullmatch(r"\w+", block.owner):
        return ""
    if block.kind == "trait":
        return re.escape(f"{module_of(crate, path)}::{block.owner}::{name}")
    return rf"{crate}::(\w+::)*{block.owner}{block.trait}::{name}"


def end_of_name(crate: str, function: Function) -> str:
    """The end of the prover's name of a function, or its path below the crate."""
    return function.pattern.rpartition(")*")[2] or function.pattern.removeprefix(f"{crate}::")


def functions_of(crate: str, path: str, text: str) -> list[Function]:
    """The functions of a file."""
    lines = text.split("\n")
    blocks = [block_of(lines, at) for at, line in enumerate(lines) if BLOCK.match(line)]
    found = []
    for at, line in enumerate(lines):
        if heading := HEADING.match(line):
            indent, is_const, name = heading.groups()
            last = end_of(lines, at, indent)
            opens = re.compile(rf"{indent}\S.*\{{|{indent}\{{")
            opening = next((it for it in range(at, last) if opens.fullmatch(lines[it].rstrip())), last)
            block = next((it for it in blocks if it.first < at <= it.last), None)
            pattern = pattern_of(crate, path, name, indent, block)
            body = "\n".join(lines[at : last + 1])
            calls = {one or other for one, other in CALL.findall(body)}
            found.append(Function(path, opening, last, name, bool(is_const), pattern, calls))
    return found


def reached(functions: list[Function]) -> list[set[int]]:
    """For each function those that it may reach by calls, itself included. Calls are told by names alone, so these are
    rather too many than too few."""
    by_name: dict[str, list[int]] = {}
    for number, it in enumerate(functions):
        by_name.setdefault(it.name, []).append(number)
    found = []
    for number in range(len(functions)):
        seen, left = {number}, [number]
        while left:
            for name in functions[left.pop()].calls:
                new = set(by_name.get(name, ())) - seen
                seen |= new
                left += new
        found.append(seen)
    return found


def refused_name(function: Function, said: dict[str, str]) -> str | None:
    """The name under which the prover refuses the function, or a closure of it, for itself; None where it doesn't, or
    where its name isn't the only one that fits."""
    names = [it for it in said if function.pattern and re.fullmatch(function.pattern, it)]
    if len(names) != 1:
        return None
    own = [it for it in said if it == names[0] or it.replace("::fn::", "::").startswith(f"{names[0]}::")]
    return next((it for it in own if REFUSED.fullmatch(said[it])), None)


def said_of_functions(output: str) -> dict[str, str]:
    """What a check said of each function."""
    return dict(SAID.findall(output))
