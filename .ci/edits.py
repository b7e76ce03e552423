"""What .ci/edits does; its head says it."""

import contextlib
import importlib.machinery
import importlib.util
import os
import resource
import shutil
import subprocess
import sys
import tempfile
from concurrent.futures import ProcessPoolExecutor
from dataclasses import dataclass, field
from multiprocessing import get_context
from types import ModuleType

from edit_choice import ROOT, Wanted, below, chosen, wanted_of
from edit_functions import Function, end_of_name, functions_of, reached, refused_name, said_of_functions

# What the edits of the crates that the last commit changed may take, in processor seconds.
MOST_OF_CHANGED = 15 * 60
MOST_AT_ONCE = 4
# Whether a crate's checks begin with what rt check has kept of it, and not from nothing.
BEGINS_KEPT = "--kept" in sys.argv
FLAGS = ["--jobs", "1"]


def load_rt() -> ModuleType:
    """rt's own code, by which an edit is applied, tried alone and judged."""
    path = shutil.which("rt")
    if not path:
        sys.exit("edits: there is no rt on PATH")
    loader = importlib.machinery.SourceFileLoader("rt", os.path.realpath(path))
    spec = importlib.util.spec_from_loader("rt", loader)
    made = importlib.util.module_from_spec(spec)
    sys.modules["rt"] = made
    loader.exec_module(made)
    if not hasattr(made, "linked"):
        fill_in(made)
    for name in ("must_fail", "checked", "read_edit", "unread", "linked", "listing", "SETTLED"):
        if not hasattr(made, name):
            sys.exit(f"edits: this kit's rt has no {name}: README.md names the kits that this script knows")
    return made


def copied(kept: str, copy: str) -> None:
    """A copy of a folder of kept work. Links would not do: this kit's prover writes some of its files in place."""
    shutil.copytree(kept, copy)


def listing(kept: str) -> list[tuple[str, int, int, int]]:
    """The files of a folder of kept work, which show whether one of them was written since."""
    found = []
    for at, _, names in os.walk(kept):
        for name in names:
            status = os.stat(f"{at}/{name}")
            found.append((f"{at}/{name}", status.st_size, status.st_mtime_ns, status.st_ino))
    return sorted(found)


def fill_in(made: ModuleType) -> None:
    """What rt of kit 13b lacks of what 13f's has: calls on kept work, and names for what must_fail answers, which is only
    whether an edit was refused."""
    made.linked, made.listing = copied, listing
    made.REFUSED = made.AT_LIMIT = True
    made.SETTLED = (True,)


RT = load_rt()


@dataclass
class Edit:
    """An edit: the lines that it changes, by file, and the functions that they lie in; none: it is tried alone."""

    file: str
    lines: dict[str, dict[int, str]] = field(default_factory=dict)
    functions: set[int] = field(default_factory=set)

    @property
    def name(self) -> str:
        return os.path.basename(self.file).removesuffix(".edit")


@dataclass
class Came:
    """What the edits of a crate came to."""

    crate: str
    passed: int = 0
    failed: list[str] = field(default_factory=list)
    left: list[str] = field(default_factory=list)
    seconds: float = 0.0


def children_seconds() -> float:
    """The processor seconds of this process's children that have ended, and of theirs."""
    used = resource.getrusage(resource.RUSAGE_CHILDREN)
    return used.ru_utime + used.ru_stime


class Trial:
    """The edits of one crate, tried by a process of its own."""

    def __init__(self, wanted: Wanted, room: str):
        self.wanted, self.room, self.kept = wanted, room, f"{room}/kept"
        self.crate = RT.Crate(f"{ROOT}/crates/{wanted.crate}", ROOT, {})
        self.came = Came(wanted.crate)
        self.functions: list[Function] = []
        self.reached: list[set[int]] = []
        self.texts: dict[str, str] = {}
        self.refused: list[tuple[Edit, str]] = []
        start = f"{self.crate.folder}/out/incremental"
        self.has_start = BEGINS_KEPT and os.path.isdir(start)
        if self.has_start:
            RT.linked(start, self.kept)
        else:
            os.mkdir(self.kept)

    def say(self, edit: Edit, text: str) -> None:
        print(f"edits {self.wanted.crate}/{edit.name}: {text}", flush=True)

    def fail(self, edit: Edit, text: str) -> None:
        self.came.failed.append(edit.name)
        self.say(edit, f"FAILED: {text}")

    def is_over(self) -> bool:
        """Whether no processor time is left for it."""
        return self.wanted.is_limited and LIMITED.value >= MOST_OF_CHANGED

    def spending(self, call, *given):
        """Counts the processor time of a check."""
        before = children_seconds()
        try:
            return call(*given)
        finally:
            spent = children_seconds() - before
            self.came.seconds += spent
            if self.wanted.is_limited:
                with LIMITED.get_lock():
                    LIMITED.value += spent

    def read(self) -> None:
        """Reads the crate's functions."""
        for at, _, names in sorted(os.walk(f"{self.crate.folder}/src")):
            for name in sorted(names):
                path = os.path.relpath(f"{at}/{name}", self.crate.folder)
                with open(f"{at}/{name}", encoding="utf-8") as it:
                    self.texts[path] = it.read()
                self.functions += functions_of(self.wanted.crate, path, self.texts[path])
        self.reached = reached(self.functions)

    def edit_of(self, file: str) -> Edit | None:
        """An edit as rt reads it; a bad one fails."""
        edit = Edit(file)
        texts, why = RT.read_edit(file, self.crate.folder)
        if why or not file.endswith(".edit"):
            self.fail(edit, f"BAD EDIT: {why or 'its name ends in neither .edit nor .md'}")
            return None
        for path, text in texts.items():
            old, new = self.texts.get(path, "").split("\n"), text.split("\n")
            changed = {at: line for at, (before, line) in enumerate(zip(old, new)) if before != line}
            edit.lines[path] = changed
            owners = [self.owner(path, at) for at in changed]
            if len(old) != len(new) or None in owners:
                edit.functions.clear()
                return edit
            edit.functions.update(owners)
        return edit

    def owner(self, path: str, line: int) -> int | None:
        """The function whose body has a line, where the prover can refuse it for itself (not a const one, which others
        may use as it stands)."""
        for number, it in enumerate(self.functions):
            if it.path == path and it.opening < line < it.last:
                return number if it.pattern and not it.is_const else None
        return None

    def clash(self, one: Edit, other: Edit) -> bool:
        """Whether one of them could hide what is said of the other."""
        return any(
            two in self.reached[it] or it in self.reached[two]
            for it in one.functions
            for two in other.functions
        )

    def grouped(self, edits: list[Edit]) -> list[list[Edit]]:
        """Groups of edits that don't clash, each to be tried in one check."""
        count = {id(it): sum(self.clash(it, other) for other in edits) for it in edits}
        groups: list[list[Edit]] = []
        for edit in sorted(edits, key=lambda it: -count[id(it)]):
            fit = next((group for group in groups if not any(self.clash(edit, it) for it in group)), None)
            groups.append([edit]) if fit is None else fit.append(edit)
        return groups

    def checked_only(self, texts: dict[str, str], edits: list[Edit], kept: str) -> subprocess.CompletedProcess:
        """A check over a folder of the functions of edits and of those that they call alone; of the whole crate where
        the prover doesn't know one of them by the end of its name."""
        names = {end_of_name(self.wanted.crate, self.functions[it]) for edit in edits for it in edit.functions}
        only = [word for name in sorted(names) for word in ("--only", name)]
        ran = self.spending(RT.checked, self.crate, texts, [*FLAGS, *only], kept)
        return self.spending(RT.checked, self.crate, texts, FLAGS, kept) if ran.returncode == 2 else ran

    def try_many(self, edits: list[Edit], kept: str) -> list[Edit]:
        """Tries edits in one check over a folder, and returns those that it says nothing of."""
        texts = {}
        for path in {path for it in edits for path in it.lines}:
            lines = self.texts[path].split("\n")
            for it in edits:
                for at, line in it.lines.get(path, {}).items():
                    lines[at] = line
            texts[path] = "\n".join(lines)
        before = self.came.seconds
        ran = self.checked_only(texts, edits, kept)
        print(f"edits {self.wanted.crate}: a check of {len(edits)}, {self.came.seconds - before:.0f} s", flush=True)
        output = ran.stdout.rstrip("\n").split("\n")
        if ran.returncode != 1 or not output[-1].startswith(("logic=not-proved", "only=")):
            return edits
        said = said_of_functions(ran.stdout)
        unread = [it for it in output if RT.unread(it, texts)]
        left = []
        for edit in edits:
            is_unread = any(it.removeprefix("./").startswith(f"{path}:") for it in unread for path in edit.lines)
            names = [refused_name(self.functions[it], said) for it in edit.functions]
            name = next((it for it in names if it), None)
            if name and not is_unread:
                self.refused.append((edit, f"refused in a check of {len(edits)}: {name} is not proved"))
            else:
                left.append(edit)
        return left

    @contextlib.contextmanager
    def copied(self):
        """A copy of what is kept, as rt makes one for each edit: what is proved there is linked."""
        with tempfile.TemporaryDirectory(dir=self.room) as room:
            RT.linked(self.kept, f"{room}/kept")
            yield f"{room}/kept"

    def try_over_copies(self, groups: list[list[Edit]]) -> list[Edit]:
        """Tries groups of edits, each over a copy of what is kept, and returns those that nothing is said of."""
        hidden = []
        for group in groups:
            if self.is_over():
                self.leave(group)
            else:
                with self.copied() as over:
                    hidden += self.try_many(group, over)
        return hidden

    def try_alone(self, edit: Edit) -> None:
        """Tries an edit alone, as rt does: over a copy of what is kept, and from nothing where that refuses nothing."""
        if self.is_over():
            self.leave([edit])
            return
        tried = None
        if os.listdir(self.kept):
            with self.copied() as over:
                tried = self.spending(RT.must_fail, self.crate, edit.file, FLAGS, over)
        if not tried or tried[0] not in RT.SETTLED:
            tried = self.spending(RT.must_fail, self.crate, edit.file, FLAGS)
        text = tried[1].partition(f"/{os.path.basename(edit.file)}: ")[2] or tried[1]
        if tried[0] in (RT.REFUSED, RT.AT_LIMIT):
            self.refused.append((edit, f"alone: {text}"))
        else:
            self.fail(edit, text)

    def stands(self, edits: list[Edit]) -> bool:
        """Whether the functions of edits are proved as they stand over what is kept, and with them those that they call;
        the whole crate, where an edit is tried alone."""
        if all(it.functions for it in edits):
            ran = self.checked_only({}, edits, self.kept)
        else:
            ran = self.spending(RT.checked, self.crate, {}, FLAGS, self.kept)
        return ran.returncode == 0

    def leave(self, edits: list[Edit]) -> None:
        self.came.left += [it.name for it in edits]

    def run(self) -> None:
        """Tries all, over copies of what the check of their functions as they stand keeps; a single one from nothing."""
        self.read()
        edits = [it for it in map(self.edit_of, self.wanted.files) if it]
        many = [it for it in edits if it.functions]
        alone = [it for it in edits if it not in many]
        groups = sorted(self.grouped(many), key=len, reverse=True)
        is_sound = not many and len(edits) < 2 and not self.has_start or self.stands(edits)
        files = RT.listing(self.kept)
        if is_sound:
            hidden = self.try_over_copies(groups)
            again = self.grouped(hidden)
            alone += [it for group in again if len(group) == 1 for it in group]
            alone += self.try_over_copies([group for group in again if len(group) > 1])
            for edit in alone:
                self.try_alone(edit)
        if not is_sound or RT.listing(self.kept) != files:
            for edit in (it for it in edits if it.name not in self.came.failed):
                self.fail(edit, "the crate as it stands isn't proved over what its checks kept, or that was changed")
            self.came.left.clear()
        else:
            self.came.passed = len(self.refused)
            for edit, text in sorted(self.refused, key=lambda it: it[0].name):
                self.say(edit, text)


def lacking(crate) -> str | None:
    """A library that a crate needs and that isn't there."""
    return next((it.name for it in crate.below() if not os.path.isdir(it.rlib)), None)


def tried(wanted: Wanted) -> Came:
    """Tries the edits of a crate, and says what they took."""
    with tempfile.TemporaryDirectory(prefix=f"rt-edits-{os.getpid()}-") as room:
        trial = Trial(wanted, room)
        if library := lacking(trial.crate):
            why = f"there is no library crates/{library}/out/rlib: run .ci/run, or 'rt check' in crates/{wanted.crate}"
            for file in wanted.files:
                trial.fail(Edit(file), why)
        elif trial.is_over():
            trial.leave([Edit(it) for it in wanted.files])
        else:
            trial.run()
    came = trial.came
    for name in came.left:
        print(f"edits {came.crate}/{name}: left, since {MOST_OF_CHANGED // 60} processor minutes are spent")
    counts = f"{came.passed} refused, {len(came.failed)} failed, {came.seconds:.0f} processor seconds"
    print(f"edits {came.crate}: {counts}", flush=True)
    return came


def begin(limited) -> None:
    """Gives a process what is counted by all."""
    global LIMITED
    LIMITED = limited


def main(words: list[str]) -> int:
    is_list = "--list" in words
    wanted = chosen([it for it in words if it not in ("--list", "--kept")], wanted_of(below()))
    if is_list:
        for it in wanted:
            names = " ".join(os.path.basename(file).removesuffix(".edit") for file in it.files)
            print(f"{it.crate}: {len(it.files)} edits, about {it.cost:.0f} s: {names}")
        return 0
    lanes = os.environ.get("RT_JOBS") or subprocess.run(["bin/.lanes"], capture_output=True, text=True).stdout
    context = get_context("fork")
    how = {"mp_context": context, "initializer": begin, "initargs": (context.Value("d", 0.0),)}
    with ProcessPoolExecutor(max(1, min(int(lanes or 1), MOST_AT_ONCE)), **how) as pool:
        all_came = list(pool.map(tried, wanted))
    passed = sum(it.passed for it in all_came)
    failed = sum(len(it.failed) for it in all_came)
    print(f"edits: {sum(it.seconds for it in all_came) / 60:.1f} processor minutes")
    print(f"{passed} passed, {failed} failed")
    return 1 if failed else 0


if __name__ == "__main__":
    sys.exit(main(sys.argv[1:]))
