"""Edits of code that the prover must refuse, and how a crate's are tried, many in one check."""
import re
import shutil
import tempfile
from pathlib import Path
from typing import NamedTuple

import crates as tree


def edits_of(crate, top=tree.TOP):
    """The edits that the prover must refuse: those of the gate, and those of mutants/."""
    folders = [Path(crate.folder, "must-fail"), Path(top, "mutants", crate.name)]
    return [str(it) for folder in folders for it in sorted(folder.glob("*.edit"))]


def modules_of(edit):
    """The modules whose code an edit touches, none where it touches the root, or what isn't code."""
    files = [Path(it[len("file:"):].strip()) for it in Path(edit).read_text(encoding="utf-8").splitlines() if it.startswith("file:")]
    if any(it.parts[0] != "src" or it.stem in ("lib", "main") for it in files):
        return []
    return ["::".join(it.with_suffix("").parts[1:]) for it in files]


class Function(NamedTuple):
    """A function: the type that it is a method of, or None, its name, the line of its head, and those of its body."""

    owner: str | None
    name: str
    head: int
    body: range


def functions_of(lines):
    """The functions of a file."""
    owner = None
    for at, line in enumerate(lines):
        block = re.match(r"impl(?:<[^{]*?>)? (?:[\w:<>, ]+ for )?(\w+)", line)
        owner = block[1] if block else None if line == "}" else owner
        head = re.match(r"(\s*)(?:pub(?:\(\w+\))? )?(?:const )?(?:unsafe )?fn (\w+)", line)
        if not head:
            continue
        end = next((it for it in range(at + 1, len(lines)) if lines[it] == head[1] + "}"), at)
        opening = [it for it in range(at, end) if lines[it] == head[1] + "{"]
        has_clauses = any(re.match(r"\s*(ensures|requires|where|ghost)\b", it) for it in lines[at:end])
        if not opening and not has_clauses:
            opening = [it for it in range(at, end) if lines[it].endswith("{")]
        if opening:
            yield Function(owner, head[2], at, range(opening[0] + 1, end))


class Turn:
    """An edit of one function's body: the file and the function, and the lines that it changes."""

    def __init__(self, edit, path, function, lines):
        self.edit, self.path, self.function, self.lines = edit, path, function, lines
        self.module = Path(path).with_suffix("").parts[1:]

    def is_beside(self, other):
        """Whether another edit can be tried in the same check."""
        return (self.path, self.function.name) != (other.path, other.function.name)

    def goals(self, said):
        """The lines that tell of this function that a goal of it is open, by its place in the code, or that a proof of it doesn't
        fit any more, by the proof's file: a method's stands where its type is, wherever the method does. That a proof names what
        the edit took away is none of these."""
        place = re.compile(rf"note: (?:\./)?{re.escape(self.path)}:(\d+):\d+: it is not proved")
        folder = f"{self.function.owner or self.module[-1]}/{self.function.name}"
        proof = re.compile(rf"(?:\./)?proofs/(?:\S+/)?{folder}/\w+\.antt:\d+:\d+: error: ")
        names = re.compile(r"has no field|is not in scope|has no `|was not admitted")
        lines = range(self.function.head + 1, self.function.body.stop + 2)
        for it in said:
            found = place.match(it)
            if found and int(found[1]) in lines or proof.match(it) and not names.search(it):
                yield it


def turn_of(rt, crate, edit):
    """The edit as a turn of one function's body, None if it is none, or touches the crate's root."""
    texts, why = rt.read_edit(edit, crate.folder)
    if why or len(texts) != 1:
        return None
    ((path, text),) = texts.items()
    was, now = Path(crate.folder, path).read_text(encoding="utf-8").split("\n"), text.split("\n")
    if not path.startswith("src/") or Path(path).stem in ("lib", "main") or len(was) != len(now):
        return None
    changed = {at: line for at, line in enumerate(now) if line != was[at]}
    around = [it for it in functions_of(was) if all(at in it.body for at in changed)]
    return Turn(edit, path, around[-1], changed) if around else None


class Tries:
    """Tries edits of a crate. Those of different functions are tried together, in as few checks as there are edits of one
    function: an edit of a body is refused where the prover tells of that very function that it isn't proved, since other
    functions are proved over its contract, which the edit leaves as it was. What isn't refused so is tried alone: first on the
    functions of the files that it touches, and on those that they call, and last on the whole crate."""

    def __init__(self, rt, crate, kept):
        self.rt, self.crate, self.kept, self.seed = rt, crate, kept, None

    def together(self, edits):
        """Those of some edits that are refused beside others, with what is said of each."""
        checks = []
        for turn in filter(None, (turn_of(self.rt, self.crate, it) for it in edits)):
            fits = (it for it in checks if all(map(turn.is_beside, it)))
            check = next(fits, None)
            if check is None:
                checks.append(check := [])
            check.append(turn)
        return {edit: text for check in checks if len(check) > 1 for edit, text in self.check(check)}

    def check(self, turns):
        """Checks the crate with all of these turns at once."""
        texts = {}
        for turn in turns:
            lines = texts.setdefault(turn.path, Path(self.crate.folder, turn.path).read_text(encoding="utf-8").split("\n"))
            for at, line in turn.lines.items():
                lines[at] = line
        texts = {path: "\n".join(lines) for path, lines in texts.items()}
        modules = sorted({"::".join(it.module) for it in turns})
        words = [word for it in modules for word in ("--only", it)]
        ran = self.rt.checked(self.crate, texts, ["--jobs", "1", *words], self.kept)
        said = ran.stdout.split("\n")
        if ran.returncode != 1 or not any(it.startswith("logic=not-proved") for it in said):
            return
        for turn in turns:
            goals = [*turn.goals(said)]
            if goals:
                label = f"must-fail {self.crate.name}/{Path(turn.edit).name}"
                yield turn.edit, f"{label}: refused, as it must be: {goals[0][:160]}"

    def __call__(self, edit):
        """Whether the prover refuses an edit alone, and what is said of it."""
        words = [word for it in modules_of(edit) for word in ("--only", it)]
        kind, text = self.rt.must_fail(self.crate, edit, ["--jobs", "1", *words], self.kept) if words else (None, "")
        return (True, text) if kind == self.rt.REFUSED else self.over_seed(edit)

    def over_seed(self, edit):
        """Over what a check of the whole crate proved, and from nothing where that says nothing."""
        self.seed = self.seed or self.rt.seeded(self.crate, ["--jobs", "1"])
        if not self.seed:
            return False, f"{self.crate.name} is not proved, so its edits say nothing"
        over = f"{self.seed}/edit"
        self.rt.linked(f"{self.seed}/seed", over)
        kind, text = self.rt.must_fail(self.crate, edit, ["--jobs", "1"], over)
        shutil.rmtree(over)
        if kind not in self.rt.SETTLED:
            kind, text = self.rt.must_fail(self.crate, edit, ["--jobs", "1"])
        return kind in (self.rt.REFUSED, self.rt.AT_LIMIT), text

    def end(self):
        if self.seed:
            shutil.rmtree(self.seed)


def tries(rt, crate, edits):
    """For each edit whether the prover refuses it, and what is said of it."""
    if hasattr(rt, "must_fail_all"):
        yield from rt.must_fail_all(crate, edits, ["--jobs", "1"])
        return
    with tempfile.TemporaryDirectory(prefix="edits-") as kept:
        tried = Tries(rt, crate, kept)
        try:
            refused = tried.together(edits)
            yield from ((True, refused[it]) if it in refused else tried(it) for it in edits)
        finally:
            tried.end()


def try_edits(rt, crate, say):
    """Tries a crate's edits, and returns how many were refused, and how many there are. What is missing is said at once."""
    edits, count = edits_of(crate), 0
    for refused, text in tries(rt, crate, edits):
        # (a proof that names what the edit took away says little of the contract)
        if not refused or "names what the edit took away" in text:
            say(text)
        count += refused
    return count, len(edits)
