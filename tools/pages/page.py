"""A page as its reader sees it: prose, tables and blocks of commands; and what is found wrong in pages."""
import re
import subprocess
from pathlib import Path
from typing import NamedTuple

TOP = Path(__file__).resolve().parent.parent.parent
FENCE = re.compile(r"^(```|~~~)\s*(\w*)")
CELL = re.compile(r"(?<!\\)\|")


class Report:
    """How many statements were checked, and a line for each that is wrong."""

    def __init__(self):
        self.checks, self.wrong = 0, []

    def check(self, well, place, fault):
        self.checks += 1
        if not well:
            self.wrong.append(f"{place}: {fault}")

    def check_same(self, place, what, stated, real):
        """The page states just the names, or the pairs, that the code has. A dictionary has the place of each that it states."""
        places = stated if isinstance(stated, dict) else {}
        stated, real = set(stated), set(real)
        self.checks += len(real)
        self.wrong += [f"{places.get(it, place)}: no such {what}: {words(it)}" for it in sorted(stated - real, key=str)]
        self.wrong += [f"{place}: {what} left out: {words(it)}" for it in sorted(real - stated, key=str)]


def words(it):
    return " ".join(map(str, it)) if isinstance(it, tuple) else str(it)


class Table(NamedTuple):
    """The cells of each row, with the number of its line."""
    line: int
    header: list
    rows: list


class Block(NamedTuple):
    """A block between fences, and what stands in the two lines after it."""
    line: int
    language: str
    lines: list
    after: str


class Page:
    def __init__(self, name):
        self.name = name
        self.lines = Path(TOP, name).read_text(encoding="utf-8").split("\n")
        self.text = "\n".join(self.lines)

    def at(self, line):
        return f"{self.name}:{line}"

    def line_of(self, place):
        """The number of the line in which a place of the text is."""
        return self.text.count("\n", 0, place) + 1

    def prose(self):
        """The lines outside of blocks, with their numbers."""
        within = False
        for number, line in enumerate(self.lines, 1):
            if FENCE.match(line):
                within = not within
            elif not within:
                yield number, line

    def blocks(self):
        """The blocks of the page."""
        fences = [number for number, line in enumerate(self.lines, 1) if FENCE.match(line)]
        for first, last in zip(fences[::2], fences[1::2]):
            language = FENCE.match(self.lines[first - 1]).group(2)
            after = "\n".join(self.lines[last:last + 2])
            yield Block(first, language, self.lines[first:last - 1], after)

    def tables(self):
        """The tables of the page: lines that begin with a bar."""
        rows = []
        for number, line in [*self.prose(), (0, "")]:
            if line.startswith("|"):
                rows.append((number, [it.strip().replace(r"\|", "|") for it in CELL.split(line)[1:-1]]))
            elif rows:
                yield Table(rows[0][0], rows[0][1], rows[2:])
                rows = []

    def table(self, *header):
        """The table whose header begins with these cells."""
        found = [it for it in self.tables() if it.header[:len(header)] == list(header)]
        if len(found) != 1:
            raise LookupError(f"{len(found)} tables have the header {' | '.join(header)}")
        return found[0]


def code_of(cell):
    """The words of a cell that are set as code."""
    return re.findall(r"`([^`]+)`", cell)


def pages():
    """All pages that git knows or would add."""
    ran = subprocess.run(["git", "ls-files", "-co", "--exclude-standard", "*.md"], cwd=TOP, capture_output=True, text=True, check=True)
    return [Page(it) for it in sorted(set(ran.stdout.split())) if Path(TOP, it).is_file()]


def source(name):
    return Path(TOP, name).read_text(encoding="utf-8")
