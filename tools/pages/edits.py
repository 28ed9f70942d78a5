"""Edits, bugs, cases and tests that docs/PROMISES.md names: each is there, and an edit is one of the crate that the page says."""
import re

from .page import TOP, Page, code_of

HEADING = re.compile(r"## (.+)")
BY_CRATE = re.compile(r"(\w+): ((?:`\w+`(?:, )?)+)")
CASE = re.compile(r"^(?:== )?([\w.]+)", re.MULTILINE)
TEST = re.compile(r"fn (\w+)\(")


def edits_of(crates):
    """The names of the edits of some crates, which the prover refuses."""
    folders = [folder for it in crates for folder in (TOP / "mutants" / it, TOP / "crates" / it / "must-fail")]
    return {it.stem for folder in folders for it in folder.glob("*.edit")}


def found(pattern, *files):
    """What the first group of a pattern finds in files."""
    return {it for name in files for file in TOP.glob(name) for it in pattern.findall(file.read_text(encoding="utf-8"))}


def noticed():
    """The names of all bugs, and of the cases and tests that notice faults."""
    cases = found(CASE, "crates/cases*/data/**/*.cases", "crates/cases*/data/**/*.lists")
    bugs = {it.stem for it in TOP.glob("bugs/*/*.edit")}
    return bugs | {it.rpartition(".")[2] for it in cases} | found(TEST, "crates/tests_*/src/*.rt")


def check(report):
    page, others = Page("docs/PROMISES.md"), noticed()
    crates = {number: match.group(1).split(", ") for number, line in page.prose() if (match := HEADING.fullmatch(line))}

    def check_names(line, what, cell, known):
        for it in code_of(cell):
            report.check(it in known or "/" in it, page.at(line), f"no such {what}: {it}")

    for table in page.tables():
        mine = crates[max(it for it in crates if it < table.line)]
        for line, cells in table.rows:
            row = dict(zip(table.header, cells))
            edits, _, bugs = row.get("Edits, among others", "").partition("bug: ")
            check_names(line, f"edit of {' or '.join(mine)}", edits, edits_of(mine))
            check_names(line, "bug, case or test", bugs + row.get("Bugs and cases", ""), others)
            for crate, names in BY_CRATE.findall(row.get("Edits, by crate", "")):
                check_names(line, f"edit of {crate}", names, edits_of([crate]))
