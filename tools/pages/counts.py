"""Counts and sizes that pages state: those of the tree, of the scripts, and of the constants in the code."""
import contextlib
import importlib.machinery
import importlib.util
import io
import re
import shutil
import subprocess
import sys
from pathlib import Path

from . import code
from .page import TOP, Page, source

NUMBER = r"([\d,]*\d)"
README_LINES = 120
# What a page says of a number that the code has as a constant: the page, the words, the constant, and how many of it make one.
CONSTANTS = [
    ("docs/COMMANDS.md", rf"[Aa]t most {NUMBER} lines wait", "crates/server/src/notes.rt ROOM", 1),
    ("docs/COMMANDS.md", rf"up to {NUMBER} times", "crates/serve_command/src/addresses.rt MOST", 1),
    ("man/dbusfan-serve.1", rf"up to {NUMBER} times", "crates/serve_command/src/addresses.rt MOST", 1),
    ("docs/COMMANDS.md", rf"{NUMBER} MB or more", "crates/command_line/src/progress.rt LONG_FILE", 1_000_000),
    ("docs/COMMANDS.md", rf"more than {NUMBER} interfaces", "crates/captures/src/packets.rt MAX_INTERFACES", 1),
    ("docs/WATCHING.md", rf"within {NUMBER} seconds", "crates/bus_client/src/timed.rt ANSWER_SECONDS", 1),
    ("man/dbusfan-watch.1", rf"within {NUMBER} seconds", "crates/bus_client/src/timed.rt ANSWER_SECONDS", 1),
    ("docs/IMAGE.md", rf"{NUMBER} if there are more", "crates/summary/src/parts.rt MAX_ARGUMENTS", 1),
    ("man/dbusfan-filter.7", rf"{NUMBER} if there are more", "crates/summary/src/parts.rt MAX_ARGUMENTS", 1),
]
# The same of the default of a limit.
LIMITS = [
    ("docs/SECURITY.md", rf"all {NUMBER} rules of the bus", "all-rules", 1),
    ("docs/SECURITY.md", rf"{NUMBER} MiB may wait for each", "bytes", 1 << 20),
    ("docs/SECURITY.md", rf"each of the {NUMBER} clients", "clients", 1),
    ("docs/SECURITY.md", rf"nearly {NUMBER} MiB unfinished", "unfinished", 1 << 20),
    ("man/dbusfan-serve.1", rf"at most {NUMBER} clients", "clients", 1),
    ("man/dbusfan-serve.1", rf"Hello within {NUMBER} seconds", "hello", 1),
    ("man/dbusfan-serve.1", rf"at most {NUMBER} match rules and programs", "rules", 1),
    ("man/dbusfan-serve.1", rf"{NUMBER} instructions of programs, and", "instructions", 1),
    ("man/dbusfan-serve.1", rf"and {NUMBER} names; a call", "names", 1),
]


def value(text):
    return int(text.replace(",", ""))


def script(path):
    """A script of the repository as a module."""
    loader = importlib.machinery.SourceFileLoader(Path(path).name, str(TOP / path))
    module = importlib.util.module_from_spec(importlib.util.spec_from_loader(loader.name, loader))
    loader.exec_module(module)
    return module


def below():
    """What each crate of crates.txt names, those of the toolchain too."""
    rows = [it.split(":") for it in source("crates.txt").splitlines() if it and it[0] not in "#"]
    return {name.split()[0]: names.split() for name, names in rows}


def crates_for(name, graph):
    """A crate of the tree and those that it stands on."""
    return {name}.union(*(crates_for(it, graph) for it in graph[name] if it in graph))


def check_readme(report):
    """How long it is, how many crates the first program needs, and which crates of the toolchain are trusted."""
    page, graph = Page("README.md"), below()
    report.check(len(page.lines) - 1 <= README_LINES, "README.md", f"more than {README_LINES} lines")
    check_number(report, page, rf"{NUMBER} crates that it needs", len(crates_for("dbusfan", graph)))
    trusted = set(re.findall(r"`([a-z_0-9]+)`", page.text.partition("the toolchain's crates that are used")[2].partition("one call")[0]))
    programs = set().union(*(crates_for(it, graph) for it in ("dbusfan", "dbusfan_serve", "dbusfan_watch")))
    used = {it for name in programs for it in graph[name]} - set(graph)
    report.check(used <= trusted, "README.md", f"crates of the toolchain left out: {sorted(used - trusted)}")
    if shutil.which("rt"):
        version = subprocess.run(["rt", "version"], capture_output=True, text=True, check=False).stdout.strip()
        report.check(f"`{version}`" in page.text, "README.md", f"rt version is {version}")


def check_number(report, page, words, number):
    """Where a page uses these words, it states this number."""
    found = [*re.finditer(words.replace(" ", r"\s+"), page.text)]
    report.check(found, page.name, f"nothing says: {words}")
    for it in found:
        report.check(value(it.group(1)) == number, page.at(page.line_of(it.start())), f"{it.group(0)}: it is {number:,}")


def check_constants(report):
    for name, words, constant, unit in CONSTANTS:
        check_number(report, Page(name), words, code.constant(constant) // unit)
    for name, words, limit, unit in LIMITS:
        check_number(report, Page(name), words, code.limits()[limit].standard // unit)


def lines_cited():
    """A function that says how many lines the contracts of some functions cite, as bench/cited_lines counts them."""
    cited, own = script("bench/cited_lines"), sys.argv
    sys.argv, cited.report_of = ["cited_lines", "--of"], lambda first, functions: first
    with contextlib.redirect_stdout(io.StringIO()):
        first = cited.main()
    sys.argv = own

    def lines_of(functions):
        by = cited.closure({place: found for place, found in first.items() if any(cited.is_clause_of(place, it) for it in functions)})
        return sum(definition.size for definition in by)

    return lines_of


def check_cited(report, pages):
    """Each count of lines that is quoted beside a call of bench/cited_lines is what it prints; parts after it add up to it."""
    quoted = [(page, it) for page in pages for it in re.finditer(rf"`bench/cited_lines --of ([^`]+)`:\s+{NUMBER} lines", page.text)]
    lines_of = lines_cited() if quoted else None
    for page, it in quoted:
        lines, place = lines_of(it.group(1).split()), page.at(page.line_of(it.start()))
        report.check(value(it.group(2)) == lines, place, f"bench/cited_lines --of {it.group(1)}: {lines:,} lines")
        parts = [value(part) for part in re.findall(rf"\b{NUMBER}\b", page.text[it.end():].partition("\n\n")[0])]
        report.check(not parts or sum(parts) == lines, place, f"its parts have {sum(parts):,} lines together")


def check_suites(report):
    """As many parts of others' suites are expected to differ as the table has."""
    expected = script("clients/suites_expected.py").EXPECTED
    table = Page("clients/README.md").table("Parts", "Suite")
    stated = sum(value(it) for _, cells in table.rows for it in cells[0].split(", "))
    report.check(stated == sum(map(len, expected.values())), f"clients/README.md:{table.line}", "suites_expected.py has other parts")


def check_settings(report):
    order = script("bench/stress_order")
    count = sum(len(order.BETWEEN[order.harness_of(mode)]) for mode in order.REACTIONS + order.NAMES)
    check_number(report, Page("bench/README.md"), rf"{NUMBER} settings", count)


def check_trials(report):
    """Each trial, case and function that SECURITY names is there: a trial under its words, others under their names."""
    page, there = Page("docs/SECURITY.md"), source("clients/robust") + source("clients/rows.py")
    there += "".join(it.read_text(encoding="utf-8") for it in TOP.glob("crates/*/data/**/*.cases"))
    there += "".join(it.read_text(encoding="utf-8") for it in TOP.glob("crates/*/src/**/*.rt"))
    for table in page.tables():
        for line, cells in table.rows:
            for name in re.findall(r"`([^`]+)`", cells[-1]):
                word = re.split(r"::|\.", name.replace(" ", "_"))
                word = word[0] if name.endswith(".cases") else word[-1]
                report.check(re.search(rf"\b{word}\b", there) or [*TOP.glob(f"crates/*/data/**/{name}")] or [*TOP.glob(f"crates/{name}")]
                             or in_specs(word), page.at(line), f"nothing has this name: {name}")


def in_specs(word):
    return any(re.search(rf"\b{word}\b", it.read_text(encoding="utf-8")) for it in TOP.glob("crates/*/specs/*.antt"))


def check(report, pages):
    check_readme(report)
    check_constants(report)
    check_suites(report)
    check_trials(report)
    check_settings(report)
    check_cited(report, pages)
