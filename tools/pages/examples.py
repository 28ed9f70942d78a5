"""Examples of commands whose answer stands beside them, and that need no bus: they are run, and compared."""
import itertools
import re
import shlex
import subprocess
from typing import NamedTuple

from . import code
from .page import TOP

COMMAND = re.compile(r"(?:(?:echo|printf) .*\| )?\./dbusfan (?:match|compile|asm|check|run) ")
NUMBERS = "no one two three four five six seven eight nine ten eleven twelve".split()
SECONDS = 60


class Example(NamedTuple):
    place: str
    command: str
    answer: str


def examples_in(page):
    """A command's answer is the comment after it, the block after its block, or what the text says that it prints."""
    blocks = [*page.blocks()]
    for number, block in enumerate(blocks):
        if block.language != "sh":
            continue
        for line, text in enumerate(block.lines, block.line + 1):
            command, _, comment = re.sub(r" +# ", "\0", text, count=1).partition("\0")
            if COMMAND.match(command):
                answer = comment or answer_after(block, blocks[number + 1:])
                if answer and (comment or text == block.lines[-1]):
                    yield Example(page.at(line), command, answer)


def answer_after(block, others):
    """What stands below a block: another block without a language, or a sentence that says what is printed."""
    printed = re.match(r"\nIt prints `([^`]+)`", block.after)
    if printed:
        return printed.group(1)
    is_next = others and others[0].language == "" and others[0].line == block.line + len(block.lines) + 3
    return "\n".join(others[0].lines) if is_next else None


def as_stated(said, expected):
    """What a command said, as pages state it: whole, by its first line, or by that and how many more there are."""
    first, *others = said.split("\n")
    if expected.startswith("dbusfan: "):
        return first
    if expected.endswith(" lines more"):
        return f"{first} and {NUMBERS[len(others)] if len(others) < len(NUMBERS) else len(others)} lines more"
    return said


def first_difference(said, expected):
    """The first lines of two texts that differ."""
    pairs = itertools.zip_longest(said.split("\n"), expected.split("\n"))
    return "{!r}, and not {!r}".format(*next((it for it in pairs if it[0] != it[1]), (said, expected)))


def status_of(answer):
    """The status that a program ends with after an answer."""
    if answer.startswith("dbusfan: "):
        return dict(code.statuses())[answer.split()[1]]
    last = answer.split("\n")[-1]
    return 1 if answer.startswith(("no match", "0 of ")) or last.startswith("verdict 0 ") else 0


def check_example(report, program, example):
    command = example.command.replace("./dbusfan ", f"{shlex.quote(str(program))} ")
    try:
        ran = subprocess.run(["sh", "-c", command], cwd=TOP, capture_output=True, text=True, timeout=SECONDS, check=False)
        said = (ran.stderr if example.answer.startswith("dbusfan: ") else ran.stdout).rstrip("\n")
        status = ran.returncode
    except subprocess.TimeoutExpired:
        said, status = "no answer", None
    named, wanted, said = example.command.strip(), status_of(example.answer), as_stated(said, example.answer)
    report.check(said == example.answer, example.place, f"{named}: {first_difference(said, example.answer)}")
    report.check(status == wanted, example.place, f"{named}: status {status}, and not {wanted}")


def check(report, pages, program):
    for page in pages:
        for example in examples_in(page):
            check_example(report, program, example)


def built():
    """The program where `./dbusfan` builds it, unless it isn't there or a file of its code is newer."""
    program = TOP / "crates/dbusfan/out/dbusfan"
    folders = TOP / "crates/dbusfan/out/dbusfan.folders"
    if not program.is_file() or not folders.is_file():
        return None
    code = [TOP / it for it in re.findall(r"[\w/]+/src", folders.read_text(encoding="utf-8"))]
    newer = subprocess.run(["find", *code, TOP / "crates.txt", "-newer", program], capture_output=True, text=True, check=False)
    return None if newer.stdout or newer.returncode else program
