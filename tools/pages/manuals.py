"""Manual pages, as groff prints them: their options are those of help, their limits those of the code, their references are there."""
import re
import shutil
import subprocess
from pathlib import Path

from . import code
from .page import TOP

# Which commands a manual page is of.
COMMANDS = {"man/dbusfan.1": ("match", "compile", "asm", "check", "run"), "man/dbusfan-serve.1": ("serve",),
            "man/dbusfan-watch.1": ("watch",)}
# Words of synopses that belong to no command's options.
GENERAL = {"--version", "--help", "--"}


def printed(name):
    """The page as a terminal shows it, without marks and without hyphenation; nothing if there is no groff."""
    if not shutil.which("groff"):
        return ""
    text = Path(TOP, name).read_text(encoding="utf-8").replace("\n.Os", "\n.Os\n.nh", 1)
    ran = subprocess.run(["groff", "-mdoc", "-Tascii", "-P-cbou"], input=text, capture_output=True, text=True, check=True)
    return ran.stdout


def section(text, name):
    """A section of a printed page."""
    return re.search(rf"^{name}\n(.*?)(?=^\S|\Z)", text, re.S | re.M).group(1)


def options_in(text):
    return set(re.findall(r"(?<![\w-])--[a-z][a-z-]*", text)) - GENERAL


def check_options(report, name, text):
    real = {it for command in COMMANDS[name] for it in code.options(command)}
    report.check_same(f"{name}: SYNOPSIS", "option", options_in(section(text, "SYNOPSIS")), real)
    described = options_in(section(text, "DESCRIPTION"))
    report.check_same(f"{name}: DESCRIPTION", "option", described & real, real)
    report.check(described <= real | all_options(), f"{name}: DESCRIPTION", f"no such option: {sorted(described - real - all_options())}")


def all_options():
    """The options of all commands, and those of other programs that pages name."""
    return {it for command in code.commands() for it in code.options(command)} | {"--dbus-daemon"}


def check_commands(report, name, text):
    """The synopsis of the first page has each command."""
    lines = re.findall(r"^     dbusfan ((?:[a-z]+ \| )*[a-z]+)\b", section(text, "SYNOPSIS"), re.M)
    stated = {it for line in lines for it in line.split(" | ")}
    report.check_same(f"{name}: SYNOPSIS", "command", stated, {*code.commands(), "help"})


def check_limits(report, name):
    """Each limit with its standard value, and its largest one if it has one of its own."""
    known, text = code.limits(), Path(TOP, name).read_text(encoding="utf-8")
    items = re.findall(r"^\.It Cm ([a-z, -]+)\n(.*?)(?=^\.It |^\.El)", text, re.S | re.M)
    named = [it for names, _ in items for it in names.split(" , ")]
    report.check_same(name, "limit", named, known)
    for names, body in items:
        these = [known[it] for it in names.split(" , ") if it in known]
        standards = [int(it) for it in re.findall(r"\((\d+)\)", body)]
        report.check(standards == [it.standard for it in these], name, f"the defaults of {names} are {[it.standard for it in these]}")
        mosts = [int(it) for it in re.findall(r"at most (\d+)", body)]
        own = [it.most for it in these if it.most != code.UNBOUNDED]
        report.check(mosts == own, name, f"the largest of {names} are {own}")


def check_references(report, name):
    for page, number in re.findall(r"\.Xr (dbusfan[\w-]*) (\d)", Path(TOP, name).read_text(encoding="utf-8")):
        report.check(Path(TOP, f"man/{page}.{number}").is_file(), name, f"no such manual page: {page}({number})")


def check(report):
    for path in sorted(Path(TOP, "man").iterdir()):
        name = f"man/{path.name}"
        check_references(report, name)
        text = printed(name)
        if text and name in COMMANDS:
            check_options(report, name, text)
    if printed("man/dbusfan.1"):
        check_commands(report, "man/dbusfan.1", printed("man/dbusfan.1"))
    check_limits(report, "man/dbusfan-serve.1")
