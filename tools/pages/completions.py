"""Completions of shells: the options of each command are those of help, and the names of limits are the code's."""
import re

from . import code
from .page import source

BASH, ZSH = "completions/dbusfan.bash", "completions/_dbusfan"
# Branches of `case` by a command's name, or by several.
BRANCH = re.compile(r"^    ([a-z][a-z |]*)\)(.*?);;", re.M | re.S)


def branches(text):
    """What stands in the branch of each command."""
    known = code.commands()
    return {name: body for names, body in BRANCH.findall(text) for name in names.split(" | ") if name in known}


def options_of(body):
    """The options in a branch; zsh's completion has those of editions and of filters in variables."""
    return set(re.findall(r"--[a-z][a-z-]*", re.sub(r"\$(edition|filter)\b", r"--\1", body))) - {"--help"}


def check(report):
    for name in (BASH, ZSH):
        stated = branches(source(name))
        for command in code.commands():
            report.check_same(name, f"option of {command}", options_of(stated.get(command, "")), code.options(command))
    limits = re.search(r":limit:\(([^)]*)\)", source(ZSH)).group(1)
    report.check_same(ZSH, "limit", {it.rstrip("=") for it in limits.split()}, code.limits())
