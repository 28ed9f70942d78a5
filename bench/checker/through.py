"""Case files played by a program: each case is a list on its standard input."""

import shlex
import subprocess
import sys

from . import text


def add_options(parser):
    parser.add_argument("command", help="the program; it is given `-`, and a case's events on standard input")
    parser.add_argument("files", nargs="+")


def answers_of(command, case):
    """What the program prints to a case's events, a line each, and its status."""
    raw = "".join(line + "\n" for _, line, _ in case[1]).encode()
    done = subprocess.run(shlex.split(command) + ["-"], input=raw, stdout=subprocess.PIPE)
    return done.stdout.decode("utf-8", "replace").split("\n"), done.returncode


def print_misses(path, case, given):
    """Whether an answer misses."""
    misses = len(given) != len(case[1]) + 1 or given[-1] != ""
    for (place, line, wanted), answer in zip(case[1], given):
        if answer != wanted:
            misses = True
            print("%s:%d: %s: %s\n  wanted %s\n  given  %s" % (path, place, case[0], line[:200], wanted, answer))
    return misses


def main(options):
    count = wrong = 0
    for path in options.files:
        try:
            cases = text.read_cases(open(path, "rb").read())
        except text.Unreadable as unreadable:
            print("%s: line %d: unreadable" % (path, unreadable.args[0]), file=sys.stderr)
            return 2
        for case in cases:
            given, status = answers_of(options.command, case)
            count += 1
            wrong += print_misses(path, case, given) or status != 0
    print("%d cases, %d wrong" % (count, wrong))
    return 1 if wrong else 0
