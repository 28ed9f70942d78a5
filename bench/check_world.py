#!/usr/bin/env python3
"""A bus outside the repository's code: plays lists of events, case files, and random lists against a program.

    check_world.py play FILE                 the answers to a list (- is standard input)
    check_world.py cases FILE..              case files: what misses, then `N cases, M wrong`
    check_world.py through COMMAND FILE..    case files, each case fed to `COMMAND -`
    check_world.py against COMMAND [..]      random lists, each played here and fed to `COMMAND -`
    check_world.py self DIRECTORY            this checker itself, by cases that others made
    check_world.py message WORD..            the bytes of a message, for case files
"""

import argparse
import sys

from checker import build, compare, outside, text, through


def play(options):
    raw = sys.stdin.buffer.read() if options.file == "-" else open(options.file, "rb").read()
    try:
        answers = text.play(raw)
    except text.Unreadable as unreadable:
        print("line %d: unreadable" % unreadable.args[0], file=sys.stderr)
        return 2
    sys.stdout.write("".join(answer + "\n" for answer in answers))
    return 0


def cases(options):
    count = wrong = 0
    for path in options.files:
        try:
            for case in text.read_cases(open(path, "rb").read()):
                count += 1
                misses = text.misses_of(case)
                wrong += bool(misses)
                for place, line, wanted, given in misses:
                    print("%s:%d: %s: %s\n  wanted %s\n  given  %s" % (path, place, case[0], line[:200], wanted, given))
        except text.Unreadable as unreadable:
            print("%s: line %d: unreadable" % (path, unreadable.args[0]), file=sys.stderr)
            return 2
    print("%d cases, %d wrong" % (count, wrong))
    return 1 if wrong else 0


def message(options):
    print(build.from_words(options.words).hex())
    return 0


def arguments():
    parser = argparse.ArgumentParser(description=__doc__, formatter_class=argparse.RawDescriptionHelpFormatter)
    modes = parser.add_subparsers(required=True)
    mode = modes.add_parser("play")
    mode.add_argument("file")
    mode.set_defaults(run=play)
    mode = modes.add_parser("cases")
    mode.add_argument("files", nargs="+")
    mode.set_defaults(run=cases)
    mode = modes.add_parser("through")
    through.add_options(mode)
    mode.set_defaults(run=through.main)
    mode = modes.add_parser("against")
    compare.add_options(mode)
    mode.set_defaults(run=compare.main)
    mode = modes.add_parser("self")
    mode.add_argument("directory")
    mode.set_defaults(run=outside.main)
    mode = modes.add_parser("message")
    mode.add_argument("words", nargs="*")
    mode.set_defaults(run=message)
    return parser.parse_args()


if __name__ == "__main__":
    options = arguments()
    sys.exit(options.run(options))
