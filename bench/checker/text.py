"""Lists of events and case files as text."""

import re

from . import bus

CONNECTION_LIMIT = 1 << 64
ENTRY_LIMIT = FLAGS_LIMIT = 1 << 32
LONGEST_NUMBER = 20
DIGITS = re.compile("[0-9]+")
HEX = re.compile("(?:[0-9a-fA-F]{2})+")
INSTRUCTION_BYTES = 8
WANTED = "\t=> "


class Unreadable(Exception):
    """A line of another form; its argument is the line's number, counted from 1."""


class _Form(Exception):
    pass


def number(word, limit=CONNECTION_LIMIT):
    digits = word.lstrip("0") or "0"
    if not DIGITS.fullmatch(word) or len(digits) > LONGEST_NUMBER or int(digits) >= limit:
        raise _Form
    return int(digits)


def raw_bytes(word):
    if word == "-":
        return b""
    if not HEX.fullmatch(word):
        raise _Form
    return bytes.fromhex(word)


def edition(word):
    if number(word) not in (1, 2):
        raise _Form
    return number(word)


def program(word):
    raw = raw_bytes(word)
    if len(raw) % INSTRUCTION_BYTES:
        raise _Form
    return raw


def sender(word):
    return None if word == "bus" else number(word)


def name(word):
    if not word:
        raise _Form
    return word


FORMS = {
    "connect": (),
    "attach": (number, edition, program),
    "detach": (number, lambda word: number(word, ENTRY_LIMIT)),
    "request": (number, name, lambda word: number(word, FLAGS_LIMIT)),
    "release": (number, name),
    "drop": (number,),
    "close": (number,),
    "begin": (sender, raw_bytes),
    "piece": (number, number),
    "end": (number,),
}


def read_event(line):
    """The event that a line is: its word and its arguments."""
    word, *rest = line.split(" ")
    if word in ("add", "remove"):
        rest = line.split(" ", 2)[1:]
        if len(rest) != 2:
            raise _Form
        return word, (number(rest[0]), rest[1])
    if word not in FORMS or len(rest) != len(FORMS[word]):
        raise _Form
    return word, tuple(read(part) for read, part in zip(FORMS[word], rest))


def is_passed_over(line):
    return line == "" or line.startswith("#")


def lines_of(raw):
    """The lines with their numbers; an LF ends a line and doesn't begin one."""
    lines = raw.split(b"\n")
    if lines[-1] == b"":
        lines.pop()
    for place, line in enumerate(lines, 1):
        try:
            yield place, line.decode("utf-8")
        except UnicodeDecodeError:
            raise Unreadable(place) from None


def read_events(raw):
    events = []
    for place, line in lines_of(raw):
        if is_passed_over(line):
            continue
        try:
            events.append(read_event(line))
        except _Form:
            raise Unreadable(place) from None
    return events


def play(raw):
    """The answers to a list of events."""
    world = bus.World()
    return [world.play(event) for event in read_events(raw)]


def read_cases(raw):
    """The cases of a file: each its name and its lines (place, text of the event, wanted answer)."""
    cases = []
    for place, line in lines_of(raw):
        if is_passed_over(line):
            continue
        if line.startswith("== "):
            cases.append((line[3:], []))
            continue
        event, found, wanted = line.rpartition(WANTED)
        if not found or not cases:
            raise Unreadable(place)
        cases[-1][1].append((place, event, wanted))
    return cases


def misses_of(case):
    """The lines of a case whose answer isn't the wanted one: place, event, wanted, given. A case may want `toolong` of a rule
    that needn't compile."""
    world = bus.World()
    misses = []
    for place, line, wanted in case[1]:
        try:
            given = world.play(read_event(line), wanted)
        except _Form:
            raise Unreadable(place) from None
        if given != wanted:
            misses.append((place, line, wanted, given))
    return misses
