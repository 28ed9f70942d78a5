"""Random lists played here and by a program: the differences, each shrunk to few lines."""

import os
import random
import shlex
import subprocess
import time
from concurrent.futures import ProcessPoolExecutor

from . import bus, lists, text

SHRINK_SECONDS = 30
NO_JOB = 4000000000
LONGEST_SHOWN = 400
FIRST_FULL = len(lists.FULL)


def add_options(parser):
    parser.add_argument("command", help="the program; it is given `-`, and the list on standard input")
    parser.add_argument("--lists", type=int, default=100)
    parser.add_argument("--seed", type=int, default=None)
    parser.add_argument("--events", type=int, default=300, help="about how many events a list has")
    parser.add_argument("--jobs", type=int, default=1, help="how many lists are played at once")
    parser.add_argument("--both", action="store_true", help="only what the core and passes answer alike")
    parser.add_argument("--near", action="store_true", help="lists full of near misses for the namespaces of rules")
    parser.add_argument("--unreadable", action="store_true", help="lists with a line of no form")
    parser.add_argument("--seconds", type=int, default=600, help="how long one list may take")
    parser.add_argument("--directory", default=".", help="where lists with a difference are written")


def program_answer(options, raw):
    """What the program printed, said and ended with."""
    try:
        done = subprocess.run(
            shlex.split(options.command) + ["-"], input=raw, capture_output=True, timeout=options.seconds
        )
    except subprocess.TimeoutExpired:
        return b"", b"no end after %d seconds" % options.seconds, None
    return done.stdout, done.stderr, done.returncode


def as_bytes(lines):
    return "".join(line + "\n" for line in lines).encode()


def first_difference(lines, wanted, answer):
    """The first event that is answered otherwise: (its number, wanted, given), or None."""
    given, said, status = answer
    given = given.decode("utf-8", "replace").split("\n")
    tail = given.pop()
    wanted = allowed(lines, wanted, given)
    for number, one in enumerate(wanted):
        if number >= len(given):
            return number, one, "(nothing; status %s, %r)" % (status, said[:LONGEST_SHOWN])
        if given[number] != one:
            return number, one, given[number]
    if len(given) > len(wanted) or tail:
        return len(wanted), "(no more lines)", (given + [tail])[len(wanted)]
    if status != 0:
        return len(wanted), "(status 0)", "(status %s, %r)" % (status, said[:LONGEST_SHOWN])
    return None


def allowed(lines, wanted, given):
    """The wanted answers where the program said `toolong` of rules that needn't compile."""
    if "toolong" not in given:
        return wanted
    world = bus.World()
    return [world.play(text.read_event(line), told) for line, told in zip(lines, given + [""] * len(lines))]


def renumbered(lines, kept):
    """The lines at these places, with pieces and ends on the places that their jobs have now."""
    places = {place: new for new, place in enumerate(kept)}
    made = []
    for place in kept:
        words = lines[place].split(" ")
        if words[0] in ("piece", "end") and int(words[1]) < len(lines):
            words[1] = str(places.get(int(words[1]), NO_JOB))
        made.append(" ".join(words))
    return made


def shrunk(options, lines):
    """Fewer lines that still differ, found by leaving out runs of them."""
    stop = time.monotonic() + SHRINK_SECONDS

    def differs(kept):
        fewer = renumbered(lines, kept)
        return first_difference(fewer, played(fewer), program_answer(options, as_bytes(fewer))) is not None

    kept = list(range(len(lines)))
    size = max(len(kept) // 2, 1)
    while time.monotonic() < stop:
        at, found = 0, False
        while at < len(kept) and time.monotonic() < stop:
            fewer = kept[:at] + kept[at + size :]
            if differs(fewer):
                kept, found = fewer, True
            else:
                at += size
        if size == 1 and not found:
            break
        size = max(size // 2, 1)
    return renumbered(lines, kept)


def played(lines):
    return text.play(as_bytes(lines))


def shown(line):
    return line if len(line) <= LONGEST_SHOWN else line[:LONGEST_SHOWN] + ".."


def save(options, index, suffix, raw):
    path = os.path.join(options.directory, "difference-%d-%d%s" % (options.seed, index, suffix))
    with open(path, "wb") as file:
        file.write(raw)
    return path


def one_list(job):
    """Plays list `index`: how many events it has, and what to print where the program differs."""
    options, index = job
    rng = random.Random("%d %d" % (options.seed, index))
    if options.unreadable:
        return one_unreadable(options, index, rng)
    full = lists.FULL[index] if options.lists >= 10 * FIRST_FULL and index < FIRST_FULL else None
    made = lists.make(rng, options.both, options.events, full, options.near)
    raw = as_bytes(made.lines)
    found = first_difference(made.lines, made.answers, program_answer(options, raw))
    if found is None:
        return len(made.lines), None
    number, wanted, given = found
    report = ["list %d, written to %s" % (index, save(options, index, ".list", raw))]
    if number < len(made.lines):
        report.append("  event %d: %s" % (number, shown(made.lines[number])))
    report += ["  wanted %s" % shown(wanted), "  given  %s" % shown(given)]
    small = shrunk(options, made.lines[: number + 1])
    report.append("  shrunk to %d lines: %s" % (len(small), save(options, index, ".small.list", as_bytes(small))))
    if len(small) <= 12:
        report += ["    %s    wanted %s" % (shown(line), shown(answer)) for line, answer in zip(small, played(small))]
    return len(made.lines), "\n".join(report)


def one_unreadable(options, index, rng):
    raw, line = lists.make_unreadable(rng, options.events)
    wanted = (b"", b"line %d: unreadable\n" % line, 2)
    given = program_answer(options, raw)
    count = raw.count(b"\n")
    if given == wanted:
        return count, None
    path = save(options, index, ".list", raw)
    return count, "list %d, written to %s\n  wanted %r\n  given  %r" % (index, path, wanted, tuple(map(shorter, given)))


def shorter(part):
    return part[:LONGEST_SHOWN] if isinstance(part, bytes) else part


def main(options):
    if options.seed is None:
        options.seed = random.randrange(1 << 32)
    print("seed %d" % options.seed, flush=True)
    events = differences = 0
    jobs = [(options, index) for index in range(options.lists)]
    with ProcessPoolExecutor(options.jobs) as pool:
        for count, report in pool.map(one_list, jobs):
            events += count
            if report is not None:
                differences += 1
                print(report, flush=True)
    print("%d lists, %d events, %d differences, seed %d" % (options.lists, events, differences, options.seed))
    return 1 if differences else 0
