"""Errors that are planted in a log, which a judge has to notice."""


def lines_of(threads, word):
    """The places of all lines with this letter: the thread's and the line's."""
    return [(lines, place) for lines in threads for place, line in enumerate(lines) if line[0] == word]


def alter(threads, word, ready, new):
    """Replaces the first such line that is ready by new ones."""
    for lines, place in lines_of(threads, word):
        if ready(lines[place]):
            lines[place : place + 1] = new(lines[place])
            return True
    return False


def recipient_dropped(threads):
    return alter(threads, "r", lambda line: len(line) > 6, lambda line: [line[:-1]])


def recipient_invented(threads):
    return alter(threads, "r", lambda line: len(line) > 6, lambda line: [line + (line[-1] + 1,)])


def recipient_twice(threads):
    return alter(threads, "r", lambda line: len(line) > 6, lambda line: [line + line[-1:]])


def list_before_its_call(threads):
    return alter(threads, "r", lambda line: line[1] > 0, lambda line: [line[:2] + (line[1] - 1,) + line[3:]])


def list_after_its_return(threads):
    return alter(threads, "r", lambda line: True, lambda line: [line[:2] + (line[3] + 1,) + line[3:]])


def route_forgotten(threads):
    return alter(threads, "p", lambda line: True, lambda line: [])


def refusal_invented(threads):
    return alter(threads, "p", lambda line: True, lambda line: [line + (1,)])


def take_forgotten(threads):
    return alter(threads, "t", lambda line: True, lambda line: [])


def take_doubled(threads):
    return alter(threads, "t", lambda line: line[2], lambda line: [line, line])


def takes_exchanged(threads):
    """Two takes of one origin change their places."""
    for lines in threads:
        if lines and lines[0][0] == "t":
            last = {}
            for place, line in enumerate(lines):
                if line[2] and line[2] in last:
                    other = last[line[2]]
                    lines[other], lines[place] = lines[place], lines[other]
                    return True
                last[line[2]] = place
    return False


def bytes_of_another(threads):
    return alter(threads, "t", lambda line: line[2], lambda line: [line[:4] + (line[4] + 1,)])


def change_forgotten(threads):
    return alter(threads, "c", lambda line: line[4] == 1 and line[7] < 1000, lambda line: [])


def change_answered_otherwise(threads):
    return alter(threads, "c", lambda line: True, lambda line: [line[:-1] + (line[-1] + 1,)])


def owner_changed(threads):
    return alter(threads, "o", lambda line: True, lambda line: [line[:-1] + (line[-1] + 1,)])


def unicast_lost(threads):
    return alter(threads, "u", lambda line: line[6] == 0, lambda line: [line[:-1] + (1,)])


PLANTS = (
    recipient_dropped, recipient_invented, recipient_twice, list_before_its_call, list_after_its_return, route_forgotten,
    refusal_invented, take_forgotten, take_doubled, takes_exchanged, bytes_of_another, change_forgotten,
    change_answered_otherwise, owner_changed, unicast_lost,
)
