"""What a call of a bus may be answered where a growth is refused, and what may be seen of the bus then."""
import copy

REFUSED = "Err(NoMemory)"
# A reader's place that memory is refused for isn't given, and a worker isn't started.
OTHER_REFUSALS = {
    "Pass": "Err(Busy)",
    "KeptPass": "Err(Busy)",
    "Ask(RecipientsOfWorkers)": "Err(Fan(NotStarted))",
}
# The bus ends where memory is refused to a publish: a call that changes its state is answered so from then on.
ENDED = "Err(Closed)"
CHANGES = ("Connect", "Change(")
# These calls take no memory, as their types say.
WITHOUT_MEMORY = (
    "KeptPass",
    "TakeBack",
    "Ask(Recipients)",
    "Ask(Owner)",
    "Ask(Connection)",
    "Ask(Tell)",
    "Ask(Learn)",
)


class Play:
    """What the program printed: what was seen before the call, and of each try its answer and what was seen then."""

    def __init__(self, lines, errors, status):
        self.before, self.tries = [], []
        for line in lines:
            if line.startswith("answer: "):
                self.tries.append((line.removeprefix("answer: "), []))
            else:
                (self.tries[-1][1] if self.tries else self.before).append(line)
        counts = errors[-1].split() if errors else []
        has_counts = counts[0:1] == ["growths"] and counts[2:3] == ["refused"]
        self.growths, self.refused = (int(counts[1]), int(counts[3])) if has_counts else (0, 0)
        self.fault = None
        if status or not has_counts or not self.tries:
            self.fault = "status %d: %s" % (status, " ".join(errors))


def judge_ample(name, ample):
    """What is wrong with the play in which nothing is refused."""
    if ample.fault:
        return ["wrong: " + ample.fault]
    if len(ample.tries) != 1:
        return ["wrong: memory is refused that is there"]
    if name in WITHOUT_MEMORY and ample.growths:
        return ["wrong: it takes memory"]
    return []


def judge(name, ample, play):
    """What became of a refused growth: `made again`, `ended`, `made without`, or what is wrong."""
    if play.fault or play.refused != 1:
        return "wrong: " + (play.fault or "%d growths are refused" % play.refused)
    if play.before != ample.before:
        return "wrong: it doesn't begin as with ample memory"
    answer, seen = play.tries[0]
    if len(play.tries) == 1:
        return "made without" if play.tries == ample.tries else "wrong: it is answered %s" % answer
    if answer != OTHER_REFUSALS.get(name, REFUSED):
        return "wrong: it is refused as %s" % answer
    if seen != play.before:
        return "wrong: it is refused, and something has changed"
    return judge_again(name, ample, play)


def judge_again(name, ample, play):
    """What became of a call that was refused and is made again."""
    if play.tries[1:] == ample.tries:
        return "made again"
    answer, seen = play.tries[1]
    if name.startswith(CHANGES) and answer == ENDED and seen == play.before:
        return "ended"
    return "wrong: made again, it is answered %s" % answer


def altered(play, change):
    """A copy of a play that was refused, with an error; None where the error can't be planted."""
    if len(play.tries) != 2:
        return None
    other = copy.deepcopy(play)
    return other if change(other.tries) and other.tries != play.tries else None


def replace_line(lines, beginning, new):
    """Replaces the first line that begins so. Says whether there is one."""
    for place, line in enumerate(lines):
        if line.startswith(beginning):
            lines[place] = new(line)
            return True
    return False


def published_all_the_same(ample, play):
    """The call was refused, and done."""
    def change(tries):
        tries[0] = (tries[0][0], ample.tries[0][1])
        return True
    return altered(play, change)


def refusal_swallowed(ample, play):
    """The call is answered as if it were done, and isn't."""
    def change(tries):
        tries[:] = [(ample.tries[0][0], tries[0][1])]
        return tries != ample.tries
    return altered(play, change)


def other_refusal(_ample, play):
    def change(tries):
        tries[0] = ("Err(EntriesFull)", tries[0][1])
        return True
    return altered(play, change)


def put_to_one(_ample, play):
    """A message is put though the call was refused."""
    return altered(play, lambda tries: replace_line(tries[0][1], " taken:", lambda line: line + " 1-1"))


def counted_all_the_same(_ample, play):
    """One more call of a connection is counted."""
    return altered(play, lambda tries: replace_line(tries[0][1], " pass: ", lambda line: line + "1"))


def answered_otherwise_again(_ample, play):
    def change(tries):
        tries[1] = (tries[1][0] + "1", tries[1][1])
        return True
    return altered(play, change)


def changed_after_the_end(ample, play):
    """The bus has ended, and the call is done all the same."""
    def change(tries):
        tries[1] = (ENDED, ample.tries[0][1])
        return tries[1][1] != play.before
    return altered(play, change)


def lost(_ample, play):
    """The program doesn't come to its end."""
    other = copy.deepcopy(play)
    other.fault = "status -6: "
    return other


PLANTS = (
    published_all_the_same, refusal_swallowed, other_refusal, put_to_one, counted_all_the_same, answered_otherwise_again,
    changed_after_the_end, lost,
)
