"""What the logs of our bus say of its clients: that each one that came has one end at most, and each end its cause."""
import collections
import re

CAUSE = r"Slow|Monitor|NoMemory|Auth|NoHello \(\w+(?: \w+)?\)|Message \w+|silence|hello|newcomers|unfinished|the bus ends"
LINE = re.compile(rf"dbusfan: (?:(?P<name>:1\.\d+) (?P<passing>came|went)|(?P<ended>:1\.\d+|a newcomer) was ended: (?P<cause>{CAUSE})"
                  r"|(?P<other>no descriptor is left, newcomers are closed|\d+ lines are missing here))")
NEWCOMER = "a newcomer"


def what_happened(found):
    """What a line says, without the name of whom it says it."""
    if found["passing"]:
        return found["passing"]
    return f"{NEWCOMER} was ended: {found['cause']}" if found["ended"] == NEWCOMER else f"was ended: {found['cause']}"


class Ends:
    """The ends in all logs that were read, by their causes, and the lines that don't fit."""

    def __init__(self):
        self.counts = collections.Counter()
        self.wrong = []

    def read(self, text, shows_all):
        """Reads the log of one bus that was killed, so that its last line may be cut off and some clients have no end; all who came
        are in it where it `shows_all`."""
        here, gone = set(), set()
        lines = text.split("\n")[:-1]
        is_whole = shows_all and not any("lines are missing" in line for line in lines)
        for line in lines:
            found = LINE.fullmatch(line)
            if not found:
                self.wrong.append(line)
                continue
            if found["other"]:
                self.counts["other lines"] += 1
                continue
            name, comes = found["name"] or found["ended"], found["passing"] == "came"
            self.counts[what_happened(found)] += 1
            if name == NEWCOMER:
                continue
            is_right = name not in here | gone if comes else name in here
            if is_whole and not is_right:
                self.wrong.append(line)
            if comes:
                here.add(name)
            else:
                here.discard(name)
                gone.add(name)
        self.counts["killed with the bus"] += len(here)

    def report(self):
        """A line for each cause, and for each line that doesn't fit."""
        return [f"{count:9,} {what}" for what, count in self.counts.most_common()] + [f"WRONG  {line}" for line in self.wrong]
