"""Judges what threads were answered by one bus: whether there is one history in which each answer is right.

A log is a list of threads' lists, each begun by a line `b`, and `end` after each burst. A line is a letter and numbers;
`least` is the length of a history that was published before the call, `len` of the one that the pass had seen after it, and
`most` how many control calls had begun when it returned.

    k least len connection letterbox                       a connection was made; letterbox 0 is one that nobody empties
    c least len connection kind argument flags answer      a control call; kinds 1 and 5 give an entry's id, which no state
                                                           here refuses to an open pass; else an error is 1000 and its number
    r least len most sender message recipients..           who gets a broadcast; sender 0 is the bus
    p least len most sender message connection refused..   a broadcast was put, by that connection's pass
    u least len most name message answer                   a message to a name: 0 put, 1 nobody, 2 full
    o least len most name owner                            a name's owner, 0 where there is none
    t letterbox origin count serial                        a message was taken; origin 0 and count 0: no broadcast
"""

from collections import Counter, defaultdict

from . import messages, rules
from .bus import World

NAMES = ("com.example.A", "com.example.B", "com.example.C")
ERRORS = {"EntriesFull": 3, "NamesFull": 4, "QueueFull": 5, "RuleNotFound": 6, "NoAttachment": 7, "Closed": 8}
# ld [20]; ret a: the number of arguments
PROGRAM = bytes.fromhex("2000000014000000" "1600000000000000")
ENTRY_KINDS = (1, 5)
CLOSE = 7


class Model(World):
    """The state after the commands so far, and for each rule who has it."""

    def __init__(self, texts, raws):
        super().__init__()
        self.texts = texts
        self.holders = [Counter() for _ in texts]
        self.attached = Counter()
        self.wants = [self.wanting(messages.read(raw), texts) for raw in raws]
        self.found = {}

    def wanting(self, message, texts):
        """The rules that hold whoever sends the message, those that ask for a name's owner, and whether programs hold."""
        plain, named = [], []
        for number, text in enumerate(texts):
            rule = self.read_rule(text)
            name = rule.sender_name()
            if rules.holds(rule, message, {name} if name else set()):
                if name:
                    named.append((name, number))
                else:
                    plain.append(number)
        return plain, named, bool(message.args)

    def recipients_of(self, sender, number):
        """Who gets the message of this number now."""
        key = (sender, number)
        if key not in self.found:
            plain, named, attached = self.wants[number]
            found = set(self.attached) if attached else set()
            found.update(*[self.holders[rule] for rule in plain])
            found.update(*[self.holders[rule] for name, rule in named if sender and self.owner(name) == sender])
            self.found[key] = sorted(found)
        return self.found[key]

    def call(self, connection, kind, argument, flags):
        """What a control call is answered, as a number."""
        self.found = {}
        words = self.words(connection, kind, argument, flags)
        answer = self.play(words).split()
        if answer[0] == "refused":
            return 1000 + ERRORS[answer[1]]
        if kind == 1:
            self.holders[argument][connection] += 1
        elif kind == 2:
            self.take(self.holders[argument], connection)
        elif kind == 5:
            self.attached[connection] += 1
        elif kind == CLOSE:
            for held in self.holders + [self.attached]:
                held.pop(connection, None)
        return {"entry": lambda: int(answer[1]), "name": lambda: int(answer[1]), "done": lambda: 0,
                "nothing": lambda: 0, "waiting": lambda: 1, "changed": lambda: 2}[answer[0]]()

    def words(self, connection, kind, argument, flags):
        if kind in (1, 2):
            return ("add", "remove")[kind - 1], (connection, self.texts[argument])
        if kind == 3:
            return "request", (connection, NAMES[argument], flags)
        if kind == 4:
            return "release", (connection, NAMES[argument])
        if kind == 5:
            return "attach", (connection, 2, PROGRAM)
        return ("drop", "close")[kind - 6], (connection,)

    @staticmethod
    def take(held, connection):
        held[connection] -= 1
        if not held[connection]:
            del held[connection]


class Judge:
    """Counts the answers, and those that are wrong."""

    def __init__(self, texts, raws, say=print):
        self.model = Model(texts, raws)
        self.serials = [raw[8] for raw in raws]
        self.length = 0
        self.counts = Counter()
        self.wrong = 0
        self.say = say

    def miss(self, what, line):
        self.wrong += 1
        if self.wrong <= 10:
            self.say("wrong: %s: %s" % (what, " ".join(str(word) for word in line)))

    def burst(self, threads):
        """Judges all threads' lines of one burst."""
        self.letterboxes = {}
        self.expected = defaultdict(Counter)
        changes, asked, taken = {}, defaultdict(list), defaultdict(list)
        for lines in threads:
            self.sort(lines, changes, asked, taken)
        self.replay(changes, asked)
        self.compare(taken)

    def sort(self, lines, changes, asked, taken):
        """The accepted control calls by their places in the history, and other calls by the length of theirs."""
        last, count, closed = defaultdict(int), 0, set()
        for line in lines:
            word = line[0]
            if word == "c" and line[3] in closed:
                # The pass knows that it was closed, and needn't look at the bus.
                self.counts["changes"] += 1
                if line[7] != 1000 + ERRORS["Closed"] or line[2] < last[line[3]]:
                    self.miss("a call after the close", line)
                continue
            if word == "c" and line[4] == CLOSE and line[7] < 1000:
                closed.add(line[3])
            if word == "t":
                self.counts["takes"] += 1
                taken[line[1]].append(line)
                continue
            least, length = line[1], line[2]
            # A changer has several passes, each with what it has seen; all other lines of a thread are one pass's.
            seat = line[3] if word in "kc" else None
            accepted = word == "k" or (word == "c" and (line[4] in ENTRY_KINDS or line[7] < 1000))
            if word in "kc":
                self.counts["changes"] += 1
                early = length < least + accepted
                back = length < max(last[seat], last[None]) + accepted
                last[seat] = length
            else:
                early = length < least or length > line[3]
                back = length < max(last.values(), default=0)
                last[None] = length
            if early or back:
                self.miss("a history of another time", line)
            if word == "p":
                count += 1
                asked[length].append(line[:1] + (count,) + line[1:])
            elif not accepted:
                asked[length].append(line)
            elif length in changes:
                self.miss("a place taken twice", line)
            else:
                changes[length] = line

    def replay(self, changes, asked):
        """Does the history's calls in order, and asks at each place what was answered there."""
        first, self.length = self.length, self.length + len(changes)
        if changes and (min(changes) != first + 1 or max(changes) != self.length):
            self.miss("places of the history", (first + 1, min(changes), self.length, max(changes)))
        for line in asked.pop(first, ()):
            self.ask(line)
        for place in sorted(changes):
            self.change(changes[place])
            for line in asked.pop(place, ()):
                self.ask(line)
        for lines in asked.values():
            for line in lines:
                self.miss("no such place", line)

    def change(self, line):
        if line[0] == "k":
            self.model.found = {}
            if self.model.play(("connect", ())) != "connected %d" % line[3]:
                self.miss("a connection's number", line)
            self.letterboxes[line[3]] = line[4]
        elif self.model.call(*line[3:7]) != line[7]:
            self.miss("an answer", line)

    def ask(self, line):
        """Compares an answer with what is so at this place of the history."""
        word = line[0]
        if word == "c":
            if self.model.call(*line[3:7]) != line[7]:
                self.miss("a refusal", line)
        elif word == "r":
            self.counts["lists"] += 1
            if self.model.recipients_of(line[4], line[5]) != list(line[6:]):
                self.miss("a list of recipients", line)
        elif word == "p":
            self.counts["routes"] += 1
            self.routed(line)
        elif word == "u":
            self.counts["unicasts"] += 1
            owner = self.model.owner(NAMES[line[4]])
            if line[6] != (1 if owner is None else 0):
                self.miss("a unicast", line)
            self.put(owner, (0, 0, self.serials[line[5]]))
        else:
            self.counts["owners"] += 1
            if (self.model.owner(NAMES[line[4]]) or 0) != line[5]:
                self.miss("an owner", line)

    def routed(self, line):
        count, sender, number, origin = line[1], line[5], line[6], line[7]
        if len(line) > 8:
            self.miss("an outbox that isn't full refused", line)
        for one in self.model.recipients_of(sender, number):
            self.put(one, (origin, count, self.serials[number]))

    def put(self, connection, item):
        letterbox = self.letterboxes.get(connection, 0)
        if letterbox:
            self.expected[letterbox][item] += 1

    def compare(self, taken):
        """What was put is what was taken, each once, and each origin's counts rise."""
        for letterbox, lines in taken.items():
            last = defaultdict(int)
            for line in lines:
                if line[2]:
                    if line[3] <= last[line[2]]:
                        self.miss("a count that doesn't rise", line)
                    last[line[2]] = line[3]
            came = Counter(line[2:] for line in lines)
            for item in (came - self.expected[letterbox]).elements():
                self.miss("a message that wasn't put", (letterbox,) + item)
        for letterbox, items in self.expected.items():
            came = Counter(line[2:] for line in taken.get(letterbox, ()))
            for item in (items - came).elements():
                self.miss("a message that wasn't taken", (letterbox,) + item)

    def last_line(self):
        counts = self.counts
        words = ("routes", "unicasts", "takes", "lists", "owners", "changes")
        return ", ".join("%d %s" % (counts[word], word) for word in words) + ", %d wrong" % self.wrong


def bursts(lines):
    """The threads' lines of each burst."""
    threads = []
    for text in lines:
        words = text.split()
        if words[0] == "end":
            yield threads
            threads = []
        elif words[0] == "b":
            threads.append([])
        else:
            threads[-1].append((words[0],) + tuple(map(int, words[1:])))
