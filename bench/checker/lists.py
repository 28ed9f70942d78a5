"""Random lists of events. A list is made while it is played, so that it meets what stands and what is gone."""

from . import build, bus, messages, names, near_misses
from . import random_messages, random_programs, random_rules, rules, text

FAR = (1 << 64) - 1
WORDS = ("connect", "add", "remove", "attach", "detach", "request", "release", "drop", "close", "begin", "piece", "end")
# How often each event comes in a list of this kind, in the order of WORDS.
PROFILES = {
    "mixed": (3, 10, 6, 6, 4, 12, 6, 3, 2, 16, 12, 8),
    "names": (3, 9, 6, 3, 1, 36, 14, 6, 3, 12, 1, 11),
    "rules": (1, 30, 14, 0, 0, 5, 2, 1, 1, 22, 1, 20),
    "programs": (1, 2, 1, 30, 10, 14, 5, 2, 1, 20, 1, 18),
    "jobs": (3, 8, 4, 4, 3, 4, 3, 2, 3, 16, 40, 10),
    "faults": (2, 12, 6, 12, 4, 10, 6, 3, 3, 30, 4, 6),
}
FULL = ("full_of_entries", "full_of_claims", "full_of_names", "full_of_connections")
ONE_FULL_IN = 400


class List:
    """A list under way: its lines, their answers, and what the lines are drawn from."""

    def __init__(self, rng, both):
        self.rng = rng
        self.both = both
        self.world = bus.World()
        self.lines = []
        self.answers = []
        self.gone = []
        self.begun = []
        self.words = random_messages.Words(rng)
        self.names = list(self.words.well_known)
        self.valid = []
        self.raws = [self.new_message(0.0) for _ in range(rng.randint(3, 12))]
        self.programs = [random_programs.any_program(rng, self.valid) for _ in range(rng.randint(2, 8))]
        self.rules = [self.new_rule() for _ in range(rng.randint(3, 12))]

    def event(self, line):
        answer = self.world.play(text.read_event(line))
        self.lines.append(line)
        self.answers.append(answer)
        return answer

    def new_message(self, broken):
        if self.rng.random() < broken:
            raw = random_messages.broken_message(self.rng, self.words)
        else:
            raw = random_messages.random_draft(self.rng, self.words).finish()
        try:
            self.valid.append(messages.read(raw))
        except messages.Fault:
            pass
        return raw

    def new_rule(self):
        """Conditions, and whether the rule eavesdrops."""
        return random_rules.random_conditions(self.rng, self.words, self.valid), self.rng.random() < 0.15

    # What the events name

    def connection(self):
        rng, there = self.rng, self.world.connections
        pick = rng.random()
        if pick < 0.93 and there:
            return rng.choice(sorted(there))
        if pick < 0.97 and self.gone:
            return rng.choice(self.gone)
        return rng.choice([0, self.world.next_connection, 999, FAR])

    def is_there(self, connection):
        return connection in self.world.connections

    def rule_text(self):
        rng = self.rng
        pick = rng.random()
        if pick < 0.1:
            rule = random_rules.wrong_rule(rng, rng.choice(self.rules)[0])
        elif pick < 0.11:
            rule = random_rules.long_rule(rng)
        else:
            if pick < 0.25:
                self.rules[rng.randrange(len(self.rules))] = self.new_rule()
            rule = random_rules.joined(rng, random_rules.parts_of(rng, *rng.choice(self.rules)))
        return rule if random_rules.is_light(rule) and "\n" not in rule else ""

    def is_rule(self, rule):
        try:
            rules.read(rule.encode())
        except rules.RuleFault:
            return False
        return True

    def name(self):
        pick = self.rng.random()
        if pick < 0.93:
            return self.rng.choice(self.names)
        return names.THE_BUS if pick < 0.95 else self.rng.choice(random_messages.BAD_CLAIMS)

    def job(self):
        pick = self.rng.random()
        open_jobs = self.world.jobs
        if pick < 0.85 and open_jobs:
            return self.rng.choice(list(open_jobs)[-6:])
        if pick < 0.95 and self.begun:
            return self.rng.choice(self.begun)
        return self.rng.choice([0, len(self.lines), len(self.lines) + 1, self.rng.randint(0, len(self.lines)), FAR])

    # Events

    def connect(self):
        self.event("connect")

    def add(self, word="add"):
        connection, rule = self.connection(), self.rule_text()
        if self.both and not self.is_there(connection) and not self.is_rule(rule):
            rule = ""
        self.event("%s %d %s" % (word, connection, rule))

    def remove(self):
        standing = [entry for entry in self.world.entries.values() if entry.rule]
        if standing and self.rng.random() < 0.7:
            entry = self.rng.choice(standing)
            conditions = {key: value.decode() for key, value in entry.rule.conditions.items()}
            eavesdrops = entry.rule.eavesdrops != (self.rng.random() < 0.06)
            rule = random_rules.joined(self.rng, random_rules.parts_of(self.rng, conditions, eavesdrops))
            if len(rule.encode()) <= rules.LONGEST_RULE:
                connection = entry.connection if self.rng.random() < 0.9 else self.connection()
                self.event("remove %d %s" % (connection, rule))
                return
        self.add("remove")

    def attach(self):
        rng = self.rng
        if rng.random() < 0.2:
            self.programs[rng.randrange(len(self.programs))] = random_programs.any_program(rng, self.valid)
        raw = rng.choice(self.programs)
        connection = self.connection()
        if self.both and not self.is_there(connection):
            raw = build.program(random_programs.RET_1)
        self.event("attach %d %d %s" % (connection, rng.choice([1, 2]), raw.hex() or "-"))

    def detach(self):
        rng, entries = self.rng, self.world.entries
        attached = [number for number, entry in entries.items() if entry.program]
        if attached and rng.random() < 0.7:
            number = rng.choice(attached)
            connection = entries[number].connection if rng.random() < 0.9 else self.connection()
        else:
            connection = self.connection()
            number = rng.choice([0, rng.randint(0, self.world.next_entry), self.world.next_entry, (1 << 32) - 1])
        self.event("detach %d %d" % (connection, number))

    def claimed(self, form, *more):
        connection, name = self.connection(), self.name()
        if self.both and not self.is_there(connection):
            name = self.names[0]
        self.event(form % (connection, name, *more))

    def request(self):
        flags = self.rng.choice([0, 1, 2, 3, 4, 5, 6, 7, 0, 1, 2, 3, 8, 0xFFFFFFF8, 0xFFFFFFFF])
        self.claimed("request %d %s %d", flags)

    def release(self):
        self.claimed("release %d %s")

    def drop(self):
        self.event("drop %d" % self.connection())

    def close(self):
        connection = self.connection()
        if self.is_there(connection):
            self.gone.append(connection)
        self.event("close %d" % connection)

    def begin(self, broken=0.2):
        rng = self.rng
        if rng.random() < 0.25:
            self.raws[rng.randrange(len(self.raws))] = self.new_message(broken)
        raw = rng.choice(self.raws)
        sender = self.connection()
        if rng.random() < 0.08 and (self.world.next_connection > 1 or not self.both):
            sender = "bus"
        elif self.both and not self.is_there(sender):
            return
        self.begun.append(len(self.lines))
        self.event("begin %s %s" % (sender, raw.hex() or "-"))

    def piece(self):
        rng, job = self.rng, self.job()
        recipients = self.world.jobs[job].recipients if job in self.world.jobs else []
        if recipients and rng.random() < 0.6:
            part = rng.choice(recipients) % bus.PIECES + 1
        else:
            part = rng.choices([rng.randint(1, 16), 0, 17, 255], [90, 4, 4, 1])[0]
        self.event("piece %d %d" % (job, part))

    def end(self):
        self.event("end %d" % self.job())

    def everything(self, profile, count, without=()):
        weights = [0 if word in without else weight for word, weight in zip(WORDS, PROFILES[profile])]
        for _ in range(count):
            word = self.rng.choices(WORDS, weights)[0]
            if word == "begin" and profile == "faults":
                self.begin(0.9)
            else:
                getattr(self, word)()

    def look(self, senders):
        """A message of each sender, and who gets it."""
        for sender in senders:
            if self.both and sender != "bus" and not self.is_there(sender):
                continue
            job = len(self.lines)
            if self.event("begin %s %s" % (sender, self.rng.choice(self.valid).raw.hex())) == "begun":
                self.event("end %d" % job)


NO_LEAVING = ("release", "drop", "close", "remove", "detach")


def probe_limits(made):
    """Commands at a limit, by connections that are there and that aren't, with and without faults of their own."""
    rng = made.rng
    for turn in range(60):
        if turn == 40:
            made.detach()
            made.remove()
        connection = rng.choice([1, 2, 2, 999])
        new = "n.new%d" % rng.randrange(3)
        rule = rng.choice(["sender=" + new, "sender=n.a%d" % rng.randrange(8), "member=c", ""])
        if made.both and connection == 999:
            made.event("request 999 %s 0" % new)
            continue
        line = rng.choice([
            "add %d %s" % (connection, rule),
            "add %d %s" % (connection, rng.choice(["member='c", "x=y", "sender=a"])),
            "remove %d %s" % (connection, rule),
            "attach %d 2 %s" % (connection, rng.choice([build.program(random_programs.RET_0).hex(), "-"])),
            "request %d %s %d" % (connection, new, rng.randrange(8)),
            "request %d %s %d" % (connection, rng.choice(["n", names.THE_BUS]), rng.randrange(8)),
            "request %d n.a%d %d" % (connection, rng.randrange(4), rng.randrange(8)),
            "release %d n.a%d" % (connection, rng.randrange(8)),
        ])
        made.event(line)


def watch_slots(made):
    """A program for each of the first slots, each of a connection of its own: recipients tell the slots owned."""
    for slot, connection in enumerate(sorted(made.world.connections)[:12]):
        made.event("attach %d %d %s" % (connection, made.rng.choice([1, 2]), random_programs.for_slot(slot).hex()))


def connections_of(rng):
    return rng.choice([1, 2, 3, 4, 6, 10, 20, rng.randint(1, 60)])


def full_of_connections(made):
    for _ in range(bus.MOST_CONNECTIONS + 2):
        made.event("connect")
    made.everything("mixed", 300)
    for _ in range(4):
        made.connect()


def full_of_names(made):
    """All slots used, some by rules; then refusals, and slots looked at from both editions."""
    made.event("connect")
    made.event("connect")
    made.event("connect")
    rng = made.rng
    for number in range(bus.MOST_NAMES):
        if rng.random() < 0.2:
            made.event("add %d sender=n.a%d" % (rng.randint(1, 3), number))
        else:
            made.event("request %d n.a%d %d" % (rng.randint(1, 3), number, rng.choice([0, 1])))
    made.names = ["n.a%d" % rng.randrange(bus.MOST_NAMES) for _ in range(6)] + ["n.b1", "n.b2"]
    made.rules += [({"sender": name}, False) for name in made.names + ["n.c1"]]
    for slot in rng.sample(range(bus.MOST_NAMES), 20) + [31, 32, 511, 512, 1023]:
        raw = random_programs.for_slot(slot)
        made.event("attach %d %d %s" % (rng.randint(1, 3), rng.choice([1, 2]), raw.hex()))
        made.look([rng.randint(1, 3)])
    made.everything("names", 60, NO_LEAVING)
    probe_limits(made)
    made.everything("names", 300)
    made.look([1, 2, 3, "bus"])


def full_of_claims(made):
    """As many claims as there may be, on few names or on all."""
    rng = made.rng
    count = rng.choice([bus.MOST_CONNECTIONS - 6, 64, 5, bus.MOST_CLAIMS // bus.MOST_NAMES])
    for _ in range(count):
        made.event("connect")
    for _ in range(3):
        made.event("connect")
    most = bus.MOST_CLAIMS // count + 1
    queues = [(connection, name) for name in range(most) for connection in range(1, count + 1)]
    for connection, name in queues[: bus.MOST_CLAIMS]:
        flags = rng.choice([0, 1, 5]) if connection == 1 else rng.choice([0, 1, 8])
        made.event("request %d n.a%d %d" % (connection, name, flags))
    made.names = ["n.a%d" % name for name in rng.sample(range(min(most, 20)), 5)] + ["n.b1", "n.b2"]
    newcomers = [count + 1, count + 2, count + 3]
    for _ in range(60):
        flags = rng.choice([0, 1, 2, 3, 2, 3, 6])
        connection = rng.choice(newcomers + [1, 2])
        made.event("request %d %s %d" % (connection, rng.choice(made.names), flags))
    probe_limits(made)
    made.everything("names", 300)
    made.look([1, 2, "bus"])


def full_of_entries(made):
    made.event("connect")
    made.event("connect")
    rng = made.rng
    names_too = rng.random() < 0.8
    never = build.program(random_programs.RET_0).hex()
    for number in range(bus.MOST_ENTRIES):
        if names_too and number < bus.MOST_NAMES:
            made.event("add %d sender=n.a%d" % (rng.randint(1, 2), number))
        elif number % 2:
            made.event("add %d member=m%d" % (rng.randint(1, 2), number % 50))
        else:
            made.event("attach %d %d %s" % (rng.randint(1, 2), rng.choice([1, 2]), never))
    probe_limits(made)
    made.everything("mixed", 60, NO_LEAVING)
    made.everything("mixed", 200)


def make(rng, both=False, events=300, full=None, near=False):
    """A random list; `both` keeps it to what a world and passes of one bus answer alike, `near` fills it with near misses."""
    made = List(rng, both)
    if near:
        near_misses.fill(made)
        return made
    if full is None and rng.randrange(ONE_FULL_IN) == 0:
        full = rng.choice(FULL)
    if full is not None:
        globals()[full](made)
        return made
    for _ in range(connections_of(rng)):
        made.connect()
    if rng.random() < 0.3:
        watch_slots(made)
    made.everything(rng.choice(list(PROFILES)), rng.randint(events // 2, events * 3 // 2))
    made.look(sorted(made.world.connections)[:4] + (["bus"] if made.world.next_connection > 1 else []))
    return made


BAD_LINES = [
    *("foo", "connect 1", "connect ", " connect", "Connect", "connect\r", "add", "add 1", "add x member=c"),
    *("add -1 x", "add +1 "),
    *("add  member=c", "add 18446744073709551616 ", "remove 1", "remove", "attach 1 3 -", "attach 1 0 -"),
    *("attach 1 1", "attach 1 1 06"),
    *("attach 1 1 0600000001000", "attach 1 1 zz00000000000000", "attach 1 2 0600000001000000 ", "attach 1 -"),
    *("attach 1 1 06000000 01000000"),
    *("detach 1", "detach 1 4294967296", "detach 1 -1", "detach 1 1 ", "detach 1 0x1", "request 1 a.b"),
    *("request 1 a.b x", "request 1 a.b 4294967296"),
    *("request 1 a.b 0 0", "request 1 a.b -1", "request a.b 1 0", "release 1", "release 1 a.b c"),
    *("release a.b", "drop", "drop  1", "drop 1 "),
    *("drop\t1", "drop 1\r", "drop 1\t=> nothing", "drop +1", "drop \u0661", "close", "close x", "close 1.0"),
    *("begin 1", "begin 1 6", "begin 1 6c0"),
    *("begin 1 xx", "begin 1 6c 04", "begin bus", "begin Bus -", "begin - -", "begin 1 0x6c", "begin 1 +6"),
    *("begin 1 -6c", "piece 0", "piece 0 x"),
    *("piece 0 1 1", "piece  1", "piece -1 1", "end", "end x", "end 18446744073709551616", "end 0x1"),
    *("end 0 ", "== case", "\r", " ", "\t", " # x"),
    *("piece 0 18446744073709551616", "detach 1 99999999999999999999999999", "begin 1 \u0661\u0661"),
]
BAD_BYTES = [b"\xff", b"add 1 \xff", b"add 1 \xed\xa0\x80", b"release 1 a.b\xc0\x80", b"remove 1 member='\xe2\x82'"]


def make_unreadable(rng, events=300):
    """The bytes of a list with one line that is of no form, and that line's number."""
    made = List(rng, False)
    made.connect()
    made.everything("mixed", rng.randint(0, min(events, 40)))
    lines = [line.encode() for line in made.lines]
    for _ in range(rng.randint(0, 4)):
        lines.insert(rng.randint(0, len(lines)), rng.choice([b"", b"# a remark", b"#"]))
    wrong = rng.choice(BAD_BYTES) if rng.random() < 0.1 else rng.choice(BAD_LINES).encode()
    at = rng.randint(0, len(lines))
    lines.insert(at, wrong)
    for _ in range(rng.choice([0, 0, 1])):
        lines.insert(rng.randint(at + 1, len(lines)), rng.choice(BAD_LINES).encode())
    ending = b"\n" if rng.random() < 0.8 else b""
    if not lines[-1]:
        ending = b"\n"
    return b"\n".join(lines) + ending, at + 1
