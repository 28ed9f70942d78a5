"""Connections, names, entries and jobs: what each event is answered, by the table of commands."""

from collections import Counter

from . import messages, names, programs, rules

MOST_CONNECTIONS = 256
MOST_NAMES = 1024
MOST_CLAIMS = 4096
MOST_ENTRIES = 16384
PIECES = 16
ALLOW_REPLACEMENT, REPLACE_EXISTING, DO_NOT_QUEUE = 1, 2, 4


class Refused(Exception):
    """An answer that changes nothing; its argument is the whole answer."""


class Entry:
    """A rule, or a program with its edition, of one connection."""

    def __init__(self, connection, rule=None, edition=None, program=None):
        self.connection = connection
        self.rule = rule
        self.edition = edition
        self.program = program


class Job:
    """A message under way: its recipients as of its beginning, and the pieces that were given."""

    def __init__(self, recipients):
        self.recipients = recipients
        self.given = set()


def change(old, new):
    return " from %s to %s" % ("none" if old is None else old, "none" if new is None else new)


def read_claim(name):
    """Refuses what can't be claimed: all but well-known names, and the bus's own."""
    if not names.is_well_known(name.encode()):
        raise Refused("claim BadName")
    if name == names.THE_BUS:
        raise Refused("claim Reserved")


class World:
    """The state, and the events so far, which number the jobs."""

    def __init__(self):
        self.events = 0
        self.told = None
        self.connections = set()
        self.next_connection = 1
        self.entries = {}
        self.next_entry = 1
        self.queues = {}
        self.claims = 0
        self.slots = {}
        self.senders = Counter()
        self.jobs = {}
        self.rules = {}
        self.messages = {}

    def play(self, event, told=None):
        """The answer to one event, (its word, its arguments); `told` is what a program answered to it."""
        word, arguments = event
        self.told = told
        number = self.events
        self.events += 1
        try:
            if word == "begin":
                return self.begin(number, *arguments)
            return getattr(self, word)(*arguments)
        except Refused as refused:
            return refused.args[0]

    # Names

    def owner(self, name):
        queue = self.queues.get(name)
        return queue[0][0] if queue else None

    def needs_slot(self, name):
        """Refuses where a name without a slot would need one and all are used."""
        if name not in self.slots and len(self.slots) == MOST_NAMES:
            raise Refused("refused NamesFull")

    def give_slot(self, name):
        if name not in self.slots:
            used = set(self.slots.values())
            self.slots[name] = next(slot for slot in range(MOST_NAMES) if slot not in used)

    def free_slot(self, name):
        if not self.queues.get(name) and not self.senders[name]:
            self.slots.pop(name, None)

    def set_queue(self, name, queue):
        """The name's claims are now these; the slot follows."""
        self.claims += len(queue) - len(self.queues.get(name, ()))
        if queue:
            self.queues[name] = queue
            self.give_slot(name)
        else:
            self.queues.pop(name, None)
            self.free_slot(name)

    # Commands

    def is_there(self, connection):
        if connection not in self.connections:
            raise Refused("refused Closed")

    def connect(self):
        if len(self.connections) == MOST_CONNECTIONS:
            raise Refused("refused ConnectionsFull")
        number = self.next_connection
        self.next_connection += 1
        self.connections.add(number)
        return "connected %d" % number

    def read_rule(self, text):
        if text not in self.rules:
            try:
                self.rules[text] = rules.read(text.encode())
            except rules.RuleFault as fault:
                self.rules[text] = fault
        read = self.rules[text]
        if isinstance(read, rules.RuleFault):
            raise Refused("rule " + read.args[0])
        return read

    def add_entry(self, entry):
        number = self.next_entry
        self.next_entry += 1
        self.entries[number] = entry
        return "entry %d" % number

    def take_entry(self, number):
        entry = self.entries.pop(number)
        name = entry.rule.sender_name() if entry.rule else None
        if name is not None:
            self.senders[name] -= 1
            self.free_slot(name)

    def add(self, connection, text):
        rule = self.read_rule(text)
        self.is_there(connection)
        if len(self.entries) == MOST_ENTRIES:
            raise Refused("refused EntriesFull")
        name = rule.sender_name()
        if name is not None:
            self.needs_slot(name)
        if self.told == "toolong" and rule.weight() > rules.HEAVIEST_COMPILED:
            raise Refused(self.told)
        if name is not None:
            self.senders[name] += 1
            self.give_slot(name)
        return self.add_entry(Entry(connection, rule=rule))

    def remove(self, connection, text):
        rule = self.read_rule(text)
        self.is_there(connection)
        for number, entry in self.entries.items():
            if entry.connection == connection and entry.rule and entry.rule.key == rule.key:
                self.take_entry(number)
                return "done"
        raise Refused("refused RuleNotFound")

    def attach(self, connection, edition, raw):
        program = programs.decode(raw)
        try:
            programs.verify(program)
        except programs.ProgramFault as fault:
            raise Refused("program " + " at ".join(str(word) for word in fault.args)) from None
        self.is_there(connection)
        if len(self.entries) == MOST_ENTRIES:
            raise Refused("refused EntriesFull")
        return self.add_entry(Entry(connection, edition=edition, program=program))

    def detach(self, connection, number):
        self.is_there(connection)
        entry = self.entries.get(number)
        if entry is None or entry.connection != connection or entry.program is None:
            raise Refused("refused NoAttachment")
        self.take_entry(number)
        return "done"

    def request(self, connection, name, flags):
        read_claim(name)
        self.is_there(connection)
        queue = self.queues.get(name, [])
        answer, next_queue = requested(queue, connection, flags)
        if next_queue:
            self.needs_slot(name)
        if self.claims - len(queue) + len(next_queue) > MOST_CLAIMS:
            raise Refused("refused QueueFull")
        return self.named(answer, name, next_queue)

    def named(self, answer, name, queue):
        """Sets the name's queue and tells the owner's change, where there is one."""
        old = self.owner(name)
        self.set_queue(name, queue)
        new = self.owner(name)
        return "name %d%s" % (answer, "" if old == new else change(old, new))

    def release(self, connection, name):
        read_claim(name)
        self.is_there(connection)
        queue = self.queues.get(name, [])
        if not queue:
            return "name 2"
        rest = [claim for claim in queue if claim[0] != connection]
        if len(rest) == len(queue):
            return "name 3"
        return self.named(1, name, rest)

    def drop(self, connection):
        self.is_there(connection)
        claimed = [name for name, queue in self.queues.items() if any(claim[0] == connection for claim in queue)]
        if not claimed:
            return "nothing"
        name = min(claimed, key=str.encode)
        answer = self.release(connection, name)
        return "waiting" if answer == "name 1" else "changed %s%s" % (name, answer[len("name 1") :])

    def close(self, connection):
        self.is_there(connection)
        self.connections.remove(connection)
        for number in [number for number, entry in self.entries.items() if entry.connection == connection]:
            self.take_entry(number)
        for name, queue in list(self.queues.items()):
            rest = [claim for claim in queue if claim[0] != connection]
            if len(rest) != len(queue):
                self.set_queue(name, rest)
        return "done"

    # Messages

    def read_message(self, raw):
        if raw not in self.messages:
            try:
                self.messages[raw] = messages.read(raw)
            except messages.Fault as fault:
                self.messages[raw] = fault
        read = self.messages[raw]
        if isinstance(read, messages.Fault):
            raise Refused("fault " + read.args[0])
        return read

    def recipients(self, sender, message):
        owned = {name for name, queue in self.queues.items() if queue[0][0] == sender}
        images = {}
        found = set()
        for entry in self.entries.values():
            if entry.connection in found:
                continue
            if entry.rule:
                matched = rules.holds(entry.rule, message, owned)
            else:
                if entry.edition not in images:
                    slots = {self.slots[name] for name in owned}
                    images[entry.edition] = programs.image(entry.edition, message, slots)
                matched = programs.run(entry.program, images[entry.edition])[0] != 0
            if matched:
                found.add(entry.connection)
        return sorted(found)

    def begin(self, number, sender, raw):
        message = self.read_message(raw)
        self.jobs[number] = Job(self.recipients(sender, message))
        return "begun"

    def piece(self, number, part):
        job = self.jobs.get(number)
        if job is None or not 1 <= part <= PIECES or part in job.given:
            return "ignored"
        job.given.add(part)
        return told([one for one in job.recipients if one % PIECES == part - 1])

    def end(self, number):
        job = self.jobs.pop(number, None)
        return "ignored" if job is None else told(job.recipients)


def told(recipients):
    return " ".join(["recipients"] + [str(one) for one in recipients])


def requested(queue, connection, flags):
    """The answer of RequestName, and the queue after it."""
    if not queue:
        return 1, [(connection, flags)]
    first, rest = queue[0], queue[1:]
    if first[0] == connection:
        return 4, [(connection, flags)] + rest
    others = [claim for claim in rest if claim[0] != connection]
    if first[1] & ALLOW_REPLACEMENT and flags & REPLACE_EXISTING:
        kept = [] if first[1] & DO_NOT_QUEUE else [first]
        return 1, [(connection, flags)] + kept + others
    if flags & DO_NOT_QUEUE:
        return 3, [first] + others
    if len(others) < len(rest):
        same = [(connection, flags) if claim[0] == connection else claim for claim in rest]
        return 2, [first] + same
    return 2, queue + [(connection, flags)]
