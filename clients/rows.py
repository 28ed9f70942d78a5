"""What real programs ask of a bus, row by row. A row is a function of a bus that answers what was seen; each bus has to
answer what is wanted."""
import os
import re
import subprocess
import tempfile
import time

import wire
from buses import wait_until
from wire import BUS, BUS_PATH, DBusError

ROWS = []


def row(client, wanted, ours_alone=False):
    """A row of the table: whose client it is, and what has to be seen."""
    def add(function):
        ROWS.append((client, function.__name__.replace("_", " "), function, wanted, ours_alone))
        return function
    return add


def error_of(call, *words, **options):
    try:
        return call(*words, **options)
    except DBusError as error:
        return error.name.removeprefix("org.freedesktop.DBus.Error.")


def run(*words, timeout=10, session=None):
    """Standard output of a program, or the name of the D-Bus error that it says."""
    environment = dict(os.environ, DBUS_SESSION_BUS_ADDRESS=session) if session else None
    done = subprocess.run(words, capture_output=True, text=True, timeout=timeout, env=environment)
    named = re.search(r"org\.freedesktop\.DBus\.Error\.(\w+)", done.stderr)
    return done.stdout.strip() or (named.group(1) if named else done.stderr.strip())


# a client of our own


@row("wire", [True, True, "NameAcquired", True])
def hello(bus):
    one = bus.connect()
    seen = one.receive()
    return [re.fullmatch(r":1\.\d+", one.name) is not None, seen.sender == BUS, seen.member, seen.body[0] == one.name == seen.destination]


@row("wire", "Failed")
def hello_twice(bus):
    return error_of(bus.connect().call, "Hello")


@row("wire", [1, 4, 2, 3, 2, 1, 2, 1, 2, 3])
def names_with_every_flag(bus):
    one, two = bus.connect(), bus.connect()
    name = "com.example.Flags"
    ask = lambda who, flags: who.call("RequestName", "su", (name, flags))[0]
    give = lambda who, what: who.call("ReleaseName", "s", (what,))[0]
    seen = [ask(one, 0), ask(one, 0), ask(two, 0), ask(two, 4), ask(two, 2)]
    ask(one, 1)
    seen += [ask(two, 2)]
    seen += [give(one, "com.example.Nobodys"), give(one, name), give(two, "com.example.Nobodys")]
    seen += [give(one, name)]
    return seen


@row("wire", ["NameLost", "NameOwnerChanged", True, True, [True, True]])
def takeover_and_queue(bus):
    one, two, three = bus.connect(), bus.connect(), bus.connect()
    name = "com.example.Takeover"
    one.call("RequestName", "su", (name, 1))
    three.call("AddMatch", "s", (f"type='signal',member='NameOwnerChanged',arg0='{name}'",))
    two.call("RequestName", "su", (name, 2))
    lost = one.receive_signal("NameLost")
    changed = three.receive_signal("NameOwnerChanged")
    queue = three.call("ListQueuedOwners", "s", (name,))[0]
    moved = changed.body == (name, one.name, two.name)
    two.close()
    back = three.receive_signal("NameOwnerChanged")
    return [lost.member, changed.member, moved, queue == [two.name, one.name], [back.body == (name, two.name, one.name), three.call("GetNameOwner", "s", (name,))[0] == one.name]]


KEYS = [
    ("type='signal'", 1), ("type='method_call'", 0), ("interface='a.b'", 1), ("interface='a.x'", 0), ("member='c'", 1), ("member='x'", 0),
    ("path='/a/b'", 1), ("path='/a'", 0), ("path_namespace='/a'", 1), ("path_namespace='/a/b'", 1), ("path_namespace='/x'", 0), ("path_namespace='/'", 1),
    ("arg0='one.two'", 1), ("arg0='x'", 0), ("arg1='/c/d'", 0), ("arg1path='/c/'", 1), ("arg1path='/c/d'", 1), ("arg1path='/x/'", 0), ("arg0namespace='one'", 1),
    ("arg0namespace='on'", 0), ("arg2='three'", 1), ("arg3='x'", 0), ("type='signal',interface='a.b',member='c',path='/a/b',arg0='one.two',arg2='three'", 1), ("", 1),
    ("destination=':1.999'", 0), ("sender=':1.999'", 0), ("sender='com.example.Sender'", 1), ("sender='com.example.Nobody'", 0), ("sender='org.freedesktop.DBus'", 0),
]


@row("wire", [wanted for _, wanted in KEYS])
def match_rules_of_every_key(bus):
    sender = bus.connect()
    sender.call("RequestName", "su", ("com.example.Sender", 0))
    seen = []
    for rule, _ in KEYS:
        watcher = bus.connect()
        watcher.receive_signal("NameAcquired")
        watcher.call("AddMatch", "s", (rule,))
        sender.signal("/a/b", "a.b", "c", "sos", ("one.two", "/c/d", "three"))
        sender.call("Ping", interface="org.freedesktop.DBus.Peer")
        watcher.call("Ping", interface="org.freedesktop.DBus.Peer")
        seen.append(sum(got.kind == wire.SIGNAL and got.member == "c" for got in watcher.waiting))
        watcher.close()
    return seen


@row("wire", [1, "MatchRuleNotFound", "MatchRuleInvalid", "MatchRuleInvalid", "MatchRuleInvalid"])
def rules_come_and_go(bus):
    one = bus.connect()
    one.call("AddMatch", "s", ("member='c',path='/a'",))
    one.signal("/a", "a.b", "c")
    seen = [one.receive_signal("c").body == ()]
    one.call("RemoveMatch", "s", ("path=/a,member=c",))
    seen.append(error_of(one.call, "RemoveMatch", "s", ("path=/a,member=c",)))
    return seen + [error_of(one.call, "AddMatch", "s", (rule,)) for rule in ("member='c", "nothing='x'", "path='a'")]


@row("wire", 2)
def own_recipient_of_two_equal_rules_once_each_signal(bus):
    one = bus.connect()
    for _ in range(2):
        one.call("AddMatch", "s", ("member='c'",))
    one.signal()
    one.signal()
    one.call("Ping", interface="org.freedesktop.DBus.Peer")
    return sum(got.kind == wire.SIGNAL and got.member == "c" for got in one.waiting)


@row("wire", [True, True])
def comings_and_goings(bus):
    watcher = bus.connect()
    watcher.call("AddMatch", "s", ("sender='org.freedesktop.DBus',member='NameOwnerChanged'",))
    one = bus.connect()
    came = watcher.receive_signal("NameOwnerChanged")
    one.close()
    went = watcher.receive_signal("NameOwnerChanged")
    return [came.body == (one.name, "", one.name), went.body == (one.name, one.name, "")]


@row("wire", ["NameHasNoOwner", "UnknownMethod", "InvalidArgs", "ServiceUnknown", "InvalidArgs", "InvalidArgs", "ServiceUnknown"])
def errors_by_name(bus):
    one = bus.connect()
    return [
        error_of(one.call, "GetNameOwner", "s", ("com.example.Nobody",)),
        error_of(one.call, "NoSuchMethod"),
        error_of(one.call, "GetNameOwner", "u", (1,)),
        error_of(one.call, "Anything", interface="a.b", path="/", destination="com.example.Nobody"),
        error_of(one.call, "RequestName", "su", (":1.5", 0)),
        error_of(one.call, "RequestName", "su", ("org.freedesktop.DBus", 0)),
        error_of(one.call, "StartServiceByName", "su", ("com.example.Nobody", 0)),
    ]


@row("wire", [2, 2], ours_alone=True)
def starting_a_service_that_is_there(bus):
    one = bus.connect()
    one.call("RequestName", "su", ("com.example.First", 0))
    return [one.call("StartServiceByName", "su", (name, 0))[0] for name in ("com.example.First", BUS)]


@row("wire", [True, True, ["org.freedesktop.DBus"], "UnixProcessIdUnknown or a number", True])
def methods_that_programs_call_first(bus):
    one = bus.connect()
    one.call("RequestName", "su", ("com.example.First", 0))
    names = one.call("ListNames")[0]
    pid = error_of(one.call, "GetConnectionUnixProcessID", "s", (one.name,))
    known = "UnixProcessIdUnknown or a number" if pid == "UnixProcessIdUnknown" or isinstance(pid[0], int) else pid
    return [
        names[0] == BUS and one.name in names and "com.example.First" in names,
        one.call("NameHasOwner", "s", (BUS,))[0] and not one.call("NameHasOwner", "s", ("com.example.Nobody",))[0],
        one.call("ListActivatableNames")[0],
        known,
        "org.freedesktop.DBus" in one.call("Introspect", interface="org.freedesktop.DBus.Introspectable")[0],
    ]


@row("wire", [(), "InvalidArgs"])
def reloading_the_configuration(bus):
    one = bus.connect()
    return [error_of(one.call, "ReloadConfig"), error_of(one.call, "ReloadConfig", "s", ("x",))]


@row("wire", ["AdtAuditDataUnknown", "SELinuxSecurityContextUnknown or a context", "NameHasNoOwner", "NameHasNoOwner"])
def audit_session_and_security_context(bus):
    one = bus.connect()
    members = ("GetAdtAuditSessionData", "GetConnectionSELinuxSecurityContext")
    told = [error_of(one.call, member, "s", (name,)) for name in (one.name, "com.example.Nobody") for member in members]
    if not isinstance(told[1], str) or told[1] == "SELinuxSecurityContextUnknown":
        told[1] = "SELinuxSecurityContextUnknown or a context"
    return told


@row("wire", [("ping", 7), "com.example.Error.No", True])
def calls_and_answers_between_two(bus):
    one, two = bus.connect(), bus.connect()
    two.call("RequestName", "su", ("com.example.Service", 0))
    serial = one.send(wire.METHOD_CALL, 0, "su", ("ping", 7), path="/x", interface="a.b", member="Echo", destination="com.example.Service")
    asked = next(got for got in iter(two.receive, None) if got.kind == wire.METHOD_CALL)
    two.send(wire.METHOD_RETURN, 1, "su", asked.body, reply_serial=asked.serial, destination=asked.sender)
    answer = next(got for got in iter(one.receive, None) if got.reply_serial == serial)
    serial = one.send(wire.METHOD_CALL, 0, path="/x", interface="a.b", member="Fail", destination=two.name)
    asked = next(got for got in iter(two.receive, None) if got.kind == wire.METHOD_CALL)
    two.send(wire.ERROR, 1, "s", ("no",), error_name="com.example.Error.No", reply_serial=asked.serial, destination=asked.sender)
    fault = next(got for got in iter(one.receive, None) if got.reply_serial == serial)
    return [answer.body, fault.error_name, fault.sender == two.name]


@row("wire", [True, True, True])
def large_messages(bus):
    one, two = bus.connect(timeout=60), bus.connect(timeout=60)
    two.call("AddMatch", "s", ("member='big'",))
    seen = []
    for size in (100, 1 << 20, 60 << 20):
        data = bytes(range(256)) * (size // 256 + 1)
        one.signal("/a", "a.b", "big", "ay", (data[:size],))
        seen.append(two.receive_signal("big").body[0] == data[:size])
    return seen


@row("wire", [True, True])
def gone_in_mid_message(bus):
    one, two = bus.connect(), bus.connect()
    two.call("AddMatch", "s", ("member='NameOwnerChanged'",))
    whole = wire.message(wire.SIGNAL, 5, 1, "s", ("x" * 100,), path="/a", interface="a.b", member="c")
    one.link.sendall(whole[:70])
    one.close()
    went = two.receive_signal("NameOwnerChanged")
    return [went.body[2] == "", bus.connect().name is not None]


MONITORING = "org.freedesktop.DBus.Monitoring"
STATS = "org.freedesktop.DBus.Debug.Stats"


def received(one):
    """Each message that came, until none comes for a moment."""
    one.timeout, found = 0.5, []
    try:
        while True:
            found.append(one.receive())
    except TimeoutError:
        one.timeout = 10
        return found


def met(one):
    """The member or the error of each message that came, until none comes for a moment."""
    return [got.member or got.error_name or ("answer", got.reply_serial) for got in received(one)]


@row("wire", ["InvalidArgs", "MatchRuleInvalid", "UnknownInterface", (), ["NameAcquired", "NameLost", "NameLost"], False, "NameHasNoOwner"])
def becomes_a_monitor(bus):
    one, two = bus.connect(), bus.connect()
    one.call("RequestName", "su", ("com.example.Watching", 0))
    become = lambda rules, flags, **options: error_of(one.call, "BecomeMonitor", "asu", (rules, flags), interface=MONITORING, **options)
    seen = [become([], 1), become(["nothing='x'"], 0), become([], 0, path="/a"), become([], 0)]
    told = [got for got in met(one) if got in ("NameLost", "NameAcquired")]
    seen.append(told[-3:])
    seen.append(two.call("NameHasOwner", "s", ("com.example.Watching",))[0])
    return seen + [error_of(two.call, "GetNameOwner", "s", (one.name,))]


@row("wire", [["Hello", ("answer", 1), "NameOwnerChanged", "NameAcquired"], ["Echo", ("answer", 9)], ["Told", "Shout"], ["com.example.Error.No"], "NameLost"])
def a_monitor_sees_what_passes(bus):
    watcher, two = bus.connect(), bus.connect()
    two.call("RequestName", "su", ("com.example.Service", 0))
    watcher.call("BecomeMonitor", "asu", ([], 0), interface=MONITORING)
    met(watcher)
    three = bus.connect()
    seen = [met(watcher)]
    three.serial = 8
    serial = three.send(wire.METHOD_CALL, 0, "s", ("ping",), path="/x", interface="a.b", member="Echo", destination="com.example.Service")
    asked = next(got for got in iter(two.receive, None) if got.kind == wire.METHOD_CALL)
    two.send(wire.METHOD_RETURN, 1, "s", asked.body, reply_serial=serial, destination=asked.sender)
    seen.append(met(watcher))
    two.send(wire.SIGNAL, 0, path="/x", interface="a.b", member="Told", destination=three.name)
    two.signal("/x", "a.b", "Shout")
    seen.append(met(watcher))
    serial = three.send(wire.METHOD_CALL, 0, path="/x", interface="a.b", member="Fail", destination=two.name)
    asked = next(got for got in iter(two.receive, None) if got.kind == wire.METHOD_CALL and got.member == "Fail")
    two.send(wire.ERROR, 1, error_name="com.example.Error.No", reply_serial=asked.serial, destination=asked.sender)
    seen.append(met(watcher)[1:])
    two.close()
    return seen + [met(watcher)[0]]


@row("wire", [["Hello", "Ping"], ["Named"], ["Changed", "Changed"]])
def monitors_by_their_rules(bus):
    by_member, by_name, by_both, two, three = (bus.connect() for _ in range(5))
    two.call("RequestName", "su", ("com.example.Sender", 0))
    for one, rules in ((by_member, ["type='method_call',interface='org.freedesktop.DBus'", "member='Ping'"]), (by_name, ["type='signal',sender='com.example.Sender',member='Named'"]), (by_both, ["member='Changed'"])):
        one.call("BecomeMonitor", "asu", (rules, 0), interface=MONITORING)
        met(one)
    bus.connect().call("Ping", interface="org.freedesktop.DBus.Peer")
    seen = [[got for got in met(by_member) if got in ("Hello", "Ping")]]
    two.signal("/a", "a.b", "Named")
    three.signal("/a", "a.b", "Named")
    seen.append(met(by_name))
    two.signal("/a", "a.b", "Changed")
    two.send(wire.SIGNAL, 0, path="/a", interface="a.b", member="Changed", destination=three.name)
    return seen + [met(by_both)]


@row("wire", [True, ["NameLost", "NameOwnerChanged"] * 2, True])
def names_of_a_new_monitor_are_lost_before_that_is_announced(bus):
    seer, one = bus.connect(), bus.connect()
    one.call("RequestName", "su", ("com.example.Watching", 0))
    seer.call("BecomeMonitor", "asu", ([], 0), interface=MONITORING)
    met(seer)
    one.call("BecomeMonitor", "asu", ([], 0), interface=MONITORING)
    told = [got for got in received(seer) if got.kind == wire.SIGNAL]
    lost, changed = [[got.body[0] for got in told[at::2]] for at in (0, 1)]
    own = [got.body[0] for got in received(one) if got.member == "NameLost"]
    return [lost == changed, [got.member for got in told], sorted(own) == sorted(("com.example.Watching", one.name))]


@row("wire", [["Named", "Unique", "Other", "Released"], ["Named", "Unique", "Other", "NameLost", "Unowned"]])
def monitors_by_destination(bus):
    by_unique, by_name, two, three = (bus.connect() for _ in range(4))
    name = "com.example.Recipient"
    for own in (name, "com.example.Other"):
        two.call("RequestName", "su", (own, 0))
    for one, rule in ((by_unique, f"destination='{two.name}',interface='a.b'"), (by_name, f"destination='{name}',type='signal'")):
        one.call("BecomeMonitor", "asu", ([rule], 0), interface=MONITORING)
        met(one)
    tell = lambda member, to: three.send(wire.SIGNAL, 0, path="/a", interface="a.b", member=member, destination=to)
    for member, to in (("Named", name), ("Unique", two.name), ("Other", "com.example.Other"), ("Elsewhere", three.name)):
        tell(member, to)
    three.call("Ping", interface="org.freedesktop.DBus.Peer")
    two.call("ReleaseName", "s", (name,))
    tell("Released", two.name)
    tell("Unowned", name)
    return [met(by_unique), met(by_name)]


@row("wire", ["closed", True])
def a_monitor_sends_nothing(bus):
    one, two = bus.connect(), bus.connect()
    two.call("AddMatch", "s", ("member='Sent'",))
    one.call("BecomeMonitor", "asu", ([], 0), interface=MONITORING)
    one.signal("/a", "a.b", "Sent")
    try:
        while True:
            one.receive()
    except (wire.Closed, ConnectionError):
        seen = ["closed"]
    two.call("Ping", interface="org.freedesktop.DBus.Peer")
    return seen + [not any(got.member == "Sent" for got in two.waiting)]


@row("wire", [[2, 2, 3], [":1.1", 2, 2, 0], "NameHasNoOwner", "NameHasNoOwner", "InvalidArgs", "UnknownInterface"])
def counts_of_the_bus(bus):
    one, two = bus.connect(), bus.connect()
    for rule in ("member='c'", "path='/a'"):
        two.call("AddMatch", "s", (rule,))
    two.call("RequestName", "su", ("com.example.Counted", 0))
    ask = lambda member, *words, **options: error_of(one.call, member, *words, interface=STATS, **options)
    facts = {name: fact[1] for name, fact in ask("GetStats")[0].items()}
    seen = [[facts[name] for name in ("ActiveConnections", "MatchRules", "BusNames")]]
    facts = {name: fact[1] for name, fact in ask("GetConnectionStats", "s", ("com.example.Counted",))[0].items()}
    facts["UniqueName"] = ":1.1" if facts["UniqueName"] == two.name else facts["UniqueName"]
    seen.append([facts[name] for name in ("UniqueName", "MatchRules", "BusNames", "OutgoingBytes")])
    return seen + [ask("GetConnectionStats", "s", (name,)) for name in ("com.example.Nobody", "no..name", BUS)] + [ask("GetStats", path="/a")]


@row("wire", [[3, 2, 0, 2, 2, 2], [3, 2, 0, 2, 2, 2]], ours_alone=True)
def counts_of_what_was_sent(bus):
    one, two = bus.connect(), bus.connect()
    one.call("AddMatch", "s", ("member='c'",))
    two.call("AddMatch", "s", ("member='c'",))
    one.signal("/a", "a.b", "c")
    one.signal("/a", "a.b", "x")
    one.signal("/a", "a.b", "x")
    one.send(wire.SIGNAL, 0, path="/a", interface="a.b", member="x", destination=two.name)
    one.send(wire.METHOD_CALL, wire.NO_REPLY_EXPECTED, path="/a", interface="a.b", member="x", destination=two.name)
    one.call("Ping", interface="org.freedesktop.DBus.Peer")
    numbers = lambda facts: [facts[name][1] for name in ("Broadcasts", "Recipients", "RefusedPuts", "ProgramsRun", "ProgramSteps", "Unicasts")]
    seen = [numbers(two.call("GetConnectionStats", "s", (one.name,), interface=STATS)[0])]
    one.close()
    wait_until(lambda: not two.call("NameHasOwner", "s", (one.name,))[0])
    return seen + [numbers(two.call("GetStats", interface=STATS)[0])]


PROGRAMS = "org.example.ProgramBus1"


def said_of(one, text):
    """What the bus answers of a filter, or says of one that it doesn't attach."""
    try:
        return one.call("AttachFilter", "s", (text,), interface=PROGRAMS)
    except DBusError as error:
        return str(error).partition(": ")[2]


@row("wire", [["c"], ["c", "d"], "NoAttachment", (), ["d"]], ours_alone=True)
def filters_in_place_of_rules(bus):
    one, two = bus.connect(), bus.connect()

    def told():
        for path, member, text in (("/a", "c", "text"), ("/org/a11y/atspi", "c", "text"), ("/a", "d", "a text")):
            two.signal(path, "a.b", member, "s", (text,))
        return [got for got in met(one) if got in ("c", "d")]

    number = said_of(one, "signal and not path_namespace = /org/a11y and arg0 begins te")
    seen = [told()]
    said_of(one, "member = d")
    seen.append(told())
    seen.append(error_of(two.call, "Detach", "u", number, interface=PROGRAMS).rpartition(".")[2])
    return seen + [one.call("Detach", "u", number, interface=PROGRAMS), told()]


@row("wire", ["BadFilter: NoTest at 10", "BadFilter: SenderName com.example.A", "LimitsExceeded: weight of the filter"], ours_alone=True)
def filters_that_are_refused(bus):
    one = bus.connect()
    return [said_of(one, text) for text in ("signal and", "sender = com.example.A", " or ".join(["arg0 < 1"] * 43))]


RULES = [
    "type='signal',member='c'", "interface='a.b',path='/a/b',arg0='x',arg12='y'", "path_namespace='/a',arg2path='/b/',arg0namespace='com.example'",
    "sender='com.example.Sender',destination=':1.5',arg1='it'\\''s, so'", "type='method_call',eavesdrop='true'", "",
]


@row("wire", [sorted(sorted(re.split(r",(?=[a-z0-9_]+=')", rule)) for rule in RULES), []])
def all_rules_as_texts(bus):
    one, two = bus.connect(), bus.connect()
    for rule in RULES:
        two.call("AddMatch", "s", (rule,))
    found = one.call("GetAllMatchRules", interface=STATS)[0]
    return [sorted(sorted(re.split(r",(?=[a-z0-9_]+=')", rule)) for rule in found[two.name]), found[one.name]]


# dbus-send


def dbus_send(bus, member, *words, dest=BUS, path=BUS_PATH, interface=BUS):
    return run("dbus-send", f"--bus={bus.address}", "--print-reply=literal", f"--dest={dest}", path, f"{interface}.{member}", *words)


@row("dbus-send", ["boolean true", "NameHasNoOwner", "uint32 1", "MatchRuleInvalid"])
def calls_of_the_bus(bus):
    return [
        dbus_send(bus, "NameHasOwner", "string:org.freedesktop.DBus"),
        dbus_send(bus, "GetNameOwner", "string:com.example.Nobody"),
        dbus_send(bus, "RequestName", "string:com.example.Sent", "uint32:0"),
        dbus_send(bus, "AddMatch", "string:member='c"),
    ]


@row("dbus-send", ("text", 7, True, ["a", "b"], {"k": 1}, 2.5))
def a_signal_of_many_types(bus):
    one = bus.connect()
    one.call("AddMatch", "s", ("member='Sent'",))
    run("dbus-send", f"--bus={bus.address}", "--type=signal", "/a", "a.b.Sent", "string:text", "uint32:7", "boolean:true", "array:string:a,b", "dict:string:int32:k,1", "double:2.5")
    return one.receive_signal("Sent").body


# dbus-monitor


def written_to(file):
    """All that programs have written to a file. Its place is theirs too, so it isn't moved."""
    return os.pread(file.fileno(), os.fstat(file.fileno()).st_size, 0)


class Watcher:
    """A program that prints what goes over the bus, until it is stopped."""

    def __init__(self, *words):
        self.file = tempfile.TemporaryFile()
        self.process = subprocess.Popen(words, stdout=self.file, stderr=subprocess.STDOUT)

    def text(self):
        return written_to(self.file).decode(errors="replace")

    def has(self, text, seconds=10):
        return wait_until(lambda: text in self.text(), seconds)

    def stop(self):
        self.process.kill()
        self.process.wait()
        self.file.close()


@row("dbus-monitor", [True, True, False])
def signals_by_rules(bus):
    one = bus.connect()
    watcher = Watcher("dbus-monitor", "--address", bus.address, "type='signal',interface='a.b',member='Seen'")
    try:
        shown = wait_until(lambda: one.signal("/a", "a.b", "Seen", "su", ("text", 7)) and "member=Seen" in watcher.text())
        one.signal("/a", "a.b", "Unseen")
        one.signal("/a", "a.b", "Seen", "s", ("last",))
        return [shown, watcher.has('string "last"'), "Unseen" in watcher.text()]
    finally:
        watcher.stop()


@row("dbus-monitor", [True, True, True])
def calls_of_others(bus):
    watcher = Watcher("dbus-monitor", "--address", bus.address)
    try:
        one, two = bus.connect(), bus.connect()
        shown = wait_until(lambda: bus.connect().close() or "member=Hello" in watcher.text())
        one.send(wire.METHOD_CALL, 1, "s", ("asked",), path="/x", interface="a.b", member="Ask", destination=two.name)
        asked = watcher.has('string "asked"')
        return [shown, asked, f"sender={one.name} -> destination={two.name}" in watcher.text()]
    finally:
        watcher.stop()


# gdbus


@row("gdbus", ["(true,)", "NameHasNoOwner", "(uint32 1,)"])
def calls_by_gdbus(bus):
    call = lambda member, *words: run("gdbus", "call", "--address", bus.address, "--dest", BUS, "--object-path", BUS_PATH, "--method", f"{BUS}.{member}", *words)
    return [call("NameHasOwner", BUS), call("GetNameOwner", "com.example.Nobody"), call("RequestName", "com.example.Called", "uint32 0")]


@row("gdbus", ["(uint32 1,)", "Error: GDBus.Error:org.example.ProgramBus1.Error.BadFilter: BadFilter: BadOperator at 7"], ours_alone=True)
def attaches_by_gdbus(bus):
    call = lambda text: run("gdbus", "call", "--address", bus.address, "--dest", BUS, "--object-path", BUS_PATH, "--method", f"{PROGRAMS}.AttachFilter", text)
    return [call("member = Shown and arg0 begins te"), call("member < c")]


@row("gdbus", [("text", 7, [1, 2], {"k": ("s", "v")})])
def emits_a_signal(bus):
    one = bus.connect()
    one.call("AddMatch", "s", ("member='Emitted'",))
    # with --address it says no Hello
    run("gdbus", "emit", "--session", "--object-path", "/a", "--signal", "a.b.Emitted", "'text'", "uint32 7", "[1, 2]", "{'k': <'v'>}", session=bus.address)
    return [one.receive_signal("Emitted").body]


@row("gdbus", [True, True])
def monitors_a_name(bus):
    one = bus.connect()
    one.call("RequestName", "su", ("com.example.Monitored", 0))
    watcher = Watcher("gdbus", "monitor", "--address", bus.address, "--dest", "com.example.Monitored")
    try:
        owned = watcher.has("is owned by")
        shown = wait_until(lambda: one.signal("/a", "a.b", "Shown", "s", ("text",)) and "a.b.Shown ('text',)" in watcher.text())
        return [owned, shown]
    finally:
        watcher.stop()


@row("gdbus", [True, True])
def introspects_the_bus(bus):
    text = run("gdbus", "introspect", "--address", bus.address, "--dest", BUS, "--object-path", BUS_PATH)
    return ["interface org.freedesktop.DBus {" in text, "RequestName(" in text]


@row("gdbus", "")
def waits_for_a_name(bus):
    waiting = subprocess.Popen(["gdbus", "wait", "--address", bus.address, "--timeout", "10", "com.example.Awaited"], stdout=subprocess.PIPE, stderr=subprocess.STDOUT, text=True)
    time.sleep(0.3)
    one = bus.connect()
    one.call("RequestName", "su", ("com.example.Awaited", 0))
    return waiting.communicate(timeout=10)[0].strip()


# busctl


def busctl(bus, *words):
    return run("busctl", f"--address={bus.address}", *words)


@row("busctl", ["b true", 'as 1 "org.freedesktop.DBus"', True])
def calls_by_busctl(bus):
    return [
        busctl(bus, "call", BUS, BUS_PATH, BUS, "NameHasOwner", "s", BUS),
        busctl(bus, "call", BUS, BUS_PATH, BUS, "ListActivatableNames"),
        "RequestName" in busctl(bus, "introspect", BUS, BUS_PATH),
    ]


@row("busctl", ["u 1", "Call failed: BadFilter: NoTest at 10"], ours_alone=True)
def attaches_by_busctl(bus):
    return [busctl(bus, "call", BUS, BUS_PATH, PROGRAMS, "AttachFilter", "s", text) for text in ("signal and not path_namespace = /org/a11y", "signal and")]


@row("busctl", [("text", 7, ("s", "inner"))])
def emits_by_busctl(bus):
    one = bus.connect()
    one.call("AddMatch", "s", ("member='Busctl'",))
    busctl(bus, "emit", "/a", "a.b", "Busctl", "suv", "text", "7", "s", "inner")
    return [one.receive_signal("Busctl").body]


@row("busctl", True)
def lists_names(bus):
    one = bus.connect()
    one.call("RequestName", "su", ("com.example.Listed", 0))
    return "com.example.Listed" in busctl(bus, "list", "--no-pager")


@row("busctl", [True, True])
def monitors_the_bus(bus):
    watcher = Watcher("busctl", f"--address={bus.address}", "monitor", "--no-pager")
    try:
        one, two = bus.connect(), bus.connect()
        shown = wait_until(lambda: one.signal("/a", "a.b", "Seen", "s", ("text",)) and "Member=Seen" in watcher.text())
        one.send(wire.METHOD_CALL, 1, "s", ("asked",), path="/x", interface="a.b", member="Ask", destination=two.name)
        return [shown, watcher.has('STRING "asked"')]
    finally:
        watcher.stop()


@row("busctl", [True, True])
def captures_the_bus(bus):
    with tempfile.TemporaryFile() as file:
        capture = subprocess.Popen(["busctl", f"--address={bus.address}", "capture"], stdout=file, stderr=subprocess.DEVNULL)
        try:
            one = bus.connect()
            read = lambda: written_to(file)
            shown = wait_until(lambda: one.signal("/a", "a.b", "Captured", "s", ("text",)) and b"Captured" in read())
            return [shown, read()[:4] in (b"\xd4\xc3\xb2\xa1", b"\n\r\r\n")]
        finally:
            capture.kill()
            capture.wait()
