#!/usr/bin/env python3
"""Writes the cases of sessions whose bytes are compared one by one, and those of each cut and of each call that fails.

    clients/session_cases.py > crates/cases_bus/data/bytes.cases

It shares no code with the bus: the messages are marshalled by wire.py, and what the bus has to say, in which order and
under which serials, stands here once more. Cases that are said in words stand in the other files of that folder.
"""
import struct

import wire
from wire import BUS, BUS_PATH, ERROR, METHOD_CALL, METHOD_RETURN, NO_REPLY_EXPECTED, SIGNAL

GUID = "0123456789abcdef0123456789abcdef"
TALK = b"\0AUTH EXTERNAL 31303030\r\nNEGOTIATE_UNIX_FD\r\nBEGIN\r\n"
TALK_ANSWERS = [f"OK {GUID}\r\n".encode(), b"ERROR\r\n"]

HEAD = """# The bytes that sessions are answered with, whole or cut, and with calls that fail. clients/session_cases.py writes this file.
# The forms of its lines are said in talks.cases and methods.cases. `served` is a client whose session reads and writes by
# itself, as one thread serves it: what it `sends` is kept, and `runs N` serves it with reads of at most N bytes, `runs N read K`
# and `runs N write K` so that the Kth read or write fails."""


def call(serial, member, signature="", body=(), flags=0):
    return wire.message(METHOD_CALL, serial, flags, signature, body, path=BUS_PATH, interface=BUS, member=member, destination=BUS)


def signal(serial, path="/a", interface="a.b", member="c", **fields):
    return wire.message(SIGNAL, serial, 0, path=path, interface=interface, member=member, **fields)


class Bus:
    """The messages of the bus that one client's session makes: each uses up one serial, whether or not anybody gets it."""

    def __init__(self, number):
        self.name = f":1.{number}"
        self.serial = 0

    def next_serial(self):
        self.serial += 1
        return self.serial

    def answer(self, to, signature="", body=()):
        return wire.message(METHOD_RETURN, self.next_serial(), NO_REPLY_EXPECTED, signature, body, reply_serial=to, destination=self.name, sender=BUS)

    def error(self, to, word, sentence, prefix="org.freedesktop.DBus.Error."):
        return wire.message(ERROR, self.next_serial(), NO_REPLY_EXPECTED, "s", (f"{word}: {sentence}",), error_name=prefix + word, reply_serial=to,
                            destination=self.name, sender=BUS)

    def signal(self, member, body, destination=None):
        return wire.message(SIGNAL, self.next_serial(), NO_REPLY_EXPECTED, "s" * len(body), body, path=BUS_PATH, interface=BUS, member=member,
                            destination=destination, sender=BUS)

    def changed(self, name, old, new):
        return self.signal("NameOwnerChanged", (name, old, new))

    def acquired(self, name, whose=None):
        return self.signal("NameAcquired", (name,), whose or self.name)

    def lost(self, name, whose=None):
        return self.signal("NameLost", (name,), whose or self.name)

    def welcome(self, serial=1):
        """What is said of a Hello: the answer, NameOwnerChanged, NameAcquired."""
        return [self.answer(serial, "s", (self.name,)), self.changed(self.name, "", self.name), self.acquired(self.name)]


def digits(data):
    """Hexadecimal digits, a blank after each four bytes."""
    return " ".join(data[place:place + 4].hex() for place in range(0, len(data), 4))


def case(name, *lines):
    print(f"\n== {name}")
    for line in lines:
        print(line)


def sends(client, data):
    return f"{client} sends {digits(data)}"


def gets(client, *messages):
    return f"{client} gets {digits(b''.join(messages))}"


def hello_and_match():
    """What a client sends that says Hello and adds a rule, and what it gets after its talk."""
    bus = Bus(1)
    answer, _, acquired = bus.welcome()
    return call(1, "Hello") + call(2, "AddMatch", "s", ("member='c'",)), [answer, acquired, bus.answer(2)]


def examples():
    bus = Bus(1)
    answer, _, acquired = bus.welcome()
    case("hello_reply", sends(1, TALK), gets(1, *TALK_ANSWERS), sends(1, call(1, "Hello")), gets(1, answer), gets(1, acquired), "1 ends Ok")
    sent, got = hello_and_match()
    assert sum(map(len, got)) == 330
    case("hello_and_match", sends("served", TALK + sent), "served runs 4096", gets("served", *TALK_ANSWERS, *got), "served ends Ok")
    case("byte_by_byte", sends("served", TALK + sent), "served runs 1", gets("served", *TALK_ANSWERS, *got), "served ends Ok")
    case("session_byte_by_byte", "1 cuts 1", sends(1, TALK + sent), gets(1, *TALK_ANSWERS, *got), "1 ends Ok")
    for length in (2, 3, 5, 7, 16, 63, 64, 65, 100):
        case(f"pieces_of_{length}", f"1 cuts {length}", sends(1, TALK + sent), gets(1, *TALK_ANSWERS, *got), "1 ends Ok")


def cuts():
    """The input's end at each byte: in the talk Auth, between messages Ok, inside one Message Short; and the talk and messages in two
    reads. Each is a client of its own."""
    lines = []
    for end in range(len(TALK)):
        whole = TALK[:end].count(b"\n")
        lines += [sends(end + 1, TALK[:end])] if end else []
        lines += [gets(end + 1, *TALK_ANSWERS[:whole])] if whole else []
        lines += [f"{end + 1} ends Auth"]
    case("talk_that_ends_at_each_byte", *lines)
    lines = []
    for client, place in enumerate(range(len(TALK)), 1):
        lines += [sends(client, TALK[:place])] if place else []
        lines += [sends(client, TALK[place:]), gets(client, *TALK_ANSWERS), f"{client} ends Ok"]
    case("talk_in_two_pieces", *lines)
    hello = call(1, "Hello")
    lines = []
    for end in range(len(hello)):
        client = end + 1
        lines += [sends(client, TALK + hello[:end]), gets(client, *TALK_ANSWERS), f"{client} ends {'Message Short' if end else 'Ok'}"]
    case("hello_that_ends_at_each_byte", *lines)
    lines = []
    sent, _ = hello_and_match()
    for client, place in enumerate(range(7, len(sent), 8), 1):
        bus = Bus(client)
        answer, _, acquired = bus.welcome()
        seen = answer + acquired + bus.answer(2)
        lines += [sends(client, TALK + sent[:place]), sends(client, sent[place:]), gets(client, *TALK_ANSWERS, seen), f"{client} ends Ok"]
    case("two_pieces", *lines)


def calls_that_fail():
    """The kth read or write of a session fails, once. A second client is told of all that the bus announces."""
    requests = [call(1, "Hello"), call(2, "AddMatch", "s", ("member='c'",)), call(3, "RequestName", "su", ("a.b", 0))]
    sent = TALK + b"".join(requests)
    at_once = 64
    reads = -(-len(sent) // at_once)
    for broken in range(1, reads + 3):
        fails = broken <= reads + 1  # the last read gives nothing: the end
        read = sent[:at_once * (broken - 1)] if fails else sent
        announced, got = served(requests, read)
        case(f"read_{broken}_fails" if fails else "no_read_fails", *watcher(), sends("served", sent), f"served runs {at_once} read {broken}",
             f"served ends {'Read' if fails else 'Ok'}", *([gets("served", *got)] if got else []), *([gets(1, *announced)] if announced else []))
    announced, got = served(requests, sent)
    for broken in range(1, len(got) + 2):
        fails = broken <= len(got)
        # Before BEGIN the session ends at once, after it it goes on to the end of its input.
        told = [] if broken <= len(TALK_ANSWERS) else announced
        case(f"write_{broken}_fails" if fails else "no_write_fails", *watcher(), sends("served", sent), f"served runs {at_once} write {broken}",
             f"served ends {'Write' if fails else 'Ok'}", *([gets("served", *got[:broken - 1])] if broken > 1 else []), *([gets(1, *told)] if told else []))


def watcher():
    return ["1 enters", "1 calls 2 AddMatch s:member='NameOwnerChanged' flags=1"]


def served(requests, read):
    """What is announced to all of a second client that sends these calls, of which so much was read, and what it gets."""
    bus = Bus(2)
    announced, got = [], TALK_ANSWERS[:read[:len(TALK)].count(b"\n")]
    messages, rest = [], len(read) - len(TALK)
    for request in requests:
        rest -= len(request)
        messages += [request] if rest >= 0 else []
    if len(messages) > 0:
        answer, changed, acquired = bus.welcome()
        announced.append(changed)
        got += [answer, acquired]
    if len(messages) > 1:
        got.append(bus.answer(2))
    if len(messages) > 2:
        changed, acquired, answer = bus.changed("a.b", "", bus.name), bus.acquired("a.b"), bus.answer(3, "u", (1,))
        announced.append(changed)
        got += [acquired, answer]
        # At its end its name is given up first. Nobody writes the NameLost that is put for it then.
        bus.lost("a.b")
        announced.append(bus.changed("a.b", bus.name, ""))
    if messages:
        announced.append(bus.changed(bus.name, bus.name, ""))
    return announced, got


def messages_of_the_bus():
    """Each kind of message that the bus makes, with its serial."""
    one, two = Bus(1), Bus(2)
    one.welcome()
    two.welcome()
    case("serials_of_answers_and_errors", "1 enters",
         sends(1, call(7, "RequestName", "su", ("a", 0))), gets(1, one.error(7, "InvalidArgs", "these are not arguments of the method")),
         sends(1, call(8, "NameHasOwner", "s", (":1.1",))), gets(1, one.answer(8, "b", (True,))),
         sends(1, call(9, "ListNames", flags=1)), "1 gets nothing",
         sends(1, call(4294967295, "ListNames")), gets(1, one.answer(4294967295, "as", ([BUS, ":1.1"],))),
         sends(1, call(10, "NoSuchMethod")), gets(1, one.error(10, "UnknownMethod", "the bus has no such method")),
         sends(1, call(11, "GetNameOwner", "s", ("a.b",))), gets(1, one.error(11, "NameHasNoOwner", "nobody owns the name")))
    one = Bus(1)
    one.welcome()
    one_adds = one.answer(2)
    first, owned, request = one.changed("a.b", "", ":1.1"), one.acquired("a.b"), one.answer(3, "u", (1,))
    lost, changed, acquired, answer = two.lost("a.b", ":1.1"), two.changed("a.b", ":1.1", ":1.2"), two.acquired("a.b"), two.answer(2, "u", (1,))
    case("name_that_is_taken_over", "1 enters", "2 enters",
         sends(1, call(2, "AddMatch", "s", ("member='NameOwnerChanged'",))), gets(1, one_adds),
         sends(1, call(3, "RequestName", "su", ("a.b", 1))), gets(1, first, owned, request),
         sends(2, call(2, "RequestName", "su", ("a.b", 2))), gets(2, acquired, answer), gets(1, lost, changed))


def passed_on():
    """A message that goes on: the fields that are known by rising code, then the sender."""
    one = signal(2, signature="s", body=("hi",))
    stamped = wire.message(SIGNAL, 2, 0, "s", ("hi",), path="/a", interface="a.b", member="c")
    # SENDER comes last: it is put after the others of the message's own fields.
    fields_len = struct.unpack_from("<I", stamped, 12)[0]
    fields = stamped[16:16 + fields_len]
    fields += bytes(-len(fields) % 8) + b"\x07\x01s\0" + struct.pack("<I", 4) + b":1.1\0"
    passed = stamped[:12] + struct.pack("<I", len(fields)) + fields
    passed += bytes(-len(passed) % 8) + stamped[16 + fields_len + (-fields_len % 8):]
    case("signal_with_its_sender", "1 enters", "1 calls 2 AddMatch s:member='c' flags=1", sends(1, one), gets(1, passed))


def most_connections():
    """256 clients are let in; the next Hello is refused, and let in once one has gone."""
    lines = []
    for client in range(1, 257):
        lines.append(f"{client} enters")
    lines += ["257 sends 00", "257 says AUTH ANONYMOUS", f"257 hears OK {GUID}", "257 says BEGIN", "257 calls 1 Hello"]
    refused = wire.message(ERROR, 1, NO_REPLY_EXPECTED, "s", ("LimitsExceeded: connections of the bus (limit clients)",), error_name="org.freedesktop.DBus.Error.LimitsExceeded", reply_serial=1, sender=BUS)
    lines += [gets(257, refused), "257 ends NoHello", "1 ends Ok"]
    answer, _, acquired = Bus(257).welcome()
    lines += [sends(258, TALK + call(1, "Hello")), gets(258, *TALK_ANSWERS, answer, acquired), "258 ends Ok"]
    case("most_connections", *lines)


def most_names():
    """1,024 names have owners; the next request is refused, and heard once one is released."""
    lines = ["1 enters"]
    for number in range(1024):
        lines.append(f"1 calls 2 RequestName s:a.n{number} u:0 flags=1")
        lines += ["1 forgets"] if number % 500 == 499 else []
    error = "error org.freedesktop.DBus -> :1.1 reply_serial=3 org.freedesktop.DBus.Error.LimitsExceeded (s) \"LimitsExceeded: names of the bus (limit all-names)\""
    lines += ["1 forgets", "1 calls 3 RequestName s:a.x u:0", f"1 reads {error}", "1 calls 4 ReleaseName s:a.n7 flags=1", "1 forgets",
              "1 calls 5 RequestName s:a.x u:0", f"1 reads signal org.freedesktop.DBus -> :1.1 {BUS_PATH} org.freedesktop.DBus.NameAcquired (s) \"a.x\"",
              "1 reads method_return org.freedesktop.DBus -> :1.1 reply_serial=5 (u) 1", "1 forgets"]
    case("most_names", *lines)


def main():
    print(HEAD)
    examples()
    cuts()
    calls_that_fail()
    messages_of_the_bus()
    passed_on()
    most_connections()
    most_names()


if __name__ == "__main__":
    main()
