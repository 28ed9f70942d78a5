"""Match rules: the grammar with its faults, equality, weight, and the sentence of each condition (match rules)."""

import re

from . import messages, names

LONGEST_RULE = 1024
LAST_ARGUMENT = 63
HEAVIEST_COMPILED = 4096
KINDS = {b"method_call": 1, b"method_return": 2, b"error": 3, b"signal": 4}
ARGUMENT_KEY = re.compile(rb"arg([0-9]*)(.*)", re.DOTALL)
ALLOWED = {
    "type": lambda value: value in KINDS,
    "sender": names.is_bus_name,
    "interface": names.is_interface,
    "member": names.is_member,
    "path": names.is_path,
    "path_namespace": names.is_path,
    "destination": names.is_bus_name,
    "arg0namespace": names.is_namespace,
    "eavesdrop": lambda value: value in (b"true", b"false"),
}
BLANKS = b" \t\r\n"


class RuleFault(Exception):
    """The first fault of a rule's text; its argument is the fault's name."""


class Rule:
    """The conditions by key, and whether messages to others hold too."""

    def __init__(self, conditions, eavesdrops):
        self.conditions = conditions
        self.eavesdrops = eavesdrops
        self.key = (frozenset(conditions.items()), eavesdrops)

    def sender_name(self):
        """The well-known sender other than the bus: the rule then asks who owns that name."""
        sender = self.conditions.get("sender")
        if sender is None or sender.startswith(b":") or sender == names.THE_BUS.encode():
            return None
        return sender.decode()

    def weight(self):
        weight = 8
        for key, value in self.conditions.items():
            weight += 24 + len(value)
            if is_argument_path(key):
                weight += 16 * value.count(b"/")
        return weight


def is_argument_path(key):
    return key.startswith("arg") and key.endswith("path")


def check_key(key):
    """The key's name in the table."""
    if key.startswith(b"arg"):
        digits, rest = ARGUMENT_KEY.fullmatch(key).groups()
        if not digits or rest not in (b"", b"path", b"namespace"):
            raise RuleFault("UnknownKey")
        if len(digits) > 1 and digits.startswith(b"0"):
            raise RuleFault("ArgNumber")
        if int(digits) > LAST_ARGUMENT or (rest == b"namespace" and int(digits) != 0):
            raise RuleFault("ArgNumber")
        return key.decode()
    name = key.decode("utf-8", "replace")
    if name not in ALLOWED:
        raise RuleFault("UnknownKey")
    return name


def check_pairs(key, given):
    if key in given:
        raise RuleFault("KeyTwice")
    if key.startswith("arg") and not key.endswith("namespace"):
        other = key[:-4] if is_argument_path(key) else key + "path"
        if other in given:
            raise RuleFault("KeyTwice")
    pair = {"path": "path_namespace", "path_namespace": "path"}
    if pair.get(key) in given:
        raise RuleFault("PathTwice")


def read_value(text, at):
    """The value that begins at `at`, and the place of the comma or end after it."""
    value = bytearray()
    inside = False
    while at < len(text):
        byte = text[at]
        if byte == ord("'"):
            inside = not inside
        elif inside:
            value.append(byte)
        elif byte == ord(","):
            break
        elif text[at : at + 2] == b"\\'":
            value.append(ord("'"))
            at += 1
        else:
            value.append(byte)
        at += 1
    if inside:
        raise RuleFault("Unquoted")
    return bytes(value), at


def read(text):
    """The rule that the bytes spell, or a RuleFault."""
    if len(text) > LONGEST_RULE:
        raise RuleFault("TooLong")
    given = {}
    at = 0
    while True:
        while at < len(text) and text[at] in BLANKS:
            at += 1
        if at == len(text):
            break
        stop = at
        while stop < len(text) and text[stop] not in b"=,":
            stop += 1
        if stop == len(text) or text[stop] != ord("="):
            raise RuleFault("UnknownKey")
        key = check_key(text[at:stop])
        check_pairs(key, given)
        value, at = read_value(text, stop + 1)
        if key in ALLOWED and not ALLOWED[key](value):
            raise RuleFault("BadValue")
        given[key] = value
        if at == len(text):
            break
        at += 1
    eavesdrops = given.pop("eavesdrop", b"false") == b"true"
    return Rule(given, eavesdrops)


def holds(rule, message, owned):
    """Whether each condition's sentence holds; `owned` has the names whose primary owner is the sender."""
    if message.text(messages.DESTINATION) is not None and not rule.eavesdrops:
        return False
    return all(condition_holds(key, value, message, owned) for key, value in rule.conditions.items())


def condition_holds(key, value, message, owned):
    if key == "type":
        return message.kind == KINDS[value]
    if key == "sender":
        if value.startswith(b":") or value == names.THE_BUS.encode():
            return message.text(messages.SENDER) == value
        return value.decode() in owned
    if key == "interface":
        return message.text(messages.INTERFACE) == value
    if key == "member":
        return message.text(messages.MEMBER) == value
    if key == "path":
        return message.text(messages.PATH) == value
    if key == "destination":
        return message.text(messages.DESTINATION) == value
    if key == "path_namespace":
        path = message.text(messages.PATH)
        return path is not None and (value == b"/" or path == value or path.startswith(value + b"/"))
    return argument_holds(key, value, message)


def argument_holds(key, value, message):
    number = int(re.sub("[a-z]", "", key))
    if number >= len(message.args):
        return False
    code, _, _, text = message.args[number]
    if key.endswith("namespace"):
        return code == ord("s") and (text == value or text.startswith(value + b"."))
    if not is_argument_path(key):
        return code == ord("s") and text == value
    if code not in (ord("s"), ord("o")):
        return False
    return text == value or is_front(text, value) or is_front(value, text)


def is_front(front, whole):
    return front.endswith(b"/") and whole.startswith(front)
