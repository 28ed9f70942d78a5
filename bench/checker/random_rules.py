"""Random rules, with and without faults, in many spellings."""

from . import messages, names, rules

FIELDS = {
    "interface": messages.INTERFACE,
    "member": messages.MEMBER,
    "path": messages.PATH,
    "path_namespace": messages.PATH,
    "destination": messages.DESTINATION,
    "sender": messages.SENDER,
}


def true_conditions(message):
    """Conditions that hold of a message, as (key, value)."""
    found = [("type", kind.decode()) for kind, number in rules.KINDS.items() if number == message.kind]
    for key, field in FIELDS.items():
        if message.text(field) is not None:
            found.append((key, message.text(field).decode()))
    for number, (code, _, _, text) in enumerate(message.args[:64]):
        if code == ord("s"):
            found.append(("arg%d" % number, text.decode()))
        if code in (ord("s"), ord("o")):
            found.append(("arg%dpath" % number, text.decode()))
        if number == 0 and code == ord("s") and names.is_namespace(text):
            found.append(("arg0namespace", text.decode()))
    return found


def near_condition(rng, words):
    """A condition with a value of the pools, of any key."""
    key = rng.choice([
        "type", "sender", "sender", "interface", "member", "path", "path_namespace", "destination", "arg",
        "arg", "path_arg", "arg0namespace",
    ])
    if key == "arg":
        return "arg%d" % rng.choice([0, 0, 0, 1, 2, 62, 63]), rng.choice(words.texts)
    if key == "path_arg":
        return "arg%dpath" % rng.choice([0, 0, 0, 1, 2, 63]), rng.choice(words.texts)
    values = {
        "type": ["signal", "signal", "method_call", "method_return", "error"],
        "sender": words.bus_names + 2 * words.well_known,
        "interface": words.interfaces,
        "member": words.members,
        "path": words.paths,
        "path_namespace": words.paths,
        "destination": words.bus_names,
        "arg0namespace": words.namespaces + [one for one in words.texts if names.is_namespace(one.encode())],
    }
    return key, rng.choice(values[key])


def random_conditions(rng, words, valid):
    """The conditions of a rule without faults, near to what the messages say."""
    wanted = rng.choices([0, 1, 2, 3, 4, 6], [4, 40, 30, 15, 8, 3])[0]
    pool = true_conditions(rng.choice(valid)) if valid and rng.random() < 0.6 else []
    given = {}
    for _ in range(wanted):
        key, value = rng.choice(pool) if pool and rng.random() < 0.75 else near_condition(rng, words)
        try:
            rules.check_pairs(key, given)
        except rules.RuleFault:
            continue
        given[key] = value
    if rng.random() < 0.02:
        numbers = rng.sample(range(64), rng.randint(30, 64))
        given = {"arg%d%s" % (number, rng.choice(["", "path"])): "x" for number in numbers}
    return given


def spelled(rng, value):
    """One of a value's spellings, made from its end: a bare backslash may not stand before an apostrophe."""
    if rng.random() < 0.4 and "'" not in value:
        return "'%s'" % value
    text = ""
    at = len(value)
    while at > 0:
        char = value[at - 1]
        bare = char != "," and not (char == "\\" and text.startswith("'"))
        if char == "'":
            text = "\\'" + text
            at -= 1
        elif bare and rng.random() < 0.6:
            text = char + text
            at -= 1
        else:
            start = value.rfind("'", 0, at) + 1
            start = max(start, at - rng.randint(1, 6))
            text = "'" + value[start:at] + "'" + text
            at = start
        if rng.random() < 0.04:
            text = "''" + text
    return text


def blanks(rng):
    return "" if rng.random() < 0.8 else "".join(rng.choice(" \t\r") for _ in range(rng.randint(1, 3)))


def parts_of(rng, conditions, eavesdrop):
    parts = ["%s=%s" % (key, spelled(rng, value)) for key, value in conditions.items()]
    if eavesdrop:
        parts.append("eavesdrop=" + spelled(rng, "true"))
    elif rng.random() < 0.06:
        parts.append("eavesdrop=" + spelled(rng, "false"))
    if rng.random() < 0.5:
        rng.shuffle(parts)
    return parts


def joined(rng, parts):
    """Parts as a text, with blanks before keys and now and then a last comma."""
    text = ",".join(blanks(rng) + part for part in parts)
    if not parts:
        return blanks(rng)
    return text + ("," + blanks(rng) if rng.random() < 0.05 else "")


WRONG_PARTS = [
    *("arg64=x", "arg01=x", "arg00path=x", "arg1namespace=a", "arg999999999999999999999=x", "arg0Path=x"),
    *("argx=x", "arg=x"),
    *("Member=c", "members=c", "type", "member", "=x", "x=y", "path namespace=/", "member =c", "arg0path =x"),
    *("arg0namespac=x"),
    *("member=''", "member=c.d", "member='c' ", "type=Signal", "type=''", "path=a", "path=/a/"),
    *("path_namespace=", "interface=a"),
    *("sender=a", "sender=:1", "destination=1.2", "arg0namespace=.a", "arg0namespace=", "arg0namespace=a/"),
    *("eavesdrop=TRUE"),
    *("eavesdrop=1", "member='c", "arg0='x", "path='/a", "eavesdrop='true", "arg63='", "x='y", "member=1c'd"),
    *("member='c,d'"),
    *("path=/a,path_namespace=/a", "path_namespace=/,path=/", "path=/a,path_namespace=b", "arg0=x,arg0path=x"),
    *("arg0path=x,arg0=y"),
    *("member=c", "path=/a", "path_namespace=/a", "arg0=x", "arg0path=x", "eavesdrop=true", "eavesdrop=false", "", " "),
]


def wrong_rule(rng, conditions):
    """A rule's text that has, as a rule, a fault or several."""
    parts = parts_of(rng, conditions, False)
    for _ in range(rng.choice([1, 1, 2, 3])):
        parts.insert(rng.randint(0, len(parts)), rng.choice(WRONG_PARTS))
    text = joined(rng, parts)
    pick = rng.random()
    if pick < 0.15 and text:
        at = rng.randrange(len(text))
        text = text[:at] + rng.choice(["", "'", ",", "=", "\\", "x", " "]) + text[at + 1 :]
    elif pick < 0.2:
        text += (rules.LONGEST_RULE + rng.choice([0, 0, 1, 5]) - len(text.encode())) * "x"
    return text


def long_rule(rng):
    """A rule of just the most bytes, or of one more."""
    front = rng.choice(["arg0='", "member=c,arg5='", "arg63path='"])
    return front + (rules.LONGEST_RULE - len(front) - 1 + rng.choice([0, 0, 1])) * "x" + "'"


def is_light(text):
    """Whether a rule has to compile: of heavier ones the specification leaves it open."""
    try:
        return rules.read(text.encode()).weight() <= rules.HEAVIEST_COMPILED
    except rules.RuleFault:
        return True
