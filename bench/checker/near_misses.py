"""Lists full of near misses: paths and names of few letters, their prefixes, and texts as long as they, from few senders."""

from . import build, messages, names, rules

ELEMENTS = ["a", "b", "ab", "aa", "aab"]
KEYS = ["path_namespace", "arg0namespace"]
SENDERS = [":1.1", ":1.10", ":1.2", ":1.", ":1.1a", names.THE_BUS, "a.b"]
MORE_KEYS = ["sender", "member", "interface", "path", "arg0", "type"]
MOST_RULES = 40


def some_elements(rng, most):
    return [rng.choice(ELEMENTS) for _ in range(rng.randint(0, most))]


def near_path(rng):
    """A path of up to five elements: `/` where it has none."""
    return "/" + "/".join(some_elements(rng, 5))


def near_name(rng):
    """Names divided by dots, with dots at the ends or twice in a row now and then, since an argument may be any text."""
    name = ".".join(some_elements(rng, 5))
    odd = rng.random()
    if odd < 0.06:
        return "." + name
    if odd < 0.12:
        return name + "."
    return name.replace(".", "..", 1) if odd < 0.16 else name


def shortened(rng, text, divider):
    """A front of the text, that ends before a divider or anywhere, or the text with its last byte changed."""
    pick = rng.random()
    if pick < 0.35:
        return text
    if pick < 0.75:
        parts = text.split(divider)
        return divider.join(parts[: rng.randint(1, len(parts))])
    if pick < 0.9:
        return text[: rng.randint(0, len(text))]
    return text[:-1] + rng.choice("ab")


def near_value(rng, key, made):
    """A value of a key that is near to what the list's messages have."""
    if key in ("path", "path_namespace"):
        return shortened(rng, rng.choice(made.near_paths), "/") or "/"
    return shortened(rng, rng.choice(made.near_names), ".")


def near_rule(rng, made):
    """A rule's text with a sender or one or both namespaces, and now and then more."""
    while True:
        wanted = rng.sample(KEYS, rng.choice([0, 1, 1, 2])) + rng.choices(["sender"] + MORE_KEYS, k=rng.choice([0, 0, 1, 2]))
        given = {}
        for key in wanted:
            value = {"member": "c", "interface": rng.choice(["a.b", "a.c"]), "type": "signal", "sender": rng.choice(SENDERS)}.get(key)
            given[key] = near_value(rng, key, made) if value is None else value
        text = ",".join("%s='%s'" % pair for pair in given.items())
        try:
            rules.read(text.encode())
        except rules.RuleFault:
            continue
        return text


def near_message(rng, made):
    draft = build.Draft(4, "little", 0)
    draft.serial = 1
    path = rng.choice(made.near_paths)
    draft.fields = [
        (messages.PATH, "o", path if names.is_path(path.encode()) else "/"),
        (messages.INTERFACE, "s", rng.choice(["a.b", "a.c"])),
        (messages.MEMBER, "s", rng.choice(["c", "d"])),
    ]
    if rng.random() < 0.7:
        draft.fields.append((messages.SENDER, "s", rng.choice([it for it in SENDERS if names.is_bus_name(it.encode())])))
    one = rng.choices(["s", "o", ""], [8, 1, 1])[0]
    if one == "s":
        draft.args = [("s", rng.choice(made.near_names))]
    elif one == "o":
        draft.args = [("o", near_path(rng))]
    return draft.finish()


def fill(made):
    """Rules are added and removed, messages looked at in between."""
    rng = made.rng
    made.near_paths = [near_path(rng) for _ in range(rng.randint(2, 6))]
    made.near_names = [near_name(rng) for _ in range(rng.randint(2, 6))]
    made.near_paths += [shortened(rng, path, "/") or "/" for path in made.near_paths]
    made.near_names += [shortened(rng, name, ".") for name in made.near_names]
    count = rng.choice([1, 2, 5, 20])
    for _ in range(count):
        made.event("connect")
    standing = []
    for _ in range(rng.randint(5, MOST_RULES)):
        connection, rule = rng.randint(1, count), near_rule(rng, made)
        if standing and rng.random() < 0.2:
            made.event("remove %d %s" % standing.pop(rng.randrange(len(standing))))
        standing.append((connection, rule))
        made.event("add %d %s" % (connection, rule))
        if rng.random() < 0.5:
            job = len(made.lines)
            if made.event("begin %d %s" % (rng.randint(1, count), near_message(rng, made).hex())) == "begun":
                made.event("end %d" % job)
    for _ in range(10):
        job = len(made.lines)
        if made.event("begin %d %s" % (rng.randint(1, count), near_message(rng, made).hex())) == "begun":
            made.event("end %d" % job)
