"""Random messages, right ones and broken ones, with values near each other."""

from . import build, messages, names

PATHS = ["/", "/a", "/ab", "/a/b", "/a/bc", "/a/b/c", "/aa/bb", "/aa/bb/cc", "/com/example/foo", "/com/example/foobar"]
INTERFACES = ["a.b", "a.c", "a.b.c", "com.example.I", "com.example.If", "_.x1"]
MEMBERS = ["c", "cd", "d", "C", "_1"]
WELL_KNOWN = [
    "com.example.A", "com.example.B", "com.example.A.B", "com.example.AB", "a.b", "a-b._c", "-.-", "_.b9",
    "org.freedesktop.DBus2",
]
BUS_NAMES = [":1.1", ":1.2", ":1.10", ":1.3", names.THE_BUS, "com.example.A", "com.example.B", ":a.b"]
BAD_CLAIMS = [
    ":1.1", "com", "com..a", ".a.b", "a.b.", "a.1b", "1a.b", "a.b/c", "é.b", "a." + 254 * "b", "a.b\t", "/a",
    "a,b.c",
]
NAMESPACES = ["com", "com.example", "com.example.A", "a", ":1", ":1.1", "a.b", "-x"]
DOTTED_TEXTS = [
    "com", "com.example", "com.example.A", "com.example.AB", "com.example.A.x", "a", "a.b", ":1", ":1.1",
    "com.",
]
PATH_TEXTS = [
    "/", "/aa", "/aa/", "/aa/b", "/aa/bb", "/aa/bb/", "/aa/bb/cc", "/aa/bb/cc/", "aa/", "aa/bb", "//", "a/",
    "/a", "",
]
ODD_TEXTS = [
    "", "x", "xy", "X", "'", "\\", ",", "\\'", "it's", "a,b", "'x'", "a b", " ", "é", "ü/", "日本", "x=y",
    "\\\\", "😀",
]
TEXTS = DOTTED_TEXTS + PATH_TEXTS + ODD_TEXTS
OTHER_FIELDS = [
    ("s", "x"), ("u", 7), ("v", ("y", 1)), ("as", ["a", "b"]), ("a{sv}", [("k", ("u", 1))]), ("(yu)", (1, 2)),
    ("g", "ay"),
]
BAD_NAMES = [
    *("", "a", "1", "/a/", "//", "/é", "a..b", ".a", "a.", "a.1", "é.b", ":1", ":", "a-b"),
    *(256 * "a", "a." + 254 * "a"),
]
UNKNOWN_FIELD = 10
NOT_ONE_TYPE = ["", "yy", "a", "()", "z", "{sv}", "a{vs}", 33 * "(" + "y" + 33 * ")"]
BAD_TEXTS = [b"\xff", b"a\0", b"\xed\xa0\x80", b"\xc0\x80", b"\xf4\x90\x80\x80", b"\xe2\x82"]
BAD_SIGNATURES = [
    "a", "(", "r", "a{s}", "a{sv", "a{vs}", "()", 33 * "a" + "y", 33 * "(" + "y" + 33 * ")", 254 * "y" + "z",
]
MOST_OF_EACH = 4
BASIC = "ybnqiuhxtdsog"
SIGNED = {"n": 15, "i": 31, "x": 63}
UNSIGNED = {"y": 8, "q": 16, "u": 32, "h": 32, "t": 64}


class Words:
    """The values that one list draws from: few, so that rules and messages meet."""

    def __init__(self, rng):
        def few(pool, most=MOST_OF_EACH):
            return rng.sample(pool, rng.randint(1, most))

        self.paths = few(PATHS)
        self.interfaces = few(INTERFACES)
        self.members = few(MEMBERS)
        self.well_known = few(WELL_KNOWN)
        self.bus_names = few(BUS_NAMES)
        self.namespaces = few(NAMESPACES)
        self.texts = few(rng.choice([TEXTS, DOTTED_TEXTS, PATH_TEXTS, ODD_TEXTS]), 7)
        self.texts += few(PATHS, 2) if rng.random() < 0.3 else []


def random_type(rng, levels=2):
    pick = rng.random()
    if levels == 0 or pick < 0.5:
        return rng.choice(BASIC)
    if pick < 0.62:
        return "v"
    if pick < 0.8:
        return "a" + random_type(rng, levels - 1)
    if pick < 0.9:
        return "a{" + rng.choice(BASIC) + random_type(rng, levels - 1) + "}"
    return "(" + "".join(random_type(rng, levels - 1) for _ in range(rng.randint(1, 3))) + ")"


def random_value(rng, one, levels=3):
    """A value of a type tree."""
    if one in SIGNED:
        return rng.choice([0, 1, -1, rng.getrandbits(SIGNED[one])])
    if one in UNSIGNED:
        return rng.choice([0, 1, rng.getrandbits(UNSIGNED[one])])
    if one == "b":
        return rng.randint(0, 1)
    if one == "d":
        return rng.choice([0.0, 1.5, -2.25])
    if one == "s":
        return rng.choice(TEXTS)
    if one == "o":
        return rng.choice(PATHS)
    if one == "g":
        return rng.choice(["", "y", "a{sv}", "(ii)", "ss"])
    if one == "v":
        signature = random_type(rng, min(levels, 1)) if levels > 0 else "y"
        return signature, random_value(rng, names.types_of(signature.encode())[0], levels - 1)
    if one[0] == "a":
        return [random_value(rng, one[1], levels - 1) for _ in range(rng.choice([0, 0, 1, 2, 3]))]
    members = one[1] if one[0] == "(" else one[1:]
    return tuple(random_value(rng, member, levels - 1) for member in members)


def random_args(rng, words):
    count = rng.choices([0, 1, 2, 3, 5, 63, 64, 65, 70], [25, 30, 20, 10, 5, 1, 3, 2, 1])[0]
    if count > 5:
        return [("s", rng.choice(words.texts)) for _ in range(count)]
    args = []
    for _ in range(count):
        one = rng.choices(["s", "o", random_type(rng)], [7, 2, 2])[0]
        known = {"s": words.texts, "o": words.paths + [text for text in words.texts if names.is_path(text.encode())]}
        if one in known:
            args.append((one, rng.choice(known[one])))
        else:
            args.append((one, random_value(rng, names.types_of(one.encode())[0])))
    return args


def random_draft(rng, words):
    """A valid message, most often a broadcast."""
    kind = rng.choices([4, 1, 2, 3, 5, 255], [70, 10, 8, 6, 3, 3])[0]
    draft = build.Draft(kind, rng.choice(["little", "big"]), rng.choice([0, 0, 1, 2, 7, 255]))
    draft.serial = rng.choice([1, 2, 42, 0x01020304, 0xFFFFFFFF])
    required = messages.REQUIRED.get(kind, ())
    choices = [
        (messages.PATH, "o", words.paths, 0.5),
        (messages.INTERFACE, "s", words.interfaces, 0.6),
        (messages.MEMBER, "s", words.members, 0.5),
        (messages.ERROR_NAME, "s", words.interfaces, 0.1),
        (messages.REPLY_SERIAL, "u", [1, 7, 0x80000000], 0.1),
        (messages.DESTINATION, "s", words.bus_names, 0.12 if kind == 4 else 0.5),
        (messages.SENDER, "s", words.bus_names, 0.4),
        (messages.UNIX_FDS, "u", [0], 0.03),
    ]
    for code, one, values, share in choices:
        if code in required or rng.random() < share:
            draft.fields.append((code, one, rng.choice(values)))
    while rng.random() < 0.12:
        draft.fields.append((rng.choice([10, 11, 200, 255]), *rng.choice(OTHER_FIELDS)))
    if rng.random() < 0.5:
        rng.shuffle(draft.fields)
    draft.args = random_args(rng, words)
    return draft


def replace_field(draft, code, one, content):
    draft.fields = [field for field in draft.fields if field[0] != code] + [(code, one, content)]


def patched(raw, place, new):
    return raw[:place] + new + raw[place + len(new) :]


def nested_variants(count):
    content = ("y", 0)
    for _ in range(count - 1):
        content = ("v", content)
    return content


def broken_field(rng, fault, draft):
    """Gives the draft a wrong field, or takes one away; whether it did."""
    if fault == "FieldCode":
        draft.fields.insert(rng.randint(0, len(draft.fields)), (0, "y", 1))
    elif fault == "FieldType":
        replace_field(draft, rng.randint(1, 9), "y", 1)
    elif fault == "FieldTwice":
        known = [field for field in draft.fields if field[0] in messages.FIELD_TYPE]
        draft.fields += rng.sample(known, min(len(known), 1))
    elif fault == "FieldMissing":
        gone = rng.choice(messages.REQUIRED.get(draft.kind, (messages.PATH,)))
        draft.fields = [field for field in draft.fields if field[0] != gone]
    elif fault == "BadName":
        code = rng.choice([messages.PATH, *messages.NAME_CHECK])
        replace_field(draft, code, messages.FIELD_TYPE[code], rng.choice(BAD_NAMES))
    elif fault == "Reserved":
        code = rng.choice(list(messages.RESERVED))
        replace_field(draft, code, messages.FIELD_TYPE[code], messages.RESERVED[code].decode())
    elif fault == "UnixFds":
        replace_field(draft, messages.UNIX_FDS, "u", rng.choice([1, 0x01000000]))
    elif fault == "Serial" and rng.random() < 0.5:
        replace_field(draft, messages.REPLY_SERIAL, "u", 0)
    elif fault == "BadSignature" and rng.random() < 0.5:
        draft.fields.append((UNKNOWN_FIELD, rng.choice(NOT_ONE_TYPE), 0))
    elif fault == "Depth" and rng.random() < 0.5:
        draft.fields.append((UNKNOWN_FIELD, "v", nested_variants(rng.choice([62, 63, 64]))))
    else:
        return False
    return True


def broken_argument(rng, fault, draft):
    """Gives the draft a wrong argument; whether it did."""
    if fault == "BadBool":
        draft.args.insert(rng.randint(0, min(2, len(draft.args))), ("b", rng.choice([2, 256, 0x01000000])))
    elif fault == "BadText" and rng.random() < 0.6:
        draft.args.append(("s", rng.choice(BAD_TEXTS)))
    elif fault == "BadSignature":
        draft.args.append(("g", rng.choice(BAD_SIGNATURES)))
    elif fault == "Depth":
        draft.args.append(("v", nested_variants(rng.choice([63, 64, 65]))))
    elif fault == "ArrayLength" and rng.random() < 0.3:
        draft.args.append(("au", [1, 2]))
        draft.signature = "".join(one for one, _ in draft.args[:-1]) + rng.choice(["at", "ax"])
    else:
        return False
    return True


def damaged_array(rng, draft):
    """A message with an array, with some bytes of its body changed."""
    one = rng.choice(["as", "au", "aas", "a(yu)", "a{sv}", "aay", "at", "av", "a{yt}", "a(s)"])
    draft.args.append((one, random_value(rng, names.types_of(one.encode())[0])))
    raw = draft.finish()
    return damaged(rng, bytearray(raw), draft.body)


def break_bytes(rng, fault, draft, raw):
    """The bytes with one fault planted."""
    if fault == "Order":
        return patched(raw, 0, bytes([rng.choice([0, 0x4C, 0x62, 0x78])]))
    if fault == "Kind":
        return patched(raw, 1, b"\0")
    if fault == "Version":
        return patched(raw, 3, bytes([rng.choice([0, 2, 255])]))
    if fault == "Serial":
        return patched(raw, 8, bytes(4))
    if fault == "ArrayLength":
        length = int.from_bytes(raw[12:16], draft.order)
        wrong = rng.choice([length + 1, length - 1, length + 2, (1 << 26) + 1, 0xFFFFFFFF])
        return patched(raw, 12, max(wrong, 0).to_bytes(4, draft.order))
    if fault == "TooLarge":
        most = messages.LONGEST_MESSAGE - draft.body
        return patched(raw, 4, rng.choice([most, most + 1, most + 8, 0xFFFFFFFF]).to_bytes(4, draft.order))
    if fault in ("Padding", "BadText"):
        places = draft.pads if fault == "Padding" else draft.ends
        return patched(raw, rng.choice(places), bytes([rng.choice([1, 128])])) if places else raw
    if fault == "Short":
        return raw[: rng.randint(0, len(raw) - 1)]
    return raw + bytes(rng.randint(1, 9))


FAULTS = (
    "Order Kind Version Serial TooLarge FieldCode FieldType FieldTwice FieldMissing BadName Padding BadBool BadText "
    "BadSignature ArrayLength Depth Short Trailing UnixFds Reserved"
).split()


ARRAYS = "an array in the body"


def damaged(rng, raw, start):
    """Some bytes from `start` on become others, often near ones, as lengths that are off by one."""
    for _ in range(rng.randint(1, 3)):
        if len(raw) > start:
            place = rng.randrange(start, len(raw))
            near = (raw[place] + rng.choice([-4, -1, 1, 1, 4])) % 256
            raw[place] = rng.choice([near, near, 0, 1, 2, 0x2F, 0x61, 0x80, 255, rng.randrange(256)])
    return bytes(raw)


def broken_message(rng, words):
    """Bytes in which a fault or two were planted; now and then they are a message all the same."""
    fault = rng.choice(FAULTS + 3 * [ARRAYS])
    draft = random_draft(rng, words)
    if fault == ARRAYS:
        return damaged_array(rng, draft)
    planted = broken_field(rng, fault, draft) or broken_argument(rng, fault, draft)
    raw = draft.finish()
    if not planted:
        raw = break_bytes(rng, fault, draft, raw)
    if rng.random() < 0.45:
        raw = damaged(rng, bytearray(raw), rng.choice([0, 0, draft.body]))
    if rng.random() < 0.1:
        raw = raw[: rng.randint(0, len(raw))]
    return raw
