"""Makes messages and programs, right and wrong ones."""

import struct

from . import messages, names

KINDS = {"call": 1, "return": 2, "error": 3, "signal": 4}
FIELDS = {
    "path": messages.PATH,
    "interface": messages.INTERFACE,
    "member": messages.MEMBER,
    "error_name": messages.ERROR_NAME,
    "reply_serial": messages.REPLY_SERIAL,
    "destination": messages.DESTINATION,
    "sender": messages.SENDER,
    "unix_fds": messages.UNIX_FDS,
}
FIXED = {"y": "B", "b": "I", "n": "h", "q": "H", "i": "i", "u": "I", "h": "I", "x": "q", "t": "Q", "d": "d"}


class Writer:
    """Spells values; keeps the places of padding and of end bytes, where faults can be planted."""

    def __init__(self, order, at=0):
        self.order = order
        self.start = at
        self.bytes = bytearray()
        self.pads = []
        self.ends = []

    @property
    def at(self):
        return self.start + len(self.bytes)

    def padding(self, multiple):
        count = -self.at % multiple
        self.pads += range(self.at, self.at + count)
        self.bytes += bytes(count)

    def fixed(self, code, number):
        self.padding(names.alignment(code))
        self.bytes += struct.pack(("<" if self.order == "little" else ">") + FIXED[code], number)

    def text(self, content, short):
        content = content.encode() if isinstance(content, str) else content
        self.fixed("y" if short else "u", len(content))
        self.bytes += content
        self.ends.append(self.at)
        self.bytes.append(0)

    def value(self, one, content):
        if one in FIXED:
            self.fixed(one, content)
        elif one in ("s", "o", "g"):
            self.text(content, one == "g")
        elif one == "v":
            signature, inner = content
            self.text(signature, True)
            self.value(names.types_of(signature.encode())[0], inner)
        elif one[0] == "a":
            self.array(one[1], content)
        else:
            self.padding(8)
            for member, part in zip(one[1] if one[0] == "(" else one[1:], content):
                self.value(member, part)

    def array(self, element, contents):
        self.fixed("u", 0)
        place = len(self.bytes) - 4
        self.padding(names.alignment(element))
        start = len(self.bytes)
        for content in contents:
            self.value(element, content)
        self.bytes[place : place + 4] = (len(self.bytes) - start).to_bytes(4, self.order)


class Draft:
    """A message before it is spelled. A field is (code, signature, value); an argument (signature, value)."""

    def __init__(self, kind=4, order="little", flags=0, serial=1):
        self.kind = kind
        self.order = order
        self.flags = flags
        self.serial = serial
        self.fields = []
        self.args = []
        self.signature = None
        self.pads = []
        self.ends = []
        self.body = 0

    def finish(self):
        fields = list(self.fields)
        signature = "".join(one for one, _ in self.args) if self.signature is None else self.signature
        if signature:
            fields.append((messages.SIGNATURE, "g", signature))
        header = Writer(self.order, 16)
        for code, one, content in fields:
            header.padding(8)
            header.bytes.append(code)
            header.text(one, True)
            types = names.types_of(one.encode() if isinstance(one, str) else one)
            if types:
                header.value(types[0], content)
        length = len(header.bytes)
        header.padding(8)
        body = Writer(self.order, header.at)
        for one, content in self.args:
            body.value(names.types_of(one.encode())[0], content)
        self.pads = header.pads + body.pads
        self.ends = header.ends + body.ends
        self.body = header.at
        first = bytes([ord("l" if self.order == "little" else "B"), self.kind, self.flags, 1])
        numbers = (len(body.bytes), self.serial, length)
        return first + b"".join(number.to_bytes(4, self.order) for number in numbers) + header.bytes + body.bytes


def from_words(words):
    """A message by words: a kind, `big`, `FIELD=VALUE`, `serial=N`, `TYPE:VALUE` for an argument of a basic type."""
    draft = Draft()
    for word in words:
        key, equals, content = word.partition("=")
        if word in KINDS:
            draft.kind = KINDS[word]
        elif word == "big":
            draft.order = "big"
        elif key in ("serial", "flags", "kind") and equals:
            setattr(draft, key, int(content))
        elif key in FIELDS and equals:
            one = messages.FIELD_TYPE[FIELDS[key]]
            draft.fields.append((FIELDS[key], one, int(content) if one == "u" else content))
        else:
            one, _, content = word.partition(":")
            draft.args.append((one, content if one in ("s", "o", "g") else int(content)))
    return draft.finish()


def program(*instructions):
    """The bytes of instructions (code, k) or (code, jt, jf, k)."""
    whole = [(one[0], 0, 0, one[1]) if len(one) == 2 else one for one in instructions]
    return b"".join(struct.pack("<HBBI", *one) for one in whole)
