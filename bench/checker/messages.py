"""Messages: which bytes are valid, and which fault of the others is named (message protocol, marshalling)."""

from . import names

LONGEST_ARRAY = 1 << 26
LONGEST_MESSAGE = 1 << 27
DEEPEST = 64
FIXED = {"y": 1, "b": 4, "n": 2, "q": 2, "i": 4, "u": 4, "h": 4, "x": 8, "t": 8, "d": 8}

PATH, INTERFACE, MEMBER, ERROR_NAME, REPLY_SERIAL, DESTINATION, SENDER, SIGNATURE, UNIX_FDS = range(1, 10)
FIELD_TYPE = {1: "o", 2: "s", 3: "s", 4: "s", 5: "u", 6: "s", 7: "s", 8: "g", 9: "u"}
REQUIRED = {
    1: (PATH, MEMBER),
    2: (REPLY_SERIAL,),
    3: (ERROR_NAME, REPLY_SERIAL),
    4: (PATH, INTERFACE, MEMBER),
}
NAME_CHECK = {
    INTERFACE: names.is_interface,
    MEMBER: names.is_member,
    ERROR_NAME: names.is_interface,
    DESTINATION: names.is_bus_name,
    SENDER: names.is_bus_name,
}
RESERVED = {PATH: b"/org/freedesktop/DBus/Local", INTERFACE: b"org.freedesktop.DBus.Local"}


class Fault(Exception):
    """The first check that fails; its argument is the fault's name."""


class Message:
    """A valid message: of each known field (value, place, length), of each argument (code, place, length, text)."""

    def __init__(self, raw):
        self.raw = raw
        self.order = raw[0]
        self.kind = raw[1]
        self.flags = raw[2]
        self.fields = {}
        self.args = []
        self.body = len(raw)

    def text(self, field):
        found = self.fields.get(field)
        return None if found is None else found[0]


class Values:
    """Reads values one after another. An item has to end by `end`; where it doesn't, `fault` is what is wrong."""

    def __init__(self, raw, order, at):
        self.raw = raw
        self.order = order
        self.at = at

    def item(self, length, end, fault):
        start = self.at
        if start + length > end:
            raise Fault(fault)
        self.at = start + length
        return self.raw[start : self.at]

    def number(self, length, end, fault):
        return int.from_bytes(self.item(length, end, fault), self.order)

    def padding(self, multiple, end, fault):
        if any(self.item(-self.at % multiple, end, fault)):
            raise Fault("Padding")

    def text(self, one, end, fault):
        """The text of an `s`, `o` or `g`."""
        length = self.number(1 if one == "g" else 4, end, fault)
        both = self.item(length + 1, end, fault)
        text = both[:-1]
        if one == "s":
            check_utf8(text)
        elif one == "o" and not names.is_path(text):
            raise Fault("BadName")
        elif one == "g" and names.types_of(text) is None:
            raise Fault("BadSignature")
        if both[-1] != 0:
            raise Fault("BadText")
        return text

    def variant_type(self, end, fault):
        length = self.number(1, end, fault)
        both = self.item(length + 1, end, fault)
        types = names.types_of(both[:-1])
        if types is None or len(types) != 1:
            raise Fault("BadSignature")
        if both[-1] != 0:
            raise Fault("BadText")
        return types[0]

    def value(self, one, levels, end, fault):
        """Reads one value inside `levels` containers; gives its place after padding, and its text where it has one."""
        self.padding(names.alignment(one), end, fault)
        start = self.at
        if one in FIXED:
            number = self.number(FIXED[one], end, fault)
            if one == "b" and number > 1:
                raise Fault("BadBool")
            return start, number
        if one in ("s", "o", "g"):
            return start, self.text(one, end, fault)
        if one[0] == "{":
            self.value(one[1], levels, end, fault)
            self.value(one[2], levels, end, fault)
            return start, None
        if levels == DEEPEST:
            raise Fault("Depth")
        if one == "v":
            self.value(self.variant_type(end, fault), levels + 1, end, fault)
        elif one[0] == "a":
            self.array(one[1], levels + 1, end, fault)
        else:
            for member in one[1]:
                self.value(member, levels + 1, end, fault)
        return start, None

    def array(self, element, levels, end, fault):
        length = self.number(4, end, fault)
        if length > LONGEST_ARRAY:
            raise Fault("ArrayLength")
        self.padding(names.alignment(element), end, fault)
        if self.at + length > end:
            raise Fault(fault)
        inner = self.at + length
        while self.at < inner:
            self.value(element, levels, inner, "ArrayLength")


def check_utf8(text):
    try:
        text.decode("utf-8")
    except UnicodeDecodeError:
        raise Fault("BadText") from None
    if 0 in text:
        raise Fault("BadText")


def whole_length(raw):
    """The order, the length of the fields and that of the whole message, by the first 16 bytes."""

    def there(length):
        if len(raw) < length:
            raise Fault("Short")

    there(1)
    if raw[0] not in (0x6C, 0x42):
        raise Fault("Order")
    order = "little" if raw[0] == 0x6C else "big"
    there(2)
    if raw[1] == 0:
        raise Fault("Kind")
    there(4)
    if raw[3] != 1:
        raise Fault("Version")
    there(12)
    if not any(raw[8:12]):
        raise Fault("Serial")
    there(16)
    fields = int.from_bytes(raw[12:16], order)
    if fields > LONGEST_ARRAY:
        raise Fault("ArrayLength")
    whole = 16 + fields + -fields % 8 + int.from_bytes(raw[4:8], order)
    if whole > LONGEST_MESSAGE:
        raise Fault("TooLarge")
    return order, fields, whole


def read(raw):
    """The message that the bytes are, or a Fault."""
    order, fields_length, whole = whole_length(raw)
    if len(raw) != whole:
        raise Fault("Short" if len(raw) < whole else "Trailing")
    message = Message(raw)
    message.serial = int.from_bytes(raw[8:12], order)
    values = Values(raw, order, 16)
    end = 16 + fields_length
    while values.at < end:
        read_field(message, values, end)
    for field in REQUIRED.get(message.kind, ()):
        if field not in message.fields:
            raise Fault("FieldMissing")
    values.padding(8, len(raw), "Short")
    message.body = values.at
    signature = message.fields.get(SIGNATURE, (b"",))[0]
    for one in names.types_of(signature):
        start, content = values.value(one, 0, len(raw), "Short")
        message.args.append(argument(one, start, values.at, content))
    if values.at != len(raw):
        raise Fault("Trailing")
    return message


def argument(one, start, after, content):
    """An argument as the image shows it: of a text the text's place and length, of all else those of the value."""
    code = names.first_code(one)
    if one in ("s", "o", "g"):
        return code, after - 1 - len(content), len(content), content
    return code, start, after - start, None


def read_field(message, values, end):
    values.padding(8, end, "ArrayLength")
    code = values.number(1, end, "ArrayLength")
    if code == 0:
        raise Fault("FieldCode")
    if code in FIELD_TYPE and code in message.fields:
        raise Fault("FieldTwice")
    one = values.variant_type(end, "ArrayLength")
    if code in FIELD_TYPE and one != FIELD_TYPE[code]:
        raise Fault("FieldType")
    _, content = values.value(one, 1, end, "ArrayLength")
    if code not in FIELD_TYPE:
        return
    check_content(code, content)
    length = len(content) if isinstance(content, bytes) else 0
    message.fields[code] = (content, values.at - 1 - length, length)


def check_content(code, content):
    if code in NAME_CHECK and not NAME_CHECK[code](content):
        raise Fault("BadName")
    if code in RESERVED and content == RESERVED[code]:
        raise Fault("Reserved")
    if code == REPLY_SERIAL and content == 0:
        raise Fault("Serial")
    if code == UNIX_FDS and content != 0:
        raise Fault("UnixFds")
