"""A small D-Bus client for the scripts of this folder: sockets, the authentication talk, and messages of every type.

It shares no code with the bus that it tries. Marshalling is that of the D-Bus Specification, in little-endian order.
"""
import os
import select
import socket
import struct
import time

METHOD_CALL, METHOD_RETURN, ERROR, SIGNAL = 1, 2, 3, 4
NO_REPLY_EXPECTED = 1

BUS = "org.freedesktop.DBus"
BUS_PATH = "/org/freedesktop/DBus"

FIELDS = {1: "path", 2: "interface", 3: "member", 4: "error_name", 5: "reply_serial", 6: "destination", 7: "sender", 8: "signature"}
CODES = {"path": (1, "o"), "interface": (2, "s"), "member": (3, "s"), "error_name": (4, "s"), "reply_serial": (5, "u"),
         "destination": (6, "s"), "sender": (7, "s"), "signature": (8, "g"), "unix_fds": (9, "u")}
FIXED = {"y": ("B", 1), "b": ("I", 4), "n": ("h", 2), "q": ("H", 2), "i": ("i", 4), "u": ("I", 4), "x": ("q", 8), "t": ("Q", 8), "d": ("d", 8), "h": ("I", 4)}
ALIGN = {"y": 1, "b": 4, "n": 2, "q": 2, "i": 4, "u": 4, "x": 8, "t": 8, "d": 8, "h": 4, "s": 4, "o": 4, "g": 1, "a": 4, "(": 8, "{": 8, "v": 1}


class DBusError(Exception):
    """An error message, by its name."""

    def __init__(self, name, text=""):
        super().__init__(f"{name}: {text}")
        self.name = name


class Closed(Exception):
    """The other side closed the connection."""


def first_type(signature):
    """The first complete type of a signature, and the rest."""
    if signature[0] == "a":
        inner, rest = first_type(signature[1:])
        return "a" + inner, rest
    if signature[0] in "({":
        depth = 0
        for place, code in enumerate(signature):
            depth += (code in "({") - (code in ")}")
            if depth == 0:
                return signature[:place + 1], signature[place + 1:]
    return signature[0], signature[1:]


def types(signature):
    found = []
    while signature:
        one, signature = first_type(signature)
        found.append(one)
    return found


class Writer:
    def __init__(self):
        self.bytes = bytearray()

    def pad(self, to):
        self.bytes += bytes(-len(self.bytes) % to)

    def put(self, kind, value):
        code = kind[0]
        self.pad(ALIGN[code])
        if code in FIXED:
            self.bytes += struct.pack("<" + FIXED[code][0], int(value) if code == "b" else value)
        elif code in "so":
            text = value.encode()
            self.bytes += struct.pack("<I", len(text)) + text + b"\0"
        elif code == "g":
            text = value.encode()
            self.bytes += bytes([len(text)]) + text + b"\0"
        elif code == "v":
            self.put("g", value[0])
            self.put(value[0], value[1])
        elif code == "a":
            self.put_array(kind[1:], value)
        else:
            for inner, part in zip(types(kind[1:-1]), value):
                self.put(inner, part)

    def put_array(self, inner, value):
        place = len(self.bytes)
        self.bytes += bytes(4)
        self.pad(ALIGN[inner[0]])
        start = len(self.bytes)
        if inner == "y":
            self.bytes += bytes(value)
        else:
            for part in (value.items() if isinstance(value, dict) else value):
                self.put(inner, part)
        struct.pack_into("<I", self.bytes, place, len(self.bytes) - start)


class Reader:
    def __init__(self, data, place=0):
        self.data, self.place = data, place

    def pad(self, to):
        self.place += -self.place % to

    def take(self, count):
        self.place += count
        return self.data[self.place - count:self.place]

    def get(self, kind):
        code = kind[0]
        self.pad(ALIGN[code])
        if code in FIXED:
            value = struct.unpack("<" + FIXED[code][0], self.take(FIXED[code][1]))[0]
            return bool(value) if code == "b" else value
        if code in "so":
            text = self.take(self.get("u")).decode()
            self.place += 1
            return text
        if code == "g":
            text = self.take(self.take(1)[0]).decode()
            self.place += 1
            return text
        if code == "v":
            inner = self.get("g")
            return inner, self.get(inner)
        if code == "a":
            return self.get_array(kind[1:])
        return tuple(self.get(inner) for inner in types(kind[1:-1]))

    def get_array(self, inner):
        length = self.get("u")
        self.pad(ALIGN[inner[0]])
        if inner == "y":
            return bytes(self.take(length))
        end, found = self.place + length, []
        while self.place < end:
            found.append(self.get(inner))
        return dict(found) if inner[0] == "{" else found


class Message:
    def __init__(self, kind, flags, serial, fields, body):
        self.kind, self.flags, self.serial, self.fields, self.body = kind, flags, serial, fields, body

    def __getattr__(self, name):
        if name in CODES:
            return self.fields.get(name)
        raise AttributeError(name)

    def __repr__(self):
        return f"Message({self.kind}, {self.flags}, {self.serial}, {self.fields}, {str(self.body)[:200]})"


def message(kind, serial, flags=0, signature="", body=(), **fields):
    """The bytes of a message."""
    content = Writer()
    for one, value in zip(types(signature), body):
        content.put(one, value)
    if signature:
        fields["signature"] = signature
    head = Writer()
    head.bytes += struct.pack("<BBBBII", ord("l"), kind, flags, 1, len(content.bytes), serial)
    entries = [(CODES[name][0], (CODES[name][1], value)) for name, value in fields.items() if value is not None]
    head.put("a(yv)", sorted(entries))
    head.pad(8)
    return bytes(head.bytes + content.bytes)


def read_message(data):
    """The first message of these bytes and its length; None where more bytes are needed."""
    if len(data) < 16:
        return None
    _, kind, flags, _, body_len, serial, fields_len = struct.unpack_from("<BBBBIII", data)
    start = 16 + fields_len + (-fields_len % 8)
    if len(data) < start + body_len:
        return None
    whole = bytes(data[:start + body_len])
    fields = {FIELDS[code]: value[1] for code, value in Reader(whole, 12).get("a(yv)") if code in FIELDS}
    reader = Reader(whole, start)
    body = tuple(reader.get(one) for one in types(fields.get("signature", "")))
    return Message(kind, flags, serial, fields, body), len(whole)


def open_socket(address):
    """A socket that is connected to `unix:path=..` or `tcp:host=..,port=..`."""
    kind, _, rest = address.partition(":")
    parts = dict(part.split("=", 1) for part in rest.split(","))
    if kind == "unix":
        link = socket.socket(socket.AF_UNIX)
        link.connect("\0" + parts["abstract"] if "abstract" in parts else parts["path"])
        return link
    return socket.create_connection((parts["host"], int(parts["port"])))


class Connection:
    """A connection to a bus. Unless it is told otherwise it authenticates and says Hello. It passes file descriptors only if
    it is asked to."""

    def __init__(self, address, begin=True, hello=True, timeout=10, descriptors=False):
        self.link = open_socket(address)
        self.timeout = timeout
        self.serial = 0
        self.unread = bytearray()
        self.waiting = []
        self.name = None
        if begin:
            self.authenticate(descriptors)
            if hello:
                self.name = self.call("Hello")[0]

    def fileno(self):
        return self.link.fileno()

    def authenticate(self, descriptors=False):
        self.link.sendall(b"\0AUTH EXTERNAL " + str(os.getuid()).encode().hex().encode() + b"\r\n")
        answer = self.line()
        if not answer.startswith(b"OK "):
            raise DBusError("authentication", answer.decode())
        if descriptors:
            self.link.sendall(b"NEGOTIATE_UNIX_FD\r\n")
            self.line()
        self.link.sendall(b"BEGIN\r\n")

    def line(self):
        while b"\r\n" not in self.unread:
            self.fill()
        line, _, rest = bytes(self.unread).partition(b"\r\n")
        self.unread = bytearray(rest)
        return line

    def fill(self, timeout=None):
        poll = select.poll()
        poll.register(self.link, select.POLLIN)
        if not poll.poll(1000 * (self.timeout if timeout is None else timeout)):
            raise TimeoutError
        data = self.link.recv(1 << 20)
        if not data:
            raise Closed
        self.unread += data

    def next_serial(self):
        self.serial += 1
        return self.serial

    def send(self, kind, flags=0, signature="", body=(), **fields):
        serial = self.next_serial()
        self.link.sendall(message(kind, serial, flags, signature, body, **fields))
        return serial

    def send_descriptors(self, descriptors, kind, signature, body, **fields):
        """Sends a message with file descriptors."""
        data = message(kind, self.next_serial(), 0, signature, body, unix_fds=len(descriptors), **fields)
        socket.send_fds(self.link, [data], descriptors)

    def signal(self, path="/a", interface="a.b", member="c", signature="", body=(), destination=None):
        return self.send(SIGNAL, 1, signature, body, path=path, interface=interface, member=member, destination=destination)

    def call(self, member, signature="", body=(), interface=BUS, path=BUS_PATH, destination=BUS):
        """What a call is answered. An error message raises DBusError."""
        serial = self.send(METHOD_CALL, 0, signature, body, path=path, interface=interface, member=member, destination=destination)
        end = time.monotonic() + self.timeout
        while True:
            got = self.take(end - time.monotonic())
            if got.reply_serial == serial and got.kind == METHOD_RETURN:
                return got.body
            if got.reply_serial == serial and got.kind == ERROR:
                raise DBusError(got.error_name, got.body[0] if got.body else "")
            self.waiting.append(got)

    def take(self, timeout):
        """The next message from the socket."""
        end = time.monotonic() + timeout
        while True:
            found = read_message(self.unread)
            if found:
                del self.unread[:found[1]]
                return found[0]
            self.fill(max(0, end - time.monotonic()))

    def receive(self, timeout=None):
        """The next message that isn't the answer of a call."""
        if self.waiting:
            return self.waiting.pop(0)
        return self.take(self.timeout if timeout is None else timeout)

    def receive_signal(self, member, timeout=None):
        while True:
            got = self.receive(timeout)
            if got.kind == SIGNAL and got.member == member:
                return got

    def receive_call(self, member, timeout=None):
        while True:
            got = self.receive(timeout)
            if got.kind == METHOD_CALL and got.member == member:
                return got

    def has_nothing(self, wait=0.1):
        """Whether no further message comes: a Ping's answer comes after all that was put before it."""
        self.call("Ping", interface="org.freedesktop.DBus.Peer")
        try:
            self.waiting.append(self.take(wait))
        except TimeoutError:
            pass
        return not self.waiting

    def close(self):
        self.link.close()
