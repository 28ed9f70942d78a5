"""Starts dbus-broker, which listens nowhere by itself: whoever holds its controller's socket hands it a listening socket, and
says what it lets pass. Everything is let pass here, to any user, and no user has a limit that a trial could meet.
"""
import os
import socket
import subprocess

import wire

# A decision is whether to let pass, and its priority. A batch decides on connecting, on owning names, on sending and on
# receiving.
NAMES = "(btbs)"
MESSAGES = "(btssssuutt)"
BATCH = f"(bta{NAMES}a{MESSAGES}a{MESSAGES})"
# Batches of users and of ranges of users, SELinux's contexts, whether AppArmor is asked, and the kind of bus.
POLICY = f"(a(u{BATCH})a(buu{BATCH})a(ss)bs)"

LET_PASS = (True, 1)
ANY_USER = 2**32 - 1
ANY_NAME = (*LET_PASS, True, "")
ANY_MESSAGE = (*LET_PASS, "", "", "", "", 0, 0, 0, 2**64 - 1)
LET_ALL_PASS = (*LET_PASS, [ANY_NAME], [ANY_MESSAGE], [ANY_MESSAGE])
ANY = ([(ANY_USER, LET_ALL_PASS)], [], [], False, "session")

MACHINE = "0123456789abcdef0123456789abcdef"
LIMITS = ["--max-bytes", str(2**31), "--max-fds", str(2**20), "--max-matches", str(2**24), "--max-objects", str(2**24)]


def listening(path):
    """A socket that listens there."""
    listener = socket.socket(socket.AF_UNIX)
    listener.bind(path)
    listener.listen(4096)
    listener.setblocking(False)
    return listener


def begin(link):
    """Authenticates as this user and asks to send descriptors."""
    user = str(os.getuid()).encode().hex().encode()
    link.sendall(b"\0AUTH EXTERNAL " + user + b"\r\nNEGOTIATE_UNIX_FD\r\nBEGIN\r\n")
    answer = b""
    while answer.count(b"\r\n") < 2:
        got = link.recv(4096)
        if not got:
            raise wire.Closed
        answer += got
    if not answer.startswith(b"OK ") or b"AGREE_UNIX_FD" not in answer:
        raise wire.DBusError("authentication", answer.decode())


def hand_in(link, listener):
    """Has the bus listen on a socket."""
    body = ("/org/bus1/DBus/Listener/0", 0, (POLICY, ANY))
    call = wire.message(wire.METHOD_CALL, 1, 0, "ohv", body, path="/org/bus1/DBus/Broker", interface="org.bus1.DBus.Broker",
                        member="AddListener", unix_fds=1)
    socket.send_fds(link, [call], [listener.fileno()])
    unread = b""
    while not wire.read_message(unread):
        got = link.recv(4096)
        if not got:
            raise wire.Closed
        unread += got
    answer, _ = wire.read_message(unread)
    if answer.kind != wire.METHOD_RETURN:
        raise wire.DBusError(answer.error_name, str(answer.body))


def start(path, log):
    """The process of a bus that listens at a path, and its controller's socket: the bus ends where that is closed."""
    ours, theirs = socket.socketpair()
    with theirs, listening(path) as listener:
        words = ["dbus-broker", "--controller", str(theirs.fileno()), "--machine-id", MACHINE, *LIMITS]
        process = subprocess.Popen(words, stdout=log, stderr=log, pass_fds=[theirs.fileno()])
        begin(ours)
        hand_in(ours, listener)
    return process, ours
