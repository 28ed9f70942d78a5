"""Clients that go on talking while a trial is under way, in a process of their own."""
import multiprocessing
import time

import wire

COUNT = 10
PAUSE = 0.01


def talk(address, pipe):
    """One of the clients sends a signal again and again, which the others have to hear each time; at the end it is said how often,
    how long the slowest took, and what went wrong."""
    sent, slowest, fault = 0, 0.0, ""
    try:
        clients = [wire.Connection(address) for _ in range(COUNT)]
        for one in clients[1:]:
            one.call("AddMatch", "s", ("member='among_others'",))
        pipe.send("there")
        while not pipe.poll(PAUSE):
            began = time.monotonic()
            clients[0].signal("/a", "a.b", "among_others", "u", (sent,))
            for one in clients[1:]:
                if one.receive_signal("among_others").body[0] != sent:
                    fault = "lost"
            slowest = max(slowest, time.monotonic() - began)
            sent += 1
    except (OSError, TimeoutError, wire.Closed, wire.DBusError) as error:
        fault = f"{type(error).__name__} {error}"
    pipe.send((sent, slowest, fault))


class Others:
    """Ten clients of a bus. `stop` tells how many signals all others heard, the slowest in seconds, and what went wrong."""

    def __init__(self, bus):
        self.pipe, theirs = multiprocessing.Pipe()
        self.process = multiprocessing.get_context("fork").Process(target=talk, args=(bus.address, theirs), daemon=True)
        self.process.start()
        self.begun = self.pipe.recv()

    def stop(self):
        if self.begun == "there":
            self.pipe.send("enough")
            self.begun = self.pipe.recv()
        self.process.join()
        return self.begun
