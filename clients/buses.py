"""Buses that scripts start: ours, and those that this machine has besides."""
import os
import shutil
import subprocess
import tempfile
import time

import broker
import wire

HERE = os.path.dirname(os.path.abspath(__file__))
GUID = "0123456789abcdef0123456789abcdef"


def program():
    """The built program of `serve`. DBUSFAN names another one."""
    return os.environ.get("DBUSFAN") or os.path.join(HERE, "..", "crates", "dbusfan_serve", "out", "dbusfan_serve")


def compiled_floor(folder):
    """The floor's program, compiled into a folder: a bus that does only what a broadcast needs. See bench/README.md."""
    floor = os.path.join(folder, "floor")
    subprocess.run(["cc", "-O2", "-Wall", "-o", floor, os.path.join(HERE, "..", "bench", "floor.c")], check=True)
    return floor


class Bus:
    """A bus in a process of its own, on a Unix socket or a TCP port (dbus-broker and the floor on a Unix socket alone). Ours is the
    program at a path, if one is given, and has a worker for each processor that it may run on when it begins, or as many as are asked
    for. The floor is always at a path."""

    def __init__(self, kind, transport="unix", limit=None, workers=None, options=None, home=None, path=None):
        self.kind = kind
        self.controller = None
        self.reader = None
        self.folder = tempfile.mkdtemp(prefix="dbusfan-clients-")
        socket = os.path.join(self.folder, "bus")
        wanted = f"unix:path={socket}" if transport == "unix" else "tcp:host=127.0.0.1,port=0"
        self.log = open(os.path.join(self.folder, "log"), "wb")
        if kind == "dbus-broker":
            self.address = wanted
            self.process, self.controller = broker.start(socket, self.log)
            return
        if options is None:
            options = ["--allow-external"] if transport == "tcp" else []
        environment = {**os.environ, "HOME": home} if home else None
        if kind == "dbusfan":
            words = [path or program(), "--listen", wanted, "--guid", GUID, *options]
        elif kind == "floor":
            words = [path, socket]
        else:
            words = ["dbus-daemon", f"--config-file={self.config(wanted)}", "--nofork", "--print-address"]
        if limit:
            words = ["prlimit", f"--nofile={limit}", *words]
        processors = os.sched_getaffinity(0)
        if workers:
            os.sched_setaffinity(0, sorted(processors)[:workers])
        self.process = subprocess.Popen(words, stdout=subprocess.PIPE, stderr=self.log, text=True, env=environment)
        line = self.process.stdout.readline().strip()
        os.sched_setaffinity(0, processors)
        self.address = line.removeprefix("listening ").split(",guid=")[0]
        if not self.address:
            raise SystemExit(f"{kind} didn't start: {' '.join(words)}")
        if workers:
            self.run_on(processors)

    def run_on(self, processors):
        """Lets each thread of a bus that has begun run on these processors."""
        self.connect().close()
        for thread in os.listdir(f"/proc/{self.process.pid}/task"):
            os.sched_setaffinity(int(thread), processors)

    def config(self, wanted):
        path = os.path.join(self.folder, "config")
        with open(path, "w") as file:
            file.write(f"""<!DOCTYPE busconfig PUBLIC "-//freedesktop//DTD D-Bus Bus Configuration 1.0//EN"
 "http://www.freedesktop.org/standards/dbus/1.0/busconfig.dtd">
<busconfig><type>session</type><listen>{wanted}</listen><auth>EXTERNAL</auth><auth>ANONYMOUS</auth><allow_anonymous/>
<policy context="default"><allow send_destination="*" eavesdrop="true"/><allow eavesdrop="true"/><allow own="*"/></policy>
<limit name="max_incoming_bytes">1000000000</limit><limit name="max_outgoing_bytes">1000000000</limit>
<limit name="max_message_size">1000000000</limit>
<limit name="max_completed_connections">100000</limit><limit name="max_connections_per_user">100000</limit>
<limit name="max_match_rules_per_connection">100000</limit><limit name="max_names_per_connection">50000</limit></busconfig>""")
        return path

    def connect(self, **options):
        return wire.Connection(self.address, **options)

    def processor_seconds(self):
        with open(f"/proc/{self.process.pid}/stat") as file:
            words = file.read().rsplit(")", 1)[1].split()
        return (int(words[11]) + int(words[12])) / os.sysconf("SC_CLK_TCK")

    def resident_kib(self):
        with open(f"/proc/{self.process.pid}/status") as file:
            return next(int(line.split()[1]) for line in file if line.startswith("VmRSS"))

    def descriptors(self):
        return len(os.listdir(f"/proc/{self.process.pid}/fd"))

    def is_running(self):
        return self.process.poll() is None

    def stop(self):
        self.process.kill()
        self.process.wait()
        if self.controller:
            self.controller.close()
        self.log.close()
        if self.reader:
            with open(self.log.name) as log:
                self.reader(log.read())
        shutil.rmtree(self.folder)

    def __enter__(self):
        return self

    def __exit__(self, *_):
        self.stop()


def wait_until(holds, seconds=10):
    """Whether the condition holds within that time."""
    end = time.monotonic() + seconds
    while time.monotonic() < end:
        if holds():
            return True
        time.sleep(0.02)
    return holds()
