"""What `wst serve`, `wst test` and `wst send` run, and the other ends of their connections. Nothing waits longer than
SECONDS."""

import select
import socket
import struct
import subprocess
import time
from pathlib import Path

WST = Path(__file__).resolve().parents[2] / "crates/wst/out/wst"
SECONDS = 10
FIRST_PORT = 20000

running = []


class Running:
    """A run of `wst` whose output is read line by line."""

    buffer = b""

    def line(self):
        """The next line of the output, as soon as it is there; nothing at the end of the output."""
        while b"\n" not in self.buffer:
            ready, _, _ = select.select([self.process.stdout], [], [], SECONDS)
            assert ready, "no line came"
            got = self.process.stdout.read1(4096)
            if not got:
                return self.buffer.decode()
            self.buffer += got
        line, _, self.buffer = self.buffer.partition(b"\n")
        return line.decode()

    def says_nothing_for(self, seconds):
        return not self.buffer and not select.select([self.process.stdout], [], [], seconds)[0]


class Server(Running):
    """`wst serve` with these options on the first port from 20000 on where it listens."""

    def __init__(self, count, *options, host="127.0.0.1", family=socket.AF_INET):
        self.host, self.family = host, family
        for port in range(FIRST_PORT, FIRST_PORT + 200):
            self.port, self.address = port, f"{host}:{port}"
            self.process = start("serve", *options, self.address, str(count))
            if self.line() == f"listening on {self.address}":
                return
            self.process.wait(SECONDS)
        raise AssertionError("no port was free")

    def ends(self, *lines, status=0):
        """It writes these lines and no more, and ends with this status, with nothing on the fault output."""
        got = []
        while line := self.line():
            got.append(line)
        assert got == list(lines), got
        assert self.process.wait(SECONDS) == status, self.process.returncode
        assert self.process.stderr.read() == b""

    def client(self):
        host = {"127.0.0.1": "127.0.0.1", "[::1]": "::1", "localhost": "localhost"}[self.host]
        return Client(socket.create_connection((host, self.port), SECONDS))

    def refuses(self):
        try:
            self.client().close()
        except ConnectionRefusedError:
            return True
        return False


class Tested(Running):
    """`wst test` with these options and cases against a socket of ours that listens."""

    command = "test"

    def __init__(self, *words, host="127.0.0.1", backlog=16, waiting=0, before=None):
        self.listener = socket.create_server(("127.0.0.1", 0), backlog=backlog)
        self.waiting = [socket.socket() for _ in range(waiting)]
        for client in self.waiting:
            client.setblocking(False)
            client.connect_ex(self.listener.getsockname())
        self.listener.settimeout(SECONDS)
        self.address = f"{host}:{self.listener.getsockname()[1]}"
        options = [word for word in words if word.startswith("-")]
        cases = [word for word in words if not word.startswith("-")]
        self.process = start(self.command, *options, self.address, *cases, before=before)

    def next(self):
        """The server's end of the next connection."""
        return Client(self.listener.accept()[0])

    def has_no_more_clients(self):
        self.listener.settimeout(0)
        try:
            self.listener.accept()
        except BlockingIOError:
            return True
        return False

    def ends(self, output, status=0, faults=b""):
        """It writes this and no more, this on the fault output, and ends with this status."""
        got = "".join(f"{line}\n" for line in iter(self.line, ""))
        assert got == output, got
        assert self.process.wait(SECONDS) == status, self.process.returncode
        told = self.process.stderr.read()
        assert told == faults, told


class Client:
    """One end of a connection, of raw bytes."""

    def __init__(self, stream):
        self.stream = stream
        stream.settimeout(SECONDS)
        stream.setsockopt(socket.IPPROTO_TCP, socket.TCP_NODELAY, 1)

    def send(self, *parts):
        self.stream.sendall(b"".join(parts))

    def get(self, count):
        """So many bytes, or fewer where the stream ends before."""
        got = b""
        while len(got) < count and (more := self.stream.recv(count - len(got))):
            got += more
        return got

    def head(self):
        """What comes up to the first empty line, with it."""
        got = b""
        while not got.endswith(b"\r\n\r\n") and (more := self.stream.recv(1)):
            got += more
        return got

    def rest(self):
        """All that comes until the stream ends. A reset is an error."""
        got = b""
        while more := self.stream.recv(65536):
            got += more
        return got

    def half_close(self):
        self.stream.shutdown(socket.SHUT_WR)

    def close(self):
        self.stream.close()

    def reset(self):
        """Ends the connection by a reset, not in the orderly way."""
        self.stream.setsockopt(socket.SOL_SOCKET, socket.SO_LINGER, struct.pack("ii", 1, 0))
        self.stream.close()


def free_port():
    """A port at which nothing listens."""
    with socket.create_server(("127.0.0.1", 0)) as listener:
        return listener.getsockname()[1]


def max_resident(process):
    """The most memory that a process has had so far, in bytes."""
    with open(f"/proc/{process}/status", encoding="ascii") as lines:
        return next(1024 * int(line.split()[1]) for line in lines if line.startswith("VmHWM:"))


def connected(port):
    """A connection to a port at which something listens soon."""
    until = time.monotonic() + SECONDS
    while True:
        try:
            return socket.create_connection(("127.0.0.1", port), SECONDS)
        except ConnectionRefusedError:
            assert time.monotonic() < until, "nothing listens"
            time.sleep(0.01)


def start(*words, stdin=subprocess.DEVNULL, stdout=subprocess.PIPE, before=None):
    """A run of `wst`. `before` runs in the new process, in front of `wst`."""
    pipes = {"stdin": stdin, "stdout": stdout, "stderr": subprocess.PIPE}
    process = subprocess.Popen([WST, *words], preexec_fn=before, **pipes)
    running.append(process)
    return process


def run(*words, seconds=SECONDS):
    """The status, the output and the fault output of a run."""
    process = start(*words)
    output, faults = process.communicate(timeout=seconds)
    return process.returncode, output, faults


def end_all():
    """Ends what a test started."""
    for process in running:
        process.kill()
        process.communicate()
    running.clear()
