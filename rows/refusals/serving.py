"""Runs of `wst serve` over two connections, for which a request for memory is refused."""

import socket
import subprocess
from dataclasses import dataclass
from threading import Timer

from loopback.wire import CLOSE, CLOSE_BACK, HELLO, HELLO_BACK, REQUEST, RESPONSE
from shim import refusing

SECONDS = 20
SENT = REQUEST + HELLO + CLOSE
SERVED = RESPONSE + HELLO_BACK + CLOSE_BACK
LINES = [b"listening\n", b"1 clean 1000\n", b"2 clean 1000\n"]

# A port that was free may be taken before it is listened at. Then another one is tried, so often.
PORTS = 5

# Where memory is refused, in the order in which a run comes there.
PLACES = ["before the first connection", "in connection 1", "for its line", "in connection 2", "for its line, the last"]


@dataclass
class Served:
    """The lines of a run, what each client got, and the fault output."""

    status: int
    lines: list
    got: list
    faults: bytes

    def could_not_listen(self):
        return (self.status, self.lines, self.faults) == (3, [], b"not listening: address in use\n")

    def is_whole(self):
        return self == Served(0, LINES, [SERVED, SERVED], b"")

    def place(self):
        """At which of the places this run lacked memory; None where it is not what is wanted then. Where the network
        lacks it, the address can't be listened at."""
        if (self.status, self.lines, self.faults) == (3, [], b"not listening: failed\n"):
            return 0
        if self.status == 3 and self.faults == b"no memory\n":
            return self.place_of_no_memory()
        stopped = [number for number in (1, 2) if self == stopped_at(number, self.got)]
        return 2 * stopped[0] - 1 if stopped else None

    def place_of_no_memory(self):
        """Each line before that for which there was no memory stands, and none after it; each client got all. Where it
        lacks for what serves all of them, it is told that the address is listened at, and nobody is served."""
        if (self.lines, self.got) == (LINES[:1], [b""]):
            return 0
        count = len(self.lines)
        whole = self.lines == LINES[:count] and count < len(LINES) and self.got == [SERVED] * count
        return 2 * count if whole else None


def stopped_at(number, got):
    """A run whose connection of this number was stopped, and whose other one was served."""
    lines = [b"%d stopped\n" % number if line == LINES[number] else line for line in LINES]
    part = got[number - 1] if len(got) == 2 and SERVED.startswith(got[number - 1]) else SERVED
    return Served(0, lines, [part, SERVED] if number == 1 else [SERVED, part], b"")


class Serve:
    """`wst serve` over two connections, and the shim that refuses its memory."""

    def __init__(self, shim, wst):
        self.shim, self.wst = shim, wst

    def outcome(self, place):
        """Refuses the request with this number: the run, and whether a request was refused."""
        for _ in range(PORTS):
            served, was_refused = refusing(self.shim, place, self.run)
            if not served.could_not_listen():
                break
        return served, was_refused

    def run(self, **options):
        address = free_address()
        words = [self.wst, "serve", f"127.0.0.1:{address[1]}", "2"]
        pipes = {"stdin": subprocess.DEVNULL, "stdout": subprocess.PIPE, "stderr": subprocess.PIPE}
        with subprocess.Popen(words, **pipes, **options) as process:
            timer = Timer(SECONDS, process.kill)
            timer.start()
            try:
                lines, got = read_lines(process.stdout, address)
                return Served(process.wait(), lines, got, process.stderr.read())
            finally:
                timer.cancel()


def read_lines(output, address):
    """The lines of a run, and what two clients got, each of which comes as soon as the line before it is there."""
    lines, got = [], []
    while line := output.readline():
        lines.append(line.replace(b" on 127.0.0.1:%d" % address[1], b""))
        if len(got) < 2:
            got.append(answer_at(address))
    return lines, got


def answer_at(address):
    """What a client gets that sends all at once and waits for the end. It gets nothing where nobody listens any more."""
    got = b""
    try:
        with socket.create_connection(address, SECONDS) as client:
            client.sendall(SENT)
            while more := client.recv(65536):
                got += more
    except (ConnectionRefusedError, ConnectionResetError, BrokenPipeError):
        pass
    return got


def free_address():
    with socket.create_server(("127.0.0.1", 0)) as server:
        return server.getsockname()
