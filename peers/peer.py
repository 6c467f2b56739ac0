"""The peers: what they are, how their programs are built and started."""

import os
import select
import signal
import socket
import subprocess
import time
from contextlib import contextmanager
from dataclasses import dataclass
from pathlib import Path

FOLDER = Path(__file__).resolve().parent
ROOT = FOLDER.parent
OUT = ROOT / "out/peers"  # built programs, and a log of each peer's fault output
BUILD_SECONDS = 300
START_SECONDS = 20

PYTHON, NODE, PERL = ["/usr/bin/python3"], ["node"], ["perl"]  # Debian's Python, which has Debian's modules
GO = ["go", "build", "-o"]
C, CPP = ["cc", "-O1", "-Wall", "-o"], ["c++", "-std=c++14", "-O1", "-Wall", "-o"]
ENVIRONMENT = {
    **os.environ,
    "NODE_PATH": "/usr/share/nodejs",
    "GO111MODULE": "off",
    "GOPATH": "/usr/share/gocode",
    "GOCACHE": str(OUT / "go"),
    "PYTHONDONTWRITEBYTECODE": "1",
}


@dataclass
class Peer:
    """A library: the name of its folder, Debian's package, the ending of its sources, what runs or builds these. A
    server that waits on at nearly each fault isn't swept: each wait takes two seconds."""

    name: str
    package: str
    ending: str
    runs: tuple = ()
    builds: tuple = ()
    libraries: tuple = ()
    is_swept: bool = True

    def has(self, part):
        return self.source(part).exists()

    def source(self, part):
        """The file of its `server`, `application` or `client`."""
        return FOLDER / self.name / f"{part}.{self.ending}"

    def version(self):
        """The version of its package, or None where that isn't installed."""
        told = subprocess.run(
            ["dpkg-query", "-W", "-f", "${db:Status-Status} ${Version}", self.package], capture_output=True, text=True
        )
        status, _, version = told.stdout.partition(" ")
        return version if status == "installed" else None

    def command(self, part):
        """The words that run its part of this name; it is built first where its folder has changed."""
        if self.runs:
            return [*self.runs, str(self.source(part))]
        program = OUT / f"{self.name}-{part}"
        newest = max(file.stat().st_mtime for file in self.source(part).parent.iterdir())
        if not program.exists() or program.stat().st_mtime < newest:
            OUT.mkdir(parents=True, exist_ok=True)
            words = [*self.builds, str(program), str(self.source(part)), *self.libraries]
            subprocess.run(words, env=ENVIRONMENT, check=True, timeout=BUILD_SECONDS)
        return [str(program)]


PEERS = [
    Peer("websockets", "python3-websockets", "py", runs=PYTHON),
    Peer("wsproto", "python3-wsproto", "py", runs=PYTHON),
    Peer("autobahn", "python3-autobahn", "py", runs=PYTHON),
    Peer("tornado", "python3-tornado", "py", runs=PYTHON),
    Peer("aiohttp", "python3-aiohttp", "py", runs=PYTHON),
    Peer("websocket-client", "python3-websocket", "py", runs=PYTHON),
    Peer("ws", "node-ws", "js", runs=NODE),
    Peer("faye", "node-faye-websocket", "js", runs=NODE),
    Peer("mojolicious", "libmojolicious-perl", "pl", runs=PERL, is_swept=False),
    Peer("gorilla", "golang-github-gorilla-websocket-dev", "go", builds=GO),
    Peer("nhooyr", "golang-nhooyr-websocket-dev", "go", builds=GO),
    Peer("beast", "libboost-dev", "cpp", builds=CPP, libraries=["-pthread"]),
    Peer("websocketpp", "libwebsocketpp-dev", "cpp", builds=CPP, libraries=["-pthread"]),
    Peer("libwebsockets", "libwebsockets-dev", "c", builds=C, libraries=["-lwebsockets"]),
]


class Running:
    """A process in a group of its own, which ends with the block; its fault output goes into a log."""

    def __init__(self, words, log):
        OUT.mkdir(parents=True, exist_ok=True)
        with open(OUT / log, "ab") as faults:
            self.process = subprocess.Popen(
                words,
                stdin=subprocess.DEVNULL,
                stdout=subprocess.PIPE,
                stderr=faults,
                env=ENVIRONMENT,
                start_new_session=True,
            )
        self.buffer = b""

    def __enter__(self):
        return self

    def __exit__(self, *_):
        if self.process.poll() is None:
            os.killpg(self.process.pid, signal.SIGKILL)
        self.process.wait()
        self.process.stdout.close()

    def line(self, seconds):
        """The next line of its output; None at the end of that. TimeoutError where for so long none came."""
        until = time.monotonic() + seconds
        while b"\n" not in self.buffer:
            left = until - time.monotonic()
            if left <= 0 or not select.select([self.process.stdout], [], [], left)[0]:
                raise TimeoutError(f"no line in {seconds} s")
            piece = os.read(self.process.stdout.fileno(), 65536)
            if not piece:
                return None
            self.buffer += piece
        line, _, self.buffer = self.buffer.partition(b"\n")
        return line.decode(errors="replace")


@contextmanager
def listening(peer, part="server"):
    """The port of a server of this peer, which ends with the block."""
    port = free_port()
    with Running([*peer.command(part), str(port)], f"{peer.name}-{part}.log") as server:
        if server.line(START_SECONDS) is None:
            raise OSError(f"{peer.name} ended before it listened")
        yield port


def free_port():
    with socket.socket() as probe:
        probe.bind(("127.0.0.1", 0))
        return probe.getsockname()[1]
