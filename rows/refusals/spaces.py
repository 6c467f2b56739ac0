"""Runs of `wst` with ever more memory in all, over inputs of some 300 kB where they read one: from so little that no
program begins to more than most of them need. What a command uses late, its stack among it, must not be missing where
it can't say so."""

import subprocess

from limits import SECONDS, SPACE
from shim import Ended

# The sizes, in KiB, of address space.
SIZES = range(3200, 7000, 12)

LARGE = 300_000
TEXT = b"a" * 150
SENT = bytes.fromhex("81fe009600000000") + TEXT  # of a client, whose key is zero
BACK = bytes.fromhex("817e0096") + TEXT
PING = bytes.fromhex("898400000000") + b"ping"
REQUEST = b"""GET / HTTP/1.1\r\nHost: localhost\r\nUpgrade: websocket\r\nConnection: Upgrade\r
Sec-WebSocket-Key: dGhlIHNhbXBsZSBub25jZQ==\r\nSec-WebSocket-Version: 13\r\n\r\n"""


def rounds(part):
    """A part as often as it goes into LARGE bytes."""
    return part * (LARGE // len(part))


STREAM = rounds(SENT + PING)
TURN = f"turn\n> {SENT.hex()}{PING.hex()}\n< {BACK.hex()}\n"
CAPTURE = f"wst-capture 2\nkey 00000000\n{rounds(TURN)}end tester\n".encode()
CALLS = rounds(f"take {SENT.hex()}{PING.hex()} -\n").encode()
MOVES = rounds(f"begin client text fin {TEXT.hex()} 00000000\narrive server 4294967295 -\n").encode()
SCRIPT = rounds(b'text "Hello"\n')
SHORT = SCRIPT[:65_000]

# What is run, and its status with enough memory: each command that uses no network. `send` and `test tung` want more
# than the most of SIZES over these inputs, and so have shorter ones too, over which they are whole at the end.
RUNS = [
    (["show"], STREAM, 0),
    (["show", "--capture"], CAPTURE, 0),
    (["head"], REQUEST, 0),
    (["judge"], CAPTURE, 1),
    (["judge", "--explain"], CAPTURE, 1),
    (["convert"], CAPTURE, 0),
    (["cases"], b"", 0),
    (["pair"], MOVES, 0),
    (["session", "--role", "server"], CALLS, 0),
    (["session", "--role", "server", "--echo"], CALLS, 0),
    (["send", "own"], SCRIPT, 0),
    (["send", "tung"], SCRIPT, 0),
    (["send", "own"], SHORT, 0),
    (["send", "tung"], SHORT, 0),
    (["send", "--capture", "own"], SCRIPT, 0),
    (["send", "--role", "client", "own"], SCRIPT, 0),
    (["send", "--role", "client", "tung"], SCRIPT, 0),
    (["test", "own", "1.*", "7.*"], b"", 0),
    (["test", "tung", "1.*", "7.*"], b"", 0),
    (["test", "tung", "1.1.1"], b"", 0),
    (["sweep", "--steps", "1", "own"], b"", 0),
    (["sweep", "--steps", "1", "tung"], b"", 0),
]


class Run:
    """A run of `wst` with these words over this input."""

    def __init__(self, wst, words, given):
        self.words, self.given = [wst, *words], given

    def within(self, size=None):
        """How a run ends with so many KiB of address space, or all."""
        limit = f"ulimit -v {size}; " if size else ""
        pipes = {"stdout": subprocess.PIPE, "stderr": subprocess.PIPE}
        words = ["sh", "-c", f'{limit}exec "$@"', "sh", *self.words]
        return subprocess.run(words, input=self.given, timeout=SECONDS, check=False, **pipes)


def failures_of_spaces(run, status, is_right, pool):
    """How many sizes were tried, and a text for each with which a run is not right. With SPACE and more it is whole or
    lacks memory, and is never stopped; with less the system may stop it, or not begin it."""
    whole = run.within()
    wanted = Ended(status, whole.stdout + whole.stderr)
    wrong = [] if whole.returncode == status else [f"with all memory: {whole.returncode} {whole.stderr[-80:]}"]
    for size, ran in zip(SIZES, pool.map(run.within, SIZES)):
        ended = Ended(ran.returncode, ran.stdout + ran.stderr)
        if not is_right(ended, wanted, whole.stdout) and (size * 1024 >= SPACE or ended.status in range(4)):
            wrong.append(f"in {size} KiB: {ended.status} {ended.text[-80:]}")
    return len(SIZES), wrong
