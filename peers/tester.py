"""Runs of `wst test` against one peer, bounded in time and count."""

import hashlib
import shlex
import subprocess
import time
from dataclasses import dataclass, field
from pathlib import Path

from peer import ROOT, START_SECONDS, Running, listening

LAUNCHER, PROGRAM = str(ROOT / "wst"), str(ROOT / "crates/wst/out/wst")
MAKE_SECONDS = 7200  # the launcher proves and builds the program where it isn't built
TIMEOUT = ["--timeout", "2"]
PROTOCOL = ["--expect", "protocol", "--timeout", "1"]
SILENCE = 15  # seconds: a case that has no line by then has no verdict
MOST_SECONDS = 900  # of one peer
MOST_RUNS = 50  # of `wst test` for one peer: a case without a verdict ends one
MOST_SWEEP_SECONDS = 180  # of the sweep of one server


@dataclass
class Score:
    """What came of one peer: (case, verdict, seconds) in the order in which they ended, and the seconds of all."""

    lines: list = field(default_factory=list)
    seconds: float = 0.0

    def count(self, word):
        return sum(verdict.split()[0] == word for _, verdict, _ in self.lines)

    def in_short(self):
        return ", ".join(f"{self.count(word)} {word.lower()}" for word in ("PASS", "LOOSE", "FAIL"))

    def longest(self):
        return max(self.lines, key=lambda line: line[2])

    def left_of(self, cases):
        told = {case for case, _, _ in self.lines}
        return [case for case in cases if case not in told]


@dataclass
class Sweep:
    """What a sweep of a server told: (verdict, steps) of each script that is a FAIL, the line of the total, which is
    empty where there was no time for it, and the seconds of all."""

    fails: list = field(default_factory=list)
    total: str = ""
    seconds: float = 0.0

    def in_short(self):
        return self.total or "no total"

    def counts(self):
        """How many scripts were tried, and how many of them are a PASS, a LOOSE and a FAIL."""
        return [word for word in self.total.replace(":", "").split() if word.isdigit()]


def ask(*words):
    """What the program answers to words that run no case; it is built first where it isn't."""
    told = subprocess.run([LAUNCHER, *words], stdout=subprocess.PIPE, text=True, check=True, timeout=MAKE_SECONDS)
    return told.stdout


def build():
    """How the program was built: proved, from the sources as they stand, where its stamp says so; else nobody knows. A
    build with checks in its code, as `./try` makes one, is many times as slow."""
    is_built = f"root={shlex.quote(str(ROOT))}; . tools/built.sh; is_built wst"
    known = subprocess.run(["sh", "-c", is_built], cwd=ROOT, timeout=60).returncode == 0
    name = hashlib.sha256(Path(PROGRAM).read_bytes()).hexdigest()[:12]
    how = "proved and built from the sources as they stood" if known else "NOT by its stamp the proved build of the sources"
    return f"{how} (its SHA-256 begins with `{name}`)"


def all_cases():
    return [line.split()[0] for line in ask("cases").splitlines()]


def try_server(peer, cases):
    return try_peer(peer, cases, run_server)


def try_application(peer, cases):
    return try_peer(peer, cases, run_application)


def try_client(peer, cases):
    return try_peer(peer, cases, run_client)


def try_peer(peer, cases, run):
    """Runs the cases. Behind one that has no verdict the others go on in a run of their own."""
    score = Score()
    began = time.monotonic()
    for _ in range(MOST_RUNS):
        left = score.left_of(cases)
        if not left or time.monotonic() - began > MOST_SECONDS:
            break
        run(score, peer, left)
    score.lines += [(case, "not run", 0.0) for case in score.left_of(cases)]
    return score


def run_server(score, peer, cases):
    run_listener(score, peer, "server", TIMEOUT, cases)


def run_application(score, peer, cases):
    run_listener(score, peer, "application", PROTOCOL, cases)


def run_listener(score, peer, part, options, cases):
    with listening(peer, part) as port:
        with Running([PROGRAM, "test", *options, f"127.0.0.1:{port}", *cases], "tester.log") as tester:
            read_verdicts(score, tester, cases)


def run_client(score, peer, cases):
    words = [PROGRAM, "test", "--role", "client", *TIMEOUT, "127.0.0.1:0", *cases]
    with Running(words, "tester.log") as tester:
        address = (tester.line(START_SECONDS) or "").removeprefix("listening on ")
        if not address:
            raise OSError("wst listens for no client")
        with Running([*peer.command("client"), f"ws://{address}"], f"{peer.name}-client.log") as client:
            read_verdicts(score, tester, cases)
            if score.left_of(cases) and client.process.poll():
                raise OSError(f"it ended with status {client.process.poll()}")


def sweep_server(peer):
    """All scripts of two steps and fewer, at one server."""
    sweep = Sweep()
    began = time.monotonic()
    with listening(peer) as port:
        with Running([PROGRAM, "sweep", "--steps", "2", *TIMEOUT, f"127.0.0.1:{port}"], "tester.log") as tester:
            try:
                read_sweep(sweep, tester, began + MOST_SWEEP_SECONDS)
            except TimeoutError:
                pass  # there is no total then
    sweep.seconds = time.monotonic() - began
    return sweep


def read_sweep(sweep, tester, until):
    """Adds the lines of a sweep. TimeoutError where it goes on for longer."""
    while line := tester.line(until - time.monotonic()):
        verdict, is_script, steps = line.partition(": ")
        if verdict.startswith("FAIL") and is_script:
            sweep.fails.append((verdict, steps))
        else:
            sweep.total = line


def read_verdicts(score, tester, cases):
    """Adds a line for each case, up to one without a verdict."""
    began = last = time.monotonic()
    while left := score.left_of(cases):
        try:
            line = tester.line(SILENCE)
        except TimeoutError:
            line = f"{left[0]} no verdict in {SILENCE} s"
        case, _, verdict = (line or f"{left[0]} no line").partition(" ")
        if case not in left:
            continue
        now = time.monotonic()
        score.lines.append((case, verdict, now - last))
        last = now
        if verdict.startswith("no "):
            break
    score.seconds += time.monotonic() - began
