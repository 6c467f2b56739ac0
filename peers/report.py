"""The page of all peers, by `wst report`. It is no part of the repository: it stands in out/peers."""

import subprocess

from peer import OUT
from tester import PROGRAM

PAGE = OUT / "report.html"


def write(parts):
    """Writes the page of what was tried: for each part, servers, applications or clients, (peer, score) of each peer."""
    lines = "".join(f"# {name_of(peer, part)}\n{lines_of(score)}" for part, tried in parts for peer, score in tried)
    page = subprocess.run([PROGRAM, "report"], input=lines, stdout=subprocess.PIPE, text=True, check=True, timeout=60)
    PAGE.write_text(page.stdout)


def name_of(peer, part):
    return peer.name if part == "server" else f"{peer.name} ({part})"


def lines_of(score):
    """A line for each case that has a verdict."""
    return "".join(f"{case} {verdict}\n" for case, verdict, _ in score.lines if is_verdict(verdict))


def is_verdict(words):
    return words == "no connection" or not words.startswith(("no ", "not "))
