"""The page docs/SCORES.md: tables of counts, and a sentence for what isn't PASS."""

from fnmatch import fnmatchcase
from itertools import groupby

from peer import FOLDER
from tester import PROTOCOL, TIMEOUT

REMARKS, SWEEPS = FOLDER / "remarks.txt", FOLDER / "sweeps.txt"
NO_SENTENCE = "(no sentence in peers/ yet)"
HEAD = """\
# Scores of real peers

Written by `peers/run`, with `{version}`, {build}. It ran the {count} cases with `{timeout}` against an echo over each \
library as Debian packages it: over loopback, without compression, with messages of at most 16777216 bytes. \
[peers/README.md](../peers/README.md) says how to run it, [VERDICTS.md](VERDICTS.md) what the verdicts mean, and \
[CASES.md](CASES.md) what a case sends. These are the results of one day; no test compares them.

Applications don't echo: each greets, sends a ping, and answers messages with others. They are tested with \
`{protocol}`.

A FAIL breaks a rule of RFC 6455 or, at an echo, one of ours; its sentence says which. A LOOSE is no violation: the \
RFC allows it, or what was received is inconclusive. If a peer closes its socket with bytes unread (single bytes, or a \
ping behind a close, as in 7.1.6), the reset can lose what it had sent: PASS in one run, LOOSE or FAIL in the next. `A \
to B` means all cases from A to B, in the order of `wst cases`. The longest case is the one whose line took longest to \
appear.
"""
TABLE = """
## {kind}s

| {kind} | Version | Pass | Loose | Fail | No verdict | Seconds | Longest case |
|---|---|---|---|---|---|---|---|
"""
SWEEP_TABLE = """
## Sweeps

`wst sweep --steps 2 {timeout}` at the same servers, except mojolicious, which keeps waiting at nearly each violation. \
It runs every script of at most two steps out of 27, and adds a close frame if a script has sent neither a close nor a \
violation. For each kind of FAIL, a line below the table says in how many scripts it occurs, and the first of these, \
one of the shortest.

| Server | Scripts | Pass | Loose | Fail | Seconds |
|---|---|---|---|---|---|
"""


def page_of(version, build, order, parts, sweeps):
    """The page: of which version the program is, and how it was built. Parts are (kind, list of (peer, Score)), sweeps (peer, Sweep), the order is that of all cases."""
    timeout = " ".join(TIMEOUT)
    told = HEAD.format(
        version=version, build=build, timeout=timeout, protocol=" ".join(PROTOCOL), count=len(order)
    )
    for kind, scores in parts:
        told += TABLE.format(kind=kind.capitalize())
        told += "".join(row_of(peer, score) for peer, score in scores)
        told += "".join(part_of(peer, remarked(peer, kind), score, order) for peer, score in scores)
    told += SWEEP_TABLE.format(timeout=timeout)
    told += "".join(sweep_row_of(peer, sweep) for peer, sweep in sweeps)
    told += "\n"
    return told + "".join(sweep_part_of(peer, sweep) for peer, sweep in sweeps)


def row_of(peer, score):
    counts = [score.count(word) for word in ("PASS", "LOOSE", "FAIL")]
    case, _, seconds = score.longest()
    cells = [peer.name, peer.version(), *counts, len(score.lines) - sum(counts)]
    return f"| {' | '.join(map(str, cells))} | {score.seconds:.1f} | {seconds:.2f} s, {case} |\n"


def remarked(peer, kind):
    """The name of a peer in the remarks: what is said of an echo isn't said of an application."""
    return f"{peer.name}-application" if kind == "application" else peer.name


def part_of(peer, name, score, order):
    """What isn't PASS of a peer, which has this name in the remarks: a line for each verdict and sentence."""
    found = {}
    for case, verdict, _ in score.lines:
        if verdict != "PASS":
            found.setdefault((verdict, sentence_of(REMARKS, name, verdict, case)), []).append(case)
    ordered = sorted(found.items(), key=lambda item: item[0][0])
    lines = [f"- `{verdict}` at {in_short(cases, order)}: {told}\n" for (verdict, told), cases in ordered]
    return f"\n### {peer.name}\n\n" + ("".join(lines) or "All pass.\n")


def sweep_row_of(peer, sweep):
    cells = sweep.counts() or ["not all", "-", "-", len(sweep.fails)]
    return f"| {peer.name} | {' | '.join(map(str, cells))} | {sweep.seconds:.1f} |\n"


def sweep_part_of(peer, sweep):
    """The FAILs of a server in a sweep: a line for each verdict and sentence."""
    found = {}
    for verdict, steps in sweep.fails:
        found.setdefault((verdict, sentence_of(SWEEPS, peer.name, verdict, steps)), []).append(steps)
    return "".join(
        f"- {peer.name}: `{verdict}` in {len(scripts)}, first `{scripts[0]}`: {told}\n"
        for (verdict, told), scripts in found.items()
    )


def without_sentence(parts, sweeps):
    """(peer, case or script) of each FAIL about which no sentence is told."""
    fails = [
        (REMARKS, remarked(peer, kind), verdict, case)
        for kind, tried in parts
        for peer, score in tried
        for case, verdict, _ in score.lines
    ]
    fails += [(SWEEPS, peer.name, *fail) for peer, sweep in sweeps for fail in sweep.fails]
    return [
        (name, what)
        for file, name, verdict, what in fails
        if verdict.startswith("FAIL") and sentence_of(file, name, verdict, what) == NO_SENTENCE
    ]


def remarks(file):
    """(peers, verdicts, cases or scripts, sentence) of each remark, the first three as lists of patterns."""
    lines = [line for line in file.read_text().splitlines() if line and not line.startswith("#")]
    found = []
    for line in lines:
        if line.startswith(" "):
            found[-1][-1].append(line.strip())
        else:
            peers, verdict, what = (cell.strip() for cell in line.split("|"))
            found.append((peers.split(), [verdict], what.split() if file == REMARKS else [what], []))
    return [(*words, " ".join(sentence)) for *words, sentence in found]


def sentence_of(file, name, verdict, what):
    for *patterns, sentence in remarks(file):
        if all(map(fits_one, (name, verdict, what), patterns)):
            return sentence
    return NO_SENTENCE


def fits_one(word, patterns):
    return any(fnmatchcase(word, pattern) for pattern in patterns)


def in_short(cases, order):
    """Cases in words: three or more that follow one another in the order of all as the first and the last."""
    places = sorted(order.index(case) for case in cases)
    told = []
    for _, run in groupby(enumerate(places), lambda pair: pair[1] - pair[0]):
        run = [order[place] for _, place in run]
        told += [f"{run[0]} to {run[-1]}"] if len(run) > 2 else run
    return ", ".join(told)
