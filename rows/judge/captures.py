"""Captures once more, read and written by docs/FORMATS.md, and not from the program."""

import re

# The lines that there are, and which of them may follow which in each format.
LINES = {
    "first": re.compile(rb"wst-capture [12]"),
    "key": re.compile(rb"key (?:-|[0-9a-f]{8})"),
    "turn": re.compile(rb"turn"),
    "sent": re.compile(rb"> (?:[0-9a-f]{2})+"),
    "got": re.compile(rb"< (?:[0-9a-f]{2})+"),
    "end": re.compile(rb"end (?:peer|tester)"),
    "broken": re.compile(rb"end broken"),
}
FOLLOWING = {
    b"1": {
        "first": ["sent", "got", "end"],
        "sent": ["sent", "got", "end"],
        "got": ["sent", "got", "end"],
        "end": [],
    },
    b"2": {
        "first": ["key"],
        "key": ["turn", "end", "broken"],
        "turn": ["turn", "sent", "got", "end", "broken"],
        "sent": ["turn", "got", "end", "broken"],
        "got": ["turn", "end", "broken"],
        "end": [],
        "broken": [],
    },
}


class Damaged(ValueError):
    """A text is no capture: the least number such that the lines up to it begin none."""


def kinds_of(lines):
    """The kind of each line but the last, which is what stands behind the last LF: nothing."""
    last, kinds, following = None, [], {None: ["first"]}
    for number, line in enumerate(lines[:-1], 1):
        last = kind_of(line, following[last])
        if last is None:
            raise Damaged(number)
        if last == "first":
            following = FOLLOWING[line[-1:]]
        kinds.append(last)
    if lines[-1] or following[last]:
        raise Damaged(len(lines))
    return kinds


def kind_of(line, kinds):
    """The one of these kinds that the line is of, if any."""
    for kind in kinds:
        if LINES[kind].fullmatch(line):
            return kind
    return None


def read_capture(text):
    """The turns of a capture, each what was sent and what was got in it, and its end. In format 1 a turn begins with
    the first line, and with what was sent after what was got."""
    lines = text.split(b"\n")
    kinds = kinds_of(lines)
    turns, last = [], None
    for kind, line in zip(kinds, lines):
        if kind == "turn" or (last, kind) in (("first", "sent"), ("first", "got"), ("got", "sent")):
            turns.append(([], []))
        if kind in ("sent", "got"):
            turns[-1][kind == "got"].append(line.split(b" ")[1])
        last = kind
    joined = [tuple(bytes.fromhex(b"".join(parts).decode()) for parts in turn) for turn in turns]
    return joined, lines[len(kinds) - 1].split(b" ")[1].decode()


def written(turns, end):
    """The lines of a transcript in format 1, which has no word for a connection that broke."""
    lines = ["wst-capture 1"]
    for sent, got in turns:
        lines += [f"> {sent.hex()}"] if sent else []
        lines += [f"< {got.hex()}"] if got else []
    return "\n".join([*lines, f"end {'tester' if end == 'tester' else 'peer'}", ""]).encode()
