"""Files of rows: what they say, line by line. How they are written stands in rows/README.md."""

import re
from dataclasses import dataclass, field
from pathlib import Path

from runner.byte_texts import BadBytes, read_bytes

HEADINGS = ("row", "calls", "session")
VALUES = ("words", "input", "cuts", "output", "columns", "faults", "status", "stdin", "stdout", "stderr")
OF_CALLS = ("memory", "each")
KEY = re.compile(r"([a-z]+):(?: (.*))?$")
DEFINITION = re.compile(r"([A-Z][A-Z_]*) (.*)$")


class BadFile(ValueError):
    """A file is not one of rows."""


@dataclass
class Entry:
    """What stands below one heading: a run of `wst`, single calls, or the calls of one session."""

    file: Path
    line: int
    kind: str
    name: str
    names: dict
    values: dict = field(default_factory=dict)
    lines: list = field(default_factory=list)

    def bytes_of(self, text):
        try:
            return read_bytes(text, self.names, self.file.parent)
        except (BadBytes, OSError) as error:
            raise BadFile(f"{self.file}:{self.line}: {error}") from None

    def value(self, key):
        """The bytes that a key of the row gives, none where it is missing."""
        return b"".join(self.bytes_of(part) if inline else part.encode() for inline, part in self.values.get(key, []))


def read_file(file):
    """The entries of a file, in order."""
    entries, names, key = [], {}, None
    for number, line in enumerate(file.read_text(encoding="utf-8").split("\n"), 1):
        where = f"{file}:{number}"
        if line.startswith("  ") and entries and key:
            add_line(entries[-1], key, line[2:], number)
            continue
        if not line.strip() or line.startswith("#"):
            continue
        found = KEY.match(line)
        if not found:
            raise BadFile(f"{where}: neither a key nor a line below one: {line}")
        key, text = found[1], found[2]
        if key == "define":
            define(names, text or "", file, where)
        elif key in HEADINGS:
            entries.append(Entry(file, number, key, text or "", dict(names)))
        elif entries and key in {"row": VALUES, "calls": OF_CALLS}.get(entries[-1].kind, ()):
            entries[-1].values.setdefault(key, []).extend([(True, text)] if text else [])
        else:
            raise BadFile(f"{where}: no such key here: {key}")
    return entries


def add_line(entry, key, text, number):
    """A line below a key: a call below calls or a session, and a line of text below a value of a row."""
    if entry.kind == "row":
        entry.values.setdefault(key, []).append((False, text + "\n"))
    elif not text.startswith("#"):
        entry.lines.append((number, text))


def define(names, text, file, where):
    """Gives a name to bytes, for the lines that follow. A name that stands already goes on."""
    found = DEFINITION.match(text)
    if not found:
        raise BadFile(f"{where}: a definition is a name in capitals and bytes")
    try:
        names[found[1]] = names.get(found[1], b"") + read_bytes(found[2], names, file.parent)
    except (BadBytes, OSError) as error:
        raise BadFile(f"{where}: {error}") from None
