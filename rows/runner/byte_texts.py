"""Bytes as a person writes them in a row.

    81 05 0a0b              pairs of hexadecimal digits, with or without spaces
    "Hello\\r\\n"             text; \\n \\r \\t \\0 \\\\ \\" and \\xHH as in Rust
    16*2a   3*(8a 00)       what follows, so many times
    changed(X, "a", "b")    X with each "a" in it replaced by "b"
    counted(3, 0, 2, "# ")  the last of these three times, with 0, 2, 4 in the place of each #
    first(2, X)             the first two bytes of X; behind(2, X) those behind them
    @head.txt               the bytes of a file beside the file of rows
    REQUEST                 a name that a line 'define: REQUEST ..' gave above
"""

import re

TOKEN = re.compile(
    r"""\s*(?:(?P<text>"(?:[^"\\]|\\.)*")|(?P<times>[0-9]+)\*|(?P<call>changed|counted|first|behind)\("""
    r"""|(?P<mark>[(),])|@(?P<file>[^\s(),]+)|(?P<name>[A-Z][A-Z_]*)|(?P<pairs>(?:[0-9a-f]{2})+))"""
)
COUNT = re.compile(r"\s*([0-9]+)\s*,")
ESCAPE = re.compile(r"""\\(?:x(?P<hex>[0-9a-f]{2})|(?P<one>.))""")
ESCAPED = {"n": "\n", "r": "\r", "t": "\t", "0": "\0", "\\": "\\", '"': '"'}


class BadBytes(ValueError):
    """What is written is not bytes."""


def read_bytes(text, names, folder):
    """The bytes that the text spells, with the names that are defined and the folder of its files."""
    reader = Reader(text, names, folder)
    value = reader.read_all()
    if reader.rest():
        raise BadBytes(f"not bytes: {reader.rest()}")
    return value


class Reader:
    """Reads one text from its front."""

    def __init__(self, text, names, folder):
        self.text, self.at, self.names, self.folder = text, 0, names, folder

    def rest(self):
        return self.text[self.at :].strip()

    def next(self):
        """The next token, past which the reader goes."""
        found = TOKEN.match(self.text, self.at)
        if not found:
            raise BadBytes(f"not bytes: {self.rest()}")
        self.at = found.end()
        return found

    def read_all(self):
        """One part after the other, up to a mark that ends them."""
        parts = []
        while self.rest() and self.rest()[0] not in "),":
            parts.append(self.read_part())
        return b"".join(parts)

    def read_part(self):
        found = self.next()
        kind = found.lastgroup
        if kind == "text":
            return unescaped(found["text"][1:-1])
        if kind == "times":
            return int(found["times"]) * self.read_part()
        if kind == "pairs":
            return bytes.fromhex(found["pairs"])
        if kind == "file":
            return (self.folder / found["file"]).read_bytes()
        if kind == "call":
            return self.read_call(found["call"])
        if kind == "name" and found["name"] in self.names:
            return self.names[found["name"]]
        if found["mark"] == "(":
            value = self.read_all()
            self.expect(")")
            return value
        raise BadBytes(f"not bytes: {found[0].strip()}")

    def read_call(self, name):
        if name in ("first", "behind"):
            return self.read_part_of(name)
        return self.read_changed() if name == "changed" else self.read_counted()

    def read_part_of(self, name):
        """The first bytes of the last in parentheses, or those behind them: how many, and the bytes."""
        size = self.read_count()
        whole = self.read_all()
        self.expect(")")
        if size > len(whole):
            raise BadBytes(f"no {size} bytes stand in {whole!r}")
        return whole[:size] if name == "first" else whole[size:]

    def read_changed(self):
        """The bytes in parentheses, the first with each second in it replaced by the third."""
        whole = self.read_all()
        self.expect(",")
        old = self.read_all()
        self.expect(",")
        new = self.read_all()
        self.expect(")")
        if old not in whole:
            raise BadBytes(f"nothing to change: {old!r} does not stand in {whole!r}")
        return whole.replace(old, new)

    def read_counted(self):
        """The last of four in parentheses, so many times, each # in it a number: the first number, and its step."""
        times, start, step = (self.read_count() for _ in range(3))
        text = self.read_all()
        self.expect(")")
        return b"".join(text.replace(b"#", b"%d" % (start + step * at)) for at in range(times))

    def read_count(self):
        found = COUNT.match(self.text, self.at)
        if not found:
            raise BadBytes(f"a number and a comma are missing before: {self.rest()}")
        self.at = found.end()
        return int(found[1])

    def expect(self, mark):
        if self.next()["mark"] != mark:
            raise BadBytes(f"'{mark}' is missing before: {self.rest()}")


def unescaped(text):
    """The bytes of a text between quotation marks."""
    parts, at = [], 0
    for found in ESCAPE.finditer(text):
        parts.append(text[at : found.start()].encode())
        if found["hex"]:
            parts.append(bytes.fromhex(found["hex"]))
        elif found["one"] in ESCAPED:
            parts.append(ESCAPED[found["one"]].encode())
        else:
            raise BadBytes(f"no such escape: {found[0]}")
        at = found.end()
    return b"".join([*parts, text[at:].encode()])
