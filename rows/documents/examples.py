"""The bytes that a worked example is told with, and those of the theorems."""

import re

from review import EXAMPLE

TOLD = re.compile(r"`([0-9a-f]{2}(?: [0-9a-f]{2})+)`")
ITEM = re.compile(r'codes "((?:[^"\\]|\\.)*)"|\b0x([0-9a-f]+)\b|(?<![\w.])(\d+)(?=[ )]*∷)')


def examples_in(page):
    """Each worked example of the page: its name, its file, and the runs of two bytes and more that it is told with."""
    for line in page.splitlines():
        match = EXAMPLE.match(line)
        if match:
            yield match[1], match[2], TOLD.findall(line)


def bytes_in(text):
    """The bytes of the lists and texts in a file of theorems, in pairs of digits."""
    return " ".join(byte for match in ITEM.finditer(text) for byte in bytes_of(match))


def bytes_of(match):
    if match[1] is None:
        number = int(match[2], 16) if match[2] else int(match[3])
        return [f"{number:02x}"]
    text = match[1].encode().decode("unicode_escape")
    return [".", *(f"{ord(letter):02x}" for letter in text), "."]
