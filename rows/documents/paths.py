"""The paths through `docs/proof/REVIEW.md`: on which of the definitions that it quotes the words of a claim stand."""

import re
from dataclasses import dataclass, field

import definitions

# Each path by its name, with the words at which it ends, in the order of the page.
PATHS = {
    "session": ("HasTaken", "reply_to", "HasSomeExchange"),
    "headline": (
        "HasDelivered",
        "IsWholeWhereClean",
        "HasNothingAfterClose",
        "AtEachEnd",
        "both_limits",
        "HasPut",
        "HasReached",
        "HasStatus",
    ),
    "judge": ("IsVerdictOf",),
}

# How the minutes of a path are estimated: so many lines of definitions in one, in steps of five.
LINES_A_MINUTE = 10

HEADING = re.compile(r"^## (\d+)\. ")


@dataclass
class Quoted:
    """A definition that is quoted: the number of its unit, the text of its file, and its lines."""

    unit: int
    text: str
    lines: list = field(default_factory=list)

    def uses(self):
        """The definitions that it uses; a name that it binds is none of them."""
        return definitions.words_of(self.lines, self.text)[0] - definitions.bound_names(self.lines)


def quoted_in(review, read):
    """The definitions that the units quote, by their names, in the order of the page."""
    found = {}
    for unit in review.units:
        for block in unit.blocks:
            text, name = read(block.file) if block.file else "", None
            for line in block.lines:
                if not line.strip() or line.lstrip().startswith("--"):
                    continue
                match = definitions.DEFINED.match(line)
                if match and match[1] not in definitions.NO_NAMES:
                    name = match[1]
                if name:
                    it = found.setdefault(name, Quoted(int(unit.heading.split(".")[0]), text))
                    it.lines.append(line)
    return found


def stands_on(quoted, words):
    """The definitions on which these words stand, and these."""
    found, left = set(), list(words)
    while left:
        name = left.pop()
        if name in quoted and name not in found:
            found.add(name)
            left += quoted[name].uses()
    return found


def with_paths(text, review, read):
    """The page with its lines about paths as they must be: one in each unit, and a row for each path."""
    quoted = quoted_in(review, read)
    paths = {name: stands_on(quoted, words) for name, words in PATHS.items()}
    rows = rows_of(quoted, paths)
    lines, unit = text.split("\n"), None
    for at, line in enumerate(lines):
        heading = HEADING.match(line)
        unit = int(heading[1]) if heading else unit
        row = re.match(r"^\| (\w+) \| .*", line)
        if line.startswith("Paths: "):
            lines[at] = line_of(unit, quoted, paths)
        elif row and unit is None and row[1] in rows:
            lines[at] = "|".join([*line.split("|")[:4], *rows[row[1]]])
    return "\n".join(lines)


def line_of(unit, quoted, paths):
    """On which paths a unit lies, and what of it isn't needed there."""
    parts = []
    inside = [name for name, it in quoted.items() if it.unit == unit]
    for path, names in paths.items():
        needed = [name for name in inside if name in names]
        left_out = [name for name in inside if name not in names]
        if len(needed) < len(left_out):
            parts += [f"{path}: {quoted_words(needed)} alone"] if needed else []
        else:
            parts.append(f"{path} without {quoted_words(left_out)}" if left_out else path)
    return f"Paths: {'; '.join(parts) or 'none of the three'}."


def quoted_words(names):
    return ", ".join(f"`{name}`" for name in names)


def rows_of(quoted, paths):
    """The last cells of the row of each path: how many units, definitions, definitions that no path above has, and
    lines it has, and the minutes."""
    rows, above = {}, set()
    for path, names in paths.items():
        units = {quoted[name].unit for name in names}
        lines = sum(len(quoted[name].lines) for name in names)
        minutes = -(-lines // (5 * LINES_A_MINUTE)) * 5
        rows[path] = [f" {count} " for count in (len(units), len(names), len(names - above), lines, minutes)] + [""]
        above |= names
    return rows
