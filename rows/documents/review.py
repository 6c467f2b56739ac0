"""`docs/proof/REVIEW.md`: its units, the blocks that it quotes, and the examples and words that it names."""

import re
from dataclasses import dataclass, field

UNIT = re.compile(r"^## (\d+)\. (.*)$")
LINK_ALONE = re.compile(r"^\[[^\]]*\]\(([^)]+)\):?$")
EXAMPLES = re.compile(r"^Worked examples\b.*:$")
EXAMPLE = re.compile(r"^- \[`(\w+)`\]\(([^)]+)\): \S.*\.$")
NAME_LINK = re.compile(r"\[`(\w+)`\]\(([^)]+)\)")
CODE = re.compile(r"`([^`]+)`")


@dataclass
class Block:
    """A quoted block: the line of its fence, the file that the line above it links, or None, and its lines."""

    line: int
    file: str | None
    lines: list[str]


@dataclass
class Unit:
    """A unit: its line, its heading, its blocks, and the links of its worked examples, each of which has a line."""

    line: int
    heading: str
    blocks: list[Block] = field(default_factory=list)
    examples: list[tuple[str, str]] = field(default_factory=list)


@dataclass
class Review:
    units: list[Unit] = field(default_factory=list)
    links: list[tuple[str, str]] = field(default_factory=list)
    named: set[str] = field(default_factory=set)


def read_review(text):
    """The units of the page, and what its text links and names outside of blocks."""
    review, lines, above, at, listing = Review(), text.splitlines(), "", 0, False
    while at < len(lines):
        line = lines[at]
        if line.startswith("```"):
            end = lines.index("```", at + 1) if "```" in lines[at + 1 :] else len(lines)
            if line == "```antt" and review.units:
                link = LINK_ALONE.match(above)
                review.units[-1].blocks.append(Block(at + 1, link and link[1], lines[at + 1 : end]))
            at, above = end + 1, ""
            continue
        listing = bool(EXAMPLES.match(line)) or listing and (not line or line.startswith("- "))
        read_line(review, at + 1, line, listing)
        above = line or above
        at += 1
    return review


def read_line(review, number, line, listing):
    """A line outside of blocks; one that lists a worked example tells what it gives."""
    heading = UNIT.match(line)
    if heading:
        review.units.append(Unit(number, f"{heading[1]}. {heading[2]}"))
    links = NAME_LINK.findall(line)
    example = EXAMPLE.match(line)
    if listing and example and review.units:
        review.units[-1].examples.append((example[1], example[2]))
    review.links.extend(links)
    for code in CODE.findall(line):
        review.named |= set(re.findall(r"\w+", code))
