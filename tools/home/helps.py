"""What the program says of itself: its commands, their arguments and options, the texts of its help, and its cases."""

import re
import subprocess
from dataclasses import dataclass

ENTRY = re.compile(r"^ {2,6}(?:(-\w), )?(--[\w-]+)(?: <([^>]+)>)?(?:  +(.*))?$")
WORD = re.compile(r"^ {2}[<\[]([^>\]]+)[>\]](\.\.\.)?(?:  +(.*))?$")
LISTED = re.compile(r"^  (\S+)  +(.*)$")
HEADING = re.compile(r"^([A-Z][\w ]*):$")
NAMED = re.compile(r"`([a-z]{2,})`")


class Failure(Exception):
    """The program says of itself what is not understood here."""


@dataclass(frozen=True)
class Argument:
    """An argument of a command, or an option. `words` are what it may be, as far as help names that in marks of code.
    `heading` is the title of the list in which help has it."""

    name: str
    short: str
    value: str
    is_many: bool
    heading: str
    help: str
    words: tuple

    @property
    def is_option(self):
        return self.name.startswith("--")

    @property
    def takes_case(self):
        return self.value == "ID"


@dataclass(frozen=True)
class Command:
    """A command. `about` is a line, and `end` the lines of text after its options."""

    name: str
    about: str
    usage: str
    arguments: tuple
    options: tuple
    end: tuple


@dataclass(frozen=True)
class Program:
    version: str
    whole: Command
    commands: tuple
    cases: tuple


def read_program(path):
    """What the program at this path says of itself."""
    return program_of(lambda *words: said(path, *words))


def program_of(says):
    """A program by what it prints for its arguments."""
    text = says("--help")
    named = [match[1] for match in map(LISTED.match, part_of(text, "Commands")) if match]
    commands = [command_of(name, says(name, "--help")) for name in named if name != "help"]
    cases = [line.split()[0] for words in ([], ["x*"]) for line in says("cases", *words).splitlines()]
    if not commands or not cases:
        raise Failure("it lists no commands or no cases")
    return Program(says("--version").split()[1], command_of("", text), tuple(commands), tuple(cases))


def said(path, *words):
    ran = subprocess.run([path, *words], stdin=subprocess.DEVNULL, capture_output=True, text=True, timeout=60)
    if ran.returncode != 0 or not ran.stdout:
        raise Failure(f"'{' '.join(words)}' gives status {ran.returncode}: {ran.stderr.strip()}")
    return ran.stdout


def command_of(name, text):
    """A command by the text of its help: a sentence, its usage, lists of arguments and options, and more text."""
    lines = text.splitlines()
    usage = next((line for line in lines if line.startswith("Usage: ")), None)
    if usage is None or "Options:" not in lines:
        raise Failure(f"no usage or no options in the help of '{name}'")
    options, end = options_of(lines[lines.index("Options:") :])
    return Command(
        name,
        lines[0],
        usage.removeprefix("Usage: "),
        tuple(arguments_in(part_of(text, "Arguments"), WORD, "Arguments")),
        tuple(options),
        tuple(without_edges(end)),
    )


def options_of(lines):
    """The options of the lists with which some lines begin, and the lines after these lists."""
    found, at = [], 0
    while at + 1 < len(lines) and HEADING.match(lines[at]) and ENTRY.match(lines[at + 1]):
        end = next((n for n in range(at, len(lines)) if not lines[n]), len(lines))
        found += arguments_in(lines[at + 1 : end], ENTRY, HEADING.match(lines[at])[1])
        at = end + 1
    return found, lines[at:]


def part_of(text, title):
    """The lines below a title, up to the next line that is not indented."""
    lines = text.splitlines()
    below = lines[lines.index(f"{title}:") + 1 :] if f"{title}:" in lines else []
    end = next((n for n, line in enumerate(below) if line and not line.startswith(" ")), len(below))
    return below[:end]


def arguments_in(lines, form, heading):
    """The arguments of a list. What is indented more than their names is their help."""
    found = []
    for line in lines:
        match = form.match(line)
        if match:
            found.append((match, [match[match.re.groups] or ""]))
        elif line.strip() and found:
            found[-1][1].append(line.strip())
        elif line.strip():
            raise Failure(f"a line of help is not understood: {line}")
    for match, texts in found:
        yield argument_of(match, heading, " ".join(text for text in texts if text))


def argument_of(match, heading, text):
    if match.re is WORD:
        return Argument(match[1], "", match[1], bool(match[2]), heading, text, tuple(NAMED.findall(text)))
    words = NAMED.findall(text) if match[3] else ()
    return Argument(match[2], match[1] or "", match[3] or "", False, heading, text, tuple(words))


def without_edges(lines):
    """The lines without empty ones at either end."""
    full = [n for n, line in enumerate(lines) if line.strip()]
    return lines[full[0] : full[-1] + 1] if full else []
