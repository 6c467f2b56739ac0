"""Programs that `rt try` compiles, unproved and with its checks, and runs for many inputs."""

import re
import subprocess
import tempfile
from dataclasses import dataclass
from pathlib import Path

# The most bytes that rt gives of what a run wrote, to its output or its fault output.
MOST_OUTPUT = 1 << 20

# The seconds that one run may take. rt also asks an interpreter, which can't run a program that reads its arguments: it
# stops after one step.
SECONDS = 120

CASE = re.compile(rb"case=(\S+) run=(\S+)(?: status=([0-9]+))?(.*)")


@dataclass
class Case:
    """A run: words and input, and the output that rt compares, or None where it shall be given back."""

    words: list
    input: bytes
    wanted: bytes = None


@dataclass
class Ran:
    """What came of it: how it ended, the status, the fault output, what rt said of an output that differs, and the
    output of a run without one that is wanted. What is written gets an LF where none ends it."""

    end: str
    status: int
    faults: bytes
    said: bytes = b""
    output: bytes = b""


class NotTried(Exception):
    """rt compiled no program, or did not run it for each input. Its text is what it said last."""


def can_be_tried(words):
    """Whether rt can give these words to a program: it reads a line for each, and a lone `{}` names a file."""
    return all(b"\n" not in word and not word.endswith(b"\r") and word != b"{}" and is_text(word) for word in words)


def is_text(word):
    try:
        word.decode()
    except UnicodeDecodeError:
        return False
    return True


def run_tried(folder, cases):
    """Compiles the program of a crate once, and runs it for each of these. Gives what came of each, in their order."""
    with tempfile.TemporaryDirectory() as room:
        inputs = Path(room, "cases")
        inputs.mkdir()
        names = [f"case{number:05}" for number in range(len(cases))]
        for name, case in zip(names, cases):
            write_case(inputs, name, case)
        words = ["rt", "try", "--steps", "1", "--seconds", str(SECONDS), "--cases", inputs]
        with open(f"{room}/output", "wb") as output, open(f"{room}/said", "wb") as said:
            how = {"cwd": folder, "stdin": subprocess.DEVNULL, "stdout": output, "stderr": said}
            subprocess.run(words, check=False, **how)
        said, output = Path(room, "said").read_bytes(), Path(room, "output").read_bytes()
        return outcomes(names, cases, said, output)


def write_case(folder, name, case):
    (folder / name).write_bytes(case.input)
    if case.words:
        (folder / f"{name}.args").write_bytes(b"".join(word + b"\n" for word in case.words))
    if case.wanted is not None:
        (folder / f"{name}.stdout").write_bytes(case.wanted)


def outcomes(names, cases, said, output):
    """What came of each run, by the lines of rt and the outputs that it gives."""
    found, at = [], 0
    given = Given(output)
    for name, case in zip(names, cases):
        line = re.compile(rb"^case=%s .*$" % name.encode(), re.MULTILINE).search(said, at)
        if not line:
            last = said[at:].decode(errors="replace")
            raise NotTried(last[-2000:].strip())
        _, end, status, rest = CASE.fullmatch(line[0]).groups()
        before, at = said[at : line.start()], line.end() + 1
        ran = Ran(end.decode(), int(status or -1), before)
        if end != b"ended" or (case.wanted is not None and b" output=expected" not in rest):
            ran.said = before or line[0]
        elif case.wanted is None:
            ran.output = given.of(name)
        found.append(ran)
    return found


class Given:
    """The outputs that rt gives, each below a line with its name."""

    def __init__(self, output):
        self.output, self.at = output, 0

    def of(self, name):
        """The output of the next run, which has this name."""
        head = b"== %s\n" % name.encode()
        if not self.output.startswith(head, self.at):
            raise NotTried(f"no output of {name} where it should stand")
        start = self.at + len(head)
        end = re.compile(rb"^== case[0-9]{5}$", re.MULTILINE).search(self.output, start)
        self.at = end.start() if end else len(self.output)
        return self.output[start : self.at]
