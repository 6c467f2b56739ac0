"""Rows of runs of the program `wst`, over real pipes."""

import os
import re
import shlex
import subprocess
from dataclasses import dataclass, field, replace

from runner.results import LONG, Failure
from runner.row_files import BadFile
from runner.take_cuts import cuts_of, joined

WORD = re.compile(r'"(?:[^"\\]|\\.)*"|[^ "]+')
SECONDS = 300


@dataclass
class Run:
    """A row: words and input of a run, and the output, fault output and status that are wanted; the same input in other
    cuts, which must give the same; and the most columns that a line of the output may have."""

    where: str
    name: str
    words: list
    input: bytes
    devices: dict
    wanted: dict
    cuts: list = field(default_factory=list)
    columns: int = None


def run_of(entry):
    return Run(
        where=f"{entry.file}:{entry.line}",
        name=entry.name,
        words=words_of(entry),
        input=entry.value("input"),
        devices={name: entry.value(name).decode() for name in ("stdin", "stdout", "stderr") if name in entry.values},
        wanted={
            "status": number_of(entry, "status", 0),
            "output": entry.value("output"),
            "faults": entry.value("faults"),
        },
        cuts=take_cuts_of(entry),
        columns=number_of(entry, "columns", None),
    )


def text_of(entry, key):
    """The text behind a key, as it stands."""
    return " ".join(part.strip() for _, part in entry.values.get(key, []))


def words_of(entry):
    """The words of the command line; one in quotation marks may have any bytes."""
    words = WORD.findall(text_of(entry, "words"))
    return [entry.bytes_of(word) if word.startswith('"') else word.encode() for word in words]


def number_of(entry, key, missing):
    text = text_of(entry, key)
    if text and not text.isdigit():
        raise BadFile(f"{entry.file}:{entry.line}: no number behind {key}: {text}")
    return int(text) if text else missing


def take_cuts_of(entry):
    """The cuts of the script of a row that says so."""
    text = text_of(entry, "cuts")
    if not text:
        return []
    if text != "takes" or text_of(entry, "words").split(" ")[0] != "session":
        raise BadFile(f"{entry.file}:{entry.line}: 'cuts: takes' is for the script of 'session', and no other is there")
    try:
        return cuts_of(entry.value("input"))
    except ValueError as error:
        raise BadFile(f"{entry.file}:{entry.line}: {error}") from None


def run_command(program, run):
    """The first failure of this row, as it stands or in one of its cuts, or None."""
    failure = run_once(program, run, lambda output: output)
    for number, cut in enumerate(run.cuts):
        if failure:
            return failure
        cut_run = replace(run, where=f"{run.where}/{number}", input=cut.script)
        failure = run_once(program, cut_run, lambda output, cut=cut: joined(output, cut.counts))
    return failure


def run_once(program, run, read_output):
    """The failure of one run, or None. The output is read so before it is compared."""
    try:
        got = outcome(program, run)
    except (OSError, subprocess.TimeoutExpired) as error:
        got = {"status": f"none: {error}", "output": b"", "faults": b""}
    got["output"] = read_output(got["output"])
    differences = [(key, run.wanted[key], got[key]) for key in run.wanted if run.wanted[key] != got[key]]
    differences += wide_lines(got["output"], run.columns)
    return Failure(run.where, run.name, shell_line(program, run), differences) if differences else None


def wide_lines(output, columns):
    """A difference for each line of the output that has more columns than it may have."""
    lines = [] if columns is None else output.decode(errors="replace").splitlines()
    return [("columns", columns, f"{len(line)}: {line}") for line in lines if len(line) > columns]


def outcome(program, run):
    """What came of a run. A device that is named stands for its pipe, and what goes there isn't seen."""
    modes = {"stdin": os.O_RDONLY, "stdout": os.O_WRONLY, "stderr": os.O_WRONLY}
    opened = {name: os.open(path, modes[name]) for name, path in run.devices.items()}
    pipes = {"stdout": subprocess.PIPE, "stderr": subprocess.PIPE, **opened}
    try:
        if "stdin" not in opened:
            pipes["input"] = run.input
        ran = subprocess.run([program, *run.words], timeout=SECONDS, **pipes)
    finally:
        for number in opened.values():
            os.close(number)
    return {"status": ran.returncode, "output": ran.stdout or b"", "faults": ran.stderr or b""}


def shell_line(program, run):
    """The run as a line for a shell."""
    line = " ".join([str(program), *map(shell_word, run.words)])
    for mark, name in (("<", "stdin"), (">", "stdout"), ("2>", "stderr")):
        if name in run.devices:
            line += f" {mark} {run.devices[name]}"
    if "stdin" in run.devices:
        return line
    if len(run.input) > LONG:
        return f"rows/run --input {run.where} | {line}"
    return f"printf {printf_text(run.input)} | {line}"


def shell_word(word):
    if word.isascii() and word.decode().isprintable():
        return shlex.quote(word.decode())
    return f'"$(printf {printf_text(word)})"'


def printf_text(value):
    """The bytes as the argument of the shell's printf."""
    plain = {ord(char): char for char in map(chr, range(0x20, 0x7F)) if char not in "'\\%"}
    return "'" + "".join(plain.get(byte, f"\\{byte:03o}") for byte in value) + "'"
