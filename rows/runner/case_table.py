"""The table of cases, `rows/cases/table.txt`: each line is compared with the case that the program has, and with what is read
from the text that `wst cases ID` writes of it."""

import re
import subprocess

from runner.calls import Call
from runner.row_files import BadFile

LINE = re.compile(r"((?:[0-9]+|x)(?:\.[0-9]+)+) (\S+) \S+( \S.*)?")
SECONDS = 60


def calls_of_table(file, program):
    """Two calls for each line of the table: `case NAME`, which wants that line, and `script TEXT` of the text that the
    program writes, which wants its cut and its steps."""
    return [call for own in lines_of_table(file) for call in (own, call_of_text(own, program))]


def lines_of_table(file):
    """The first of these for each line."""
    calls = []
    for number, line in enumerate(file.read_text().splitlines(), 1):
        if not line.startswith("#"):
            calls.append(call_of_line(f"{file}:{number}", line))
    if not calls:
        raise BadFile(f"{file}: no table of cases")
    return calls


def call_of_line(where, line):
    found = LINE.fullmatch(line)
    if not found:
        raise BadFile(f"{where}: no line of a case: {line}")
    return Call(where, f"case {found[1]}", [f"case {found[1].encode().hex()}"], [line])


def call_of_text(own, program):
    found = LINE.fullmatch(own.wanted[0])
    text = subprocess.run([program, "cases", found[1]], stdout=subprocess.PIPE, timeout=SECONDS).stdout
    wanted = found[2] + (found[3] or "")
    return Call(own.where, f"{program} cases {found[1]}", [f"script {text.hex() or '-'}"], [wanted])
