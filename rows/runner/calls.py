"""Rows of calls, answered by `test_rows`, `test_devices` or `test_loops`, all those of a file in one run, or by the
command `wst session`."""

import re
import resource
import shlex
import subprocess
from dataclasses import dataclass
from itertools import product

from runner.results import LONG, Failure
from runner.row_files import BadFile
from runner.session_calls import answer_to, is_played

QUOTED = r'"(?:[^"\\]|\\.)*"'
BYTES = re.compile(rf'\[((?:{QUOTED}|[^\]"])*)\]|({QUOTED})')
STREAM = re.compile(rf'\{{((?:{QUOTED}|[^}}"|])*)(?:\|([0-9 ]+))?\}}')
FRONTS = re.compile(rf'<(?! )((?:{QUOTED}|[^>"])*)>')
EACH = re.compile(r"([A-Z]+) (?:(\S+) to (\S+)|(.+))$")
PLACE = re.compile(r"\((#?[A-Z_]+(?:[+-](?:[0-9]+|#?[A-Z_]+))*)\)")
TERM = re.compile(r"([+-]?)(#?[A-Z_]+|[0-9]+)")
SECONDS = 120


@dataclass
class Call:
    """A row: its lines for the program, one for each cut and for each value of its `each`, and the answer that each of
    them wants; and the KiB of memory that the program may have for it, where that is said."""

    where: str
    name: str
    lines: list
    wanted: list
    memory: int = None


def calls_of(entry):
    """The rows of an entry: each line of `calls`, or a `session` as a whole."""
    if not entry.lines:
        raise BadFile(f"{entry.file}:{entry.line}: no calls")
    if entry.kind == "calls":
        return [call_of(entry, number, text) for number, text in entry.lines]
    return [session_of(entry)]


def call_of(entry, number, text):
    lines, answers = [], []
    for values in values_of(entry):
        call, wanted = parted(entry, number, filled(entry, text, values))
        cuts = cuts_of(entry, call)
        lines, answers = lines + cuts, answers + [in_hex(entry, wanted)] * len(cuts)
    call, _ = parted(entry, number, text)
    return Call(f"{entry.file}:{number}", f"{entry.name}: {call}", lines, answers, memory_of(entry))


def values_of(entry):
    """What the names of the keys `each` stand for: each of the values of one with each of those of the others."""
    names, ranges = [], []
    for _, part in entry.values.get("each", []):
        found = EACH.match(part)
        if not found:
            raise BadFile(f"{entry.file}:{entry.line}: behind each: stands a name, and 'N to M' or words: {part}")
        names.append(found[1])
        if found[4]:
            ranges.append(found[4].split())
        else:
            first, last = (int(filled(entry, place, {})) for place in (found[2], found[3]))
            if first > last:
                raise BadFile(f"{entry.file}:{entry.line}: nothing from {first} to {last}")
            ranges.append(range(first, last + 1))
    return [dict(zip(names, values)) for values in product(*ranges)]


def filled(entry, text, values):
    """The text with each `(N)`, `(N+1)` or `(N+#NAME)` whose names stand for values, or with `#` for how many bytes a
    name has, replaced by its value."""

    def value(found):
        terms = TERM.findall(found[1])
        if any(term[0] not in "#0123456789" and term not in values for _, term in terms):
            return found[0]
        if len(terms) == 1 and terms[0][1] in values:
            return str(values[terms[0][1]])
        return str(sum((-1 if sign == "-" else 1) * number(term) for sign, term in terms))

    def number(term):
        return len(entry.bytes_of(term[1:])) if term[0] == "#" else int(values.get(term, term))

    return PLACE.sub(value, text)


def memory_of(entry):
    """The KiB of memory for the calls of an entry, None where none are said."""
    text = "".join(part.strip() for _, part in entry.values.get("memory", []))
    if text and not text.isdigit():
        raise BadFile(f"{entry.file}:{entry.line}: no number behind memory: {text}")
    return int(text) if text else None


def session_of(entry):
    """The calls of one session, in one line."""
    if len(entry.lines) < 2 or not entry.lines[0][1].startswith("new "):
        raise BadFile(f"{entry.file}:{entry.line}: a session is a line 'new ROLE LIMIT' and calls")
    calls = [parted(entry, number, text) for number, text in entry.lines[1:]]
    line = " ; ".join([f"session {entry.lines[0][1][4:]}", *(in_hex(entry, call) for call, _ in calls)])
    wanted = " ; ".join(in_hex(entry, answer) for _, answer in calls)
    return Call(f"{entry.file}:{entry.line}", entry.name, [line], [wanted])


def parted(entry, number, text):
    """A call and the answer that it wants."""
    call, mark, wanted = text.partition(" -> ")
    if not mark:
        raise BadFile(f"{entry.file}:{number}: no ' -> ' before the answer that is wanted")
    return call.strip(), wanted.strip()


def in_hex(entry, text):
    """The text with bytes in brackets or quotation marks as one word of digits, `-` where there are none."""
    return BYTES.sub(lambda found: word(entry.bytes_of(found[2] or found[1])), text)


def cuts_of(entry, call):
    """The lines of a call: at every cut of a stream in braces, with every front of bytes in angle brackets, or one."""
    found = STREAM.search(call)
    if found:
        stream = entry.bytes_of(found[1])
        pieces = sized(stream, found[2].split()) if found[2] else every_cut(stream)
        return [in_hex(entry, put_in(call, found, " ".join(map(word, cut)))) for cut in pieces]
    found = FRONTS.search(call)
    if found:
        whole = entry.bytes_of(found[1])
        if not whole:
            raise BadFile(f"{entry.file}:{entry.line}: no bytes have no fronts: {call}")
        return [in_hex(entry, put_in(call, found, word(whole[:size]))) for size in range(len(whole))]
    return [in_hex(entry, call)]


def put_in(call, found, words):
    return call[: found.start()] + words + call[found.end() :]


def every_cut(stream):
    """The stream whole, in two pieces at each place, one of them empty at its ends, and one byte at a time."""
    halves = [[stream[:at], stream[at:]] for at in range(len(stream) + 1)]
    return [[stream], *halves, [stream[at : at + 1] for at in range(len(stream))] or [b""]]


def sized(stream, sizes):
    """The stream in pieces of each of these sizes, the last one shorter."""
    return [[stream[at : at + int(size)] for at in range(0, len(stream), int(size))] for size in sizes]


def word(value):
    return value.hex() or "-"


def run_calls(program, command, calls):
    """The failures of these rows over the program, and over the command for those that it plays."""
    failures = []
    for memory in dict.fromkeys(call.memory for call in calls):
        within = [call for call in calls if call.memory == memory]
        failures += run_within(program, [call for call in within if not is_played(call.lines[0])], memory)
        failures += run_within(command, [call for call in within if is_played(call.lines[0])], memory)
    return failures


def run_within(program, calls, memory):
    """The failures of these rows, in one run that may have so many KiB of memory, as much as there is for None; in a
    run for each where the command plays them."""
    lines = [line for call in calls for line in call.lines]
    if lines and is_played(lines[0]):
        answers = [answer_to(program, line, limited(memory)) for line in lines]
    else:
        answers = answers_to(program, lines, memory)
    return wrong_among(program, calls, answers)


def wrong_among(program, calls, answers):
    """The failures of these rows, of which each line has its answer."""
    failures, at = [], 0
    for call in calls:
        got = answers[at : at + len(call.lines)]
        at += len(call.lines)
        bad = next((i for i, answer in enumerate(got) if answer != call.wanted[i]), None)
        if bad is not None:
            failures.append(failure(program, call, bad, got[bad]))
    return failures


def failure(program, call, number, answer):
    line = call.lines[number]
    words = f"printf '%s\\n' {shlex.quote(line)}" if len(line) < LONG else f"rows/run --input {call.where}/{number}"
    program = f"{program} session" if is_played(line) else program
    return Failure(call.where, call.name, f"{words} | {program}", [("answer", call.wanted[number], answer)])


def answers_to(program, lines, memory):
    """An answer for each line. A line that the program stops at is answered by what it says of it. Lines beyond those
    that were asked for are told with the last answer, which then is none that is wanted."""
    answers = []
    while len(answers) < len(lines):
        rest = "".join(f"{line}\n" for line in lines[len(answers) :])
        try:
            pipes = {"input": rest.encode(), "stdout": subprocess.PIPE, "preexec_fn": limited(memory)}
            ran = subprocess.run([program], timeout=SECONDS, **pipes)
        except (OSError, subprocess.TimeoutExpired) as error:
            return answers + [f"nothing: {error}"] * (len(lines) - len(answers))
        got = ran.stdout.decode(errors="replace").split("\n")[:-1]
        answers += got
        if ran.returncode == 0 or not got:
            answers += [f"nothing: status {ran.returncode}"] * (len(lines) - len(answers))
    answers, beyond = answers[: len(lines)], answers[len(lines) :]
    if beyond:
        answers[-1] += f" and {len(beyond)} lines beyond, the first: {beyond[0]}"
    return answers


def limited(memory):
    """What gives a new process so many KiB of memory, as `ulimit -v` does."""
    size = None if memory is None else (memory * 1024, memory * 1024)
    return size and (lambda: resource.setrlimit(resource.RLIMIT_AS, size))
