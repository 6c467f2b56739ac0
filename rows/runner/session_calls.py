"""Rows of calls at one session or echo that the command `wst session` plays: `session`, `take_all` and `echo_all`."""

import subprocess
from dataclasses import dataclass

NAMES = ("session", "take_all", "echo_all")
SENDS = ("begin", "more", "ping", "pong", "close")
SECONDS = 120


def is_played(line):
    """Whether the command plays the calls of this line."""
    return line.split(" ", 1)[0] in NAMES


@dataclass
class Told:
    """What the command tells of a script: what each call answers, what was put in all, and how the session stands."""

    answers: list
    events: list
    put: str
    held: str
    status: str


class BadOutput(ValueError):
    """The command wrote something else than the lines of its calls."""


@dataclass
class Play:
    """Calls at a new endpoint, which the command plays."""

    role: str
    limit: str
    is_echo: bool
    calls: list

    def words(self):
        return ["session", "--role", self.role, "--limit", self.limit, *(["--echo"] if self.is_echo else [])]

    def script(self):
        return "".join(f"{call}\n" for call in self.calls).encode()

    def told(self, status, output, faults):
        """What the command told of them."""
        if status or faults:
            raise BadOutput(f"status {status}, {faults.decode(errors='replace')}")
        return Lines(output.decode().splitlines()).of_calls(self.calls, self.is_echo)


def answer_to(program, line, limited):
    """The answer to a line, in which the process is limited so. What is wrong with the command's lines is told in its
    place."""
    try:
        return answer_by(line, [play(program, it, limited) for it in plays_of(line)])
    except (BadOutput, OSError, subprocess.TimeoutExpired) as error:
        return f"nothing: {error}"


def play(program, it, limited):
    """What the command tells of these calls."""
    pipes = {"input": it.script(), "stdout": subprocess.PIPE, "stderr": subprocess.PIPE, "preexec_fn": limited}
    ran = subprocess.run([program, *it.words()], timeout=SECONDS, **pipes)
    return it.told(ran.returncode, ran.stdout, ran.stderr)


def plays_of(line):
    """What the command plays for a line. `take_all ROLE LIMIT KEY PIECE ..` takes the pieces, and `echo_all ..` at an
    echo, and then once more with the stream's end behind them. For `session ROLE LIMIT ; CALL ; ..` all calls are made,
    and for each question `status`, `held` and `put` those before it."""
    name, *words = line.split(" ")
    if name == "session":
        (role, limit), *calls = calls_in(words)
        made = [[call for call in calls[:at] if not is_question(call)] for at in places_of_questions(calls)]
        whole = [call for call in calls if not is_question(call)]
        return [Play(role, limit, False, [" ".join(call) for call in some]) for some in (*made, whole)]
    role, limit, key, *pieces = words
    calls = [f"take {piece} {key}" for piece in pieces]
    ended = [[*calls, "end"]] if name == "echo_all" else []
    return [Play(role, limit, name == "echo_all", some) for some in (calls, *ended)]


def answer_by(line, told):
    """The answer to a line, from what was told of each of its plays."""
    name, *words = line.split(" ")
    return answer_of_calls(calls_in(words)[1:], told) if name == "session" else answer_of_pieces(*told)


def answer_of_pieces(told, ended=None):
    """The events, each with the number of bytes that were taken by then, what was put, the status, and how many bytes
    are held; of an echo the status behind the stream's end in the place of the bytes."""
    start = "".join(f"{event}, " for event in told.events) + f"put {told.put or '-'}, {told.status}, "
    return start + (f"ended {ended.status}" if ended else f"held {told.held}")


def answer_of_calls(calls, told):
    """What each call answers."""
    *questions, whole = told
    of_calls, of_questions = iter(whole.answers), iter(questions)
    answers = [answer_of(call, next(of_questions)) if is_question(call) else next(of_calls) for call in calls]
    return " ; ".join(answers)


def answer_of(question, told):
    return {"status": told.status, "held": f"held {told.held}", "put": f"put {told.put or '-'}"}[question[0]]


def calls_in(words):
    """The parts of a line of a session, each as its words."""
    return [part.split(" ") for part in " ".join(words).split(" ; ")]


def is_question(call):
    return call[0] in ("status", "held", "put")


def places_of_questions(calls):
    return [at for at, call in enumerate(calls) if is_question(call)]


class Lines:
    """The lines of a run, read from the front."""

    def __init__(self, lines):
        self.lines, self.at, self.taken, self.put, self.events = lines, 0, 0, "", []

    def next(self, front=""):
        """The next line, which begins so, without that front."""
        line = self.lines[self.at] if self.at < len(self.lines) else ""
        if not line.startswith(front):
            raise BadOutput(f"no line '{front}..': {line}")
        self.at += 1
        return line[len(front) :]

    def of_calls(self, calls, is_echo):
        answers = [self.answer(call.split(" ")) for call in calls]
        held = "" if is_echo else self.next("held ")
        status = self.next("status ")
        if self.at < len(self.lines):
            raise BadOutput(f"a line beyond: {self.lines[self.at]}")
        return Told(answers, self.events, self.put, held, status)

    def answer(self, call):
        if call[0] == "take":
            return self.answer_of_take(call[1])
        line = self.next()
        if call[0] in SENDS and line.startswith("sent "):
            self.keep(line.removeprefix("sent "))
            return "sent"
        return line

    def answer_of_take(self, piece):
        """How many bytes of the piece were taken, and the events behind which they were."""
        size, before, told = 0 if piece == "-" else len(piece) // 2, self.taken, []
        while not self.next().startswith("taken "):
            told.append(self.lines[self.at - 1])
        self.at -= 1
        count, put = self.next("taken ").split(" put ")
        if int(count) != size:
            raise BadOutput(f"{count} of {size} bytes taken")
        self.taken += size
        self.keep(put)
        self.events += told
        return f"taken {size}" + "".join(f", {event}" for event in self.placed(told, before))

    def placed(self, told, before):
        """The events, each with its place in the piece."""
        for event in told:
            place, _, words = event.partition(" ")
            yield f"{int(place) - before} {words}"

    def keep(self, put):
        self.put += "" if put == "-" else put
