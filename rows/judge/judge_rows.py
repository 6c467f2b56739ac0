"""The rows of captures and verdicts, to be answered by the twin."""

from dataclasses import dataclass

from runner.calls import in_hex, parted
from runner.commands import run_of
from runner.row_files import BadFile, read_file
from twin import CLIENT, SERVER


@dataclass
class Row:
    """What is given, the text of a capture or a transcript, and the line that is wanted, or the capture in hex that is
    written again."""

    where: str
    name: str
    text: bytes
    transcript: tuple
    tested: str
    is_written: bool
    wanted: str
    expected: str = "echo"

    def size(self):
        return len(self.text or b"") + sum(len(sent) + len(got) for sent, got in (self.transcript or ([],))[0])


def rows_below(folder):
    """All rows of the folder but that of want of memory, the smallest first."""
    entries = [entry for file in sorted(folder.glob("*.rows")) for entry in read_file(file)]
    return sorted((row for entry in entries for row in rows_of(entry)), key=Row.size)


def rows_of(entry):
    if entry.kind == "row":
        return [row_of_run(run_of(entry))]
    calls = [(number, *(in_hex(entry, part) for part in parted(entry, number, text))) for number, text in entry.lines]
    return [row_of_call(entry, *call) for call in calls if call[1] != "capture_fault"]


def row_of_run(run):
    """A run of `judge`: the status is 1 at a Fail and at what is no capture. Why a verdict is told the twin doesn't say."""
    wanted, *below = (run.wanted["output"] + run.wanted["faults"]).decode().removesuffix("\n").split("\n")
    words = [word.decode() for word in run.words]
    explains, tested = "--explain" in words, role_of(words)
    if words[0] != "judge" or (below and not explains) or run.wanted["status"] != (not wanted.startswith(("PASS", "LOOSE"))):
        raise BadFile(f"{run.where}: no row of judge, or not the status of its verdict")
    return Row(run.where, run.name, run.input, None, tested, False, wanted, expected_by(words))


def role_of(words):
    """The tested end that the words of a run of `judge` name."""
    return CLIENT if "--role" in words and words[words.index("--role") + 1] == "client" else SERVER


def expected_by(words):
    """What the words of a run of `judge` say that is expected of it."""
    return words[words.index("--expect") + 1] if "--expect" in words else "echo"


# The calls that judge, the end that each of them tests, and what it expects of that.
JUDGES = {
    "judge": (SERVER, "echo"),
    "judge_client": (CLIENT, "echo"),
    "protocol": (SERVER, "protocol"),
    "protocol_client": (CLIENT, "protocol"),
}


def row_of_call(entry, number, call, wanted):
    """A call `judge END SENT GOT ..` or one that judges otherwise, `capture TEXT`, or `written END SENT GOT ..`."""
    where, (name, *words) = f"{entry.file}:{number}", call.split(" ")
    if name == "capture":
        return Row(where, call, bytes_of(words[0]), None, SERVER, True, wanted)
    if name not in (*JUDGES, "written"):
        raise BadFile(f"{where}: none of {', '.join(JUDGES)}, capture and written")
    pieces = [bytes_of(word) for word in words[1:]]
    tested, expected = JUDGES.get(name, (SERVER, "echo"))
    transcript = (list(zip(pieces[::2], pieces[1::2])), words[0])
    return Row(where, call, None, transcript, tested, name == "written", wanted, expected)


def bytes_of(word):
    return b"" if word == "-" else bytes.fromhex(word)


def read(captures, row):
    """The transcript of a row, or the line that tells where its text is damaged."""
    if row.transcript:
        return row.transcript
    if row.is_written and row.text.startswith(b"wst-capture 2\n"):
        return "line 1: not a capture"  # `capture` reads format 1 alone
    try:
        return captures.read_capture(row.text)
    except captures.Damaged as error:
        return f"line {error}: not a capture"


def answer(captures, twin, row, transcript):
    """What is answered to a row that was read so, by the twin of what the row expects."""
    if isinstance(transcript, str):
        return transcript
    return captures.written(*transcript).hex() if row.is_written else twin.verdict(*transcript, row.tested)
