#!/usr/bin/env python3
"""How much memory each command of `wst` that reads a text holds over many small frames and turns.

    bench/peaks.py            the program crates/wst/out/wst
    bench/peaks.py PROGRAM    this program

Told is the peak of the resident memory above that over an empty input, in bytes of the input text, for `session` as a
share of what it may be by its input or by its report, beside the most that it may be: over texts of two sizes, of which the larger is just behind a
doubling of the judge's longest list, the more of both. A program writes first when all is done; as its pipe is full,
it stands still there, and its peak can be read. Status 1 where a command takes more.
"""

import os
import subprocess
import sys
import tempfile
import time
from pathlib import Path
from typing import NamedTuple

SIZES = 20_000_000, 25_200_000  # bytes of an input
MOST_OF = {  # times its bytes
    "convert": 2,
    "judge": 4,
    "pair": 2,
    "report": 6,
    "send": 29,
    "session": 2,
    "show": 2,
    "test": 30,
}

# Or so many times the bytes that it writes, if that is more: nothing is written before the last line is read.
MOST_OF_OUTPUT = {"session": 1.26}
# Of these more: a reply that was got is told by 4 digits and has a head of 12 bytes, and the room that a list leaves
# as it grows may stay resident.
MOST_OF_EMPTY = 4.1
EMPTY = ("pongs got", "empty texts got", "pings got")
MOST_OF_BEHIND = 5  # by the protocol

PING, PONG, TEXT = "898000000000", "8a8000000000", "81810000000061"  # of a client; the key is zero
PING_BACK, PONG_BACK, TEXT_BACK = "8900", "8a00", "810161"  # of a server


class Many(NamedTuple):
    """A text as often as it goes into this share of an input."""

    text: str
    share: float = 1.0

    def put(self, size, file):
        at_once = max(1, 1_000_000 // len(self.text))
        whole, rest = divmod(int(size * self.share / len(self.text)), at_once)
        for count in [at_once] * whole + [rest]:
            file.write((self.text * count).encode())


class Distinct(NamedTuple):
    """Frames with payloads of so many bytes that all differ, as many as go into this share of an input."""

    head: str
    payload: int
    share: float = 1.0
    first: int = 0

    def put(self, size, file):
        count = int(size * self.share / (len(self.head) + 2 * self.payload))
        wrapped = 256**self.payload
        for start in range(0, count, 50_000):
            numbers = range(self.first + start, self.first + min(count, start + 50_000))
            digits = (f"{i % wrapped:0{2 * self.payload}x}" if self.payload else "" for i in numbers)
            file.write("".join(self.head + x for x in digits).encode())


def capture(*parts):
    return ["wst-capture 2\nkey 00000000\n", *parts, "end tester\n"]


def capture_1(*parts):
    return ["wst-capture 1\n", *parts, "end peer\n"]


def arrived(sends, end):
    return [Many(sends), f"arrive {end} 4294967295 -\n"]


# Captures of many turns.
TURNS = {
    "turns without bytes": capture(Many("turn\n")),
    "turns of one byte sent": capture(Many("turn\n> 81\n")),
    "turns of one byte got": capture(Many("turn\n< 81\n")),
    "turns of one byte both ways": capture(Many("turn\n> 81\n< 81\n")),
    "a turn for each ping and its pong": capture(Many(f"turn\n> {PING}\n< {PONG_BACK}\n")),
    "a turn for each pong got": capture(Many(f"turn\n< {PONG_BACK}\n")),
    "a turn for each empty text got": capture(Many("turn\n< 8100\n")),
    "a message cut over all turns": capture("turn\n> 82ff00000000000fffff00000000\n", Many("turn\n> 61\n")),
}

# Captures of one turn.
FRAMES = {
    "pings sent": capture("turn\n> ", Many(PING), "\n"),
    "pongs sent": capture("turn\n> ", Many(PONG), "\n"),
    "texts sent": capture("turn\n> ", Many(TEXT), "\n"),
    "pings got": capture("turn\n< ", Many(PING_BACK), "\n"),
    "pongs got": capture("turn\n< ", Many(PONG_BACK), "\n"),
    "texts got": capture("turn\n< ", Many(TEXT_BACK), "\n"),
    "empty texts got": capture("turn\n< ", Many("8100"), "\n"),
    "pings and pongs": capture("turn\n> ", Many(PING, 0.75), "\n< ", Many(PONG_BACK, 0.25), "\n"),
    "texts and texts": capture("turn\n> ", Many(TEXT, 0.7), "\n< ", Many(TEXT_BACK, 0.3), "\n"),
}



def of_ends(key, sent, got):
    """Captures of one turn, of many small frames of each size, where the heads of both sides are made so."""
    inputs = {}
    for size in (0, 1, 3, 4):
        for name, first in (("pings", "89"), ("pongs", "8a"), ("texts", "81"), ("fragments", "01")):
            for side, mark, head in (("sent", ">", sent), ("got", "<", got)):
                last = head("80", 0) if name == "fragments" else ""
                frames = Many(head(first, size) + "61" * size + last)
                if name in ("pings", "pongs"):
                    frames = Distinct(head(first, size), size)
                inputs[f"{name} of {size} {side}"] = ended(key, "turn\n" + mark + " ", frames, "\n")
    for size in (3, 4):
        pings = Distinct(sent("89", size), size)
        inputs[f"pings of {size} sent, a pong of none"] = ended(
            key, "turn\n> ", pings, "\nturn\n< " + got("8a", 1) + "61\n"
        )
        pongs = Distinct(got("8a", size), size)
        inputs[f"pongs of {size} got, for no ping"] = ended(key, "turn\n> " + sent("89", 1) + "61\n< ", pongs, "\n")
        both = len(sent("89", size)) + len(got("8a", size)) + 4 * size
        pings = Distinct(sent("89", size), size, (len(sent("89", size)) + 2 * size) / both)
        pongs = Distinct(got("8a", size), size, (len(got("8a", size)) + 2 * size) / both, 5_000_000)
        inputs[f"pings of {size} sent, as many pongs for none"] = ended(key, "turn\n> ", pings, "\n< ", pongs, "\n")
    for size in (0, 4):
        closes = "turn\n> " + sent("88", 2) + "03e8\n< " + got("88", 2) + "03e8"
        inputs[f"pongs of {size} behind a close"] = ended(key, closes, Distinct(got("8a", size), size), "\n")
    return inputs


def ended(key, *parts):
    return [f"wst-capture 2\nkey {key}\n", *parts, "end tester\n"]


def masked(first, size):
    return f"{first}{128 + size:02x}00000000"


def plain(first, size):
    return f"{first}{size:02x}"


def taken(head, key):
    """Scripts of a session that takes many small frames of each size, all in one line or a line each."""
    inputs = {}
    for size in (0, 1, 3, 4, 125):
        for name, first in (("pings", "89"), ("pongs", "8a"), ("texts", "81"), ("fragments", "01")):
            frame = head(first, size) + "61" * size + (head("80", 0) if name == "fragments" else "")
            inputs[f"{name} of {size} in a line"] = ["take ", Many(frame), f" {key}\n"]
            inputs[f"a line for each of {name} of {size}"] = [Many(f"take {frame} {key}\n")]
    return inputs


OF_SERVERS = of_ends("00000000", masked, plain)
OF_CLIENTS = of_ends("-", plain, masked)

# What is run: its words, its empty input, and the inputs with their names.
RUNS = [
    (["show", "--capture"], capture(), TURNS | FRAMES),
    (["judge", "--explain"], capture(), TURNS | FRAMES),
    (["judge"], capture(), TURNS | FRAMES),
    *(
        (["judge", *role, *expected, *explains], capture(), inputs)
        for role, inputs in (([], OF_SERVERS), (["--role", "client"], OF_CLIENTS))
        for expected in ([], ["--expect", "protocol"])
        for explains in ([], ["--explain"])
    ),
    *(
        (["session", "--role", role, *echo], [], inputs)
        for role, inputs in (("server", taken(masked, "-")), ("client", taken(plain, "00000000")))
        for echo in ([], ["--echo"])
    ),
    (
        ["pair"],
        [],
        {
            "pings": arrived("ping client - 00000000\n", "server"),
            "pongs": arrived("pong client - 00000000\n", "server"),
            "texts": arrived("begin client text fin 61 00000000\n", "server"),
            "pings of the server": arrived("ping server - -\n", "client"),
            "pongs of the server": arrived("pong server - -\n", "client"),
            "texts of the server": arrived("begin server text fin 61 -\n", "client"),
        },
    ),
    (
        ["convert"],
        capture(),
        {
            "turns of one byte": capture_1(Many("> 61\n< 61\n")),
            "one turn, byte by byte": capture_1(Many("> 61\n")),
            "one line": capture_1("> ", Many("61"), "\n"),
            "turns of one byte, format 2": capture(Many("turn\n> 61\n")),
            "empty turns": capture(Many("turn\n")),
            "a turn of one line": capture("turn\n> ", Many("61"), "\n"),
        },
    ),
    *(
        (
            ["send", *as_capture, "own"],
            [],
            {
                "texts": [Many('text "a"\n')],
                "pings": [Many("ping -\n")],
                "turns": [Many("ping -\nwait\n")],
                "waits": [Many("wait\n")],
            },
        )
        for as_capture in ([], ["--capture"])
    ),
    *(
        (
            ["report", *kind],
            ["2.1 PASS\n"],
            {
                "lines of one case": [Many("2.1 PASS\n")],
                "lines of a blank": [Many(" \n"), "2.1 PASS\n"],
                "lines below a case": ["2.1 FAIL Close\n", Many("  rule 5.5.1\n")],
                "a name": ["# ", Many("a"), "\n2.1 PASS\n"],
                "a name again and again": [Many("# a\n2.1 PASS\n")],
                "totals": [Many("0 pass, 0 loose, 0 fail\n")],
            },
        )
        for kind in ([], ["--json"], ["--summary"], ["--junit"])
    ),
    (["test", "--known", "own", "2.1"], [], {"lines of a blank": [Many(" \n")], "cases": [Many("2.1 PASS\n")]}),
]


def tell_peaks(program):
    """Prints a line for each input, and gives how many inputs take more than they may."""
    wrong = 0
    for words, empty, inputs in RUNS:
        least, _ = peak([program, *words], empty)
        for name, parts in inputs.items():
            peaks = [peak([program, *words], parts, size) for size in SIZES]
            if words[0] in MOST_OF_OUTPUT:
                written = [size_written([program, *words], parts, size) for size in SIZES]
                most = [max(MOST_OF[words[0]] * x, MOST_OF_OUTPUT[words[0]] * y) for (_, x), y in zip(peaks, written)]
                share = max((held - least) / room for (held, _), room in zip(peaks, most))
                wrong += tells_more(share, 1, words, name)
                continue
            times = max((held - least) / length for held, length in peaks)
            most = most_of_judge(words, name) if words[0] == "judge" else MOST_OF[words[0]]
            wrong += tells_more(times, most, words, name)
    return wrong


def most_of_judge(words, name):
    if "protocol" in words and name.endswith("behind a close"):
        return MOST_OF_BEHIND
    return MOST_OF_EMPTY if name in EMPTY or " of 0 " in name else MOST_OF["judge"]


def tells_more(times, most, words, name):
    """Prints how many times it is, and gives whether that is more than it may be."""
    print(f"{times:>6.2f} of {most}  {' '.join(words)}: {name}", flush=True)
    return times > most


def peak(words, parts, size=0):
    """The most bytes that were resident before the first write, and the bytes of the input."""
    with tempfile.TemporaryFile() as file:
        put_parts(parts, size, file)
        length = file.tell()
        file.seek(0)
        reader, writer = full_pipe()
        with subprocess.Popen(words, stdin=file, stdout=writer, stderr=writer) as process:
            os.close(writer)
            while state_of(process.pid) == "R":
                time.sleep(0.005)
            bytes_held = held_by(process.pid)
            os.close(reader)
            process.kill()
    return bytes_held, length


def size_written(words, parts, size):
    """How many bytes are written."""
    with tempfile.TemporaryFile() as file, tempfile.TemporaryFile() as written:
        put_parts(parts, size, file)
        file.seek(0)
        subprocess.run(words, stdin=file, stdout=written, check=False)
        return written.tell()


def put_parts(parts, size, file):
    for part in parts:
        if isinstance(part, (Many, Distinct)):
            part.put(size, file)
        else:
            file.write(part.encode())


def full_pipe():
    """A pipe that takes no byte."""
    reader, writer = os.pipe()
    os.set_blocking(writer, False)
    try:
        while True:
            os.write(writer, bytes(4096))
    except BlockingIOError:
        os.set_blocking(writer, True)
    return reader, writer


def state_of(pid):
    """R while it runs or waits for a page, S where it waits for room in the pipe."""
    state = Path(f"/proc/{pid}/stat").read_text(encoding="ascii").rpartition(") ")[2][0]
    return {"D": "R"}.get(state, state)


def held_by(pid):
    status = Path(f"/proc/{pid}/status").read_text(encoding="ascii")
    return int(status.split("VmHWM:")[1].split()[0]) * 1024


if __name__ == "__main__":
    ours = Path(__file__).resolve().parent.parent / "crates/wst/out/wst"
    sys.exit(1 if tell_peaks(sys.argv[1] if len(sys.argv) > 1 else ours) else 0)
