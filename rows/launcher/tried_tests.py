"""Tests of `rows/tried` and of `./check quick`, with a stand-in for what rt says of a program that it tries."""

import shutil
import sys

from clone import ROOT

TRIED = (sys.executable, "rows/tried", "wst")

# The stand-in writes its words and its input, a fault line and a status, as the input says. `panics` stops it, `long` is
# more than rt gives back, and `broken` is no program.
STAND_IN = r"""#!/usr/bin/env python3
import sys
from pathlib import Path

folder = Path(sys.argv[sys.argv.index("--cases") + 1])
for file in sorted(folder.iterdir()):
    if file.suffix:
        continue
    args, wanted = file.with_suffix(".args"), file.with_suffix(".stdout")
    words = args.read_text().splitlines() if args.exists() else []
    text = file.read_text()
    output = f"{' '.join(words)}: {text}"
    if "broken" in text:
        sys.exit("error: broken")
    if "panics" in text:
        sys.stderr.write(f"fault: at src/main.rt:1:1\ncase={file.name} run=fault proved=no\n")
        continue
    if "long" in text:
        sys.stderr.write(f"checked: no-answer\ncase={file.name} run=no-answer proved=no\n")
        continue
    end = f"run=ended status={len(words)} runners=1"
    if not wanted.exists():
        sys.stdout.write(f"== {file.name}\n{output}")
    elif wanted.read_text() != output:
        sys.stderr.write(f"the output differs\ncase={file.name} {end} output=differs proved=no\n")
        continue
    else:
        end += " output=expected"
    sys.stderr.write(f"{text if 'fault' in text else ''}case={file.name} {end} proved=no\n")
sys.stderr.write("cases=.. proved=no\n")
"""

RIGHT = """row: right
words: show it
input: "text\\n"
output: "show it: text\\n"
status: 2
"""


def add_rows(clone, rows):
    if not (clone.top / "rows").exists():
        shutil.copytree(ROOT / "rows/runner", clone.top / "rows/runner", ignore=lambda *_: ["__pycache__"])
    shutil.copy(ROOT / "rows/tried", clone.top / "rows/tried")
    clone.write("rows/cases/table.txt", "1.1.1 W - text(fin,key=0):\n")
    clone.write("rows/show/some.rows", rows)
    clone.program("../bin/rt", STAND_IN)


def counts(clone, rows):
    """The last two lines of what is said of these rows, the status, and all."""
    add_rows(clone, rows)
    status, out, faults = clone.run(how=TRIED)
    assert faults == "", faults
    return *out.splitlines()[-2:], status, out


def right_rows_pass(clone):
    left, last, status, out = counts(clone, RIGHT)
    assert (left, last, status) == ("left out: nothing", "tried: 1 passed, 0 failed", 0), out


def planted_rows_fail(clone):
    changes = (("text\\n\"\nstatus", "test\\n\"\nstatus"), ("status: 2", "status: 0"))
    changes += (("status: 2", "status: 2\nfaults: 41"), ("it: text", "it: text\\n"))
    changes += (("text\\n\"\noutput", "panics\\n\"\noutput"), ("text\\n\"\noutput", "long\\n\"\noutput"))
    changes += (("text\\n", "fault\\n"), ("text\\n\"\noutput", "broken\"\noutput"))
    for old, new in changes:
        assert old in RIGHT, old
        _, last, status, out = counts(clone, RIGHT.replace(old, new))
        assert (last, status) == ("tried: 0 passed, 1 failed", 1), (old, new, out)
        assert "FAILED" in out, out


def what_it_can_not_play_is_told(clone):
    rows = RIGHT + 'row: a device\nwords: show\nstdin: "/"\n\nrow: a word\nwords: show "a\\nb"\n'
    rows += 'row: one\nwords: show "\\xff"\n\nrow: large\nwords: show\noutput: 1048577*2a\n'
    rows += "\nrow: long\nwords: show\ninput: 4194305*2a\n"
    left, last, status, out = counts(clone, rows)
    told = "left out: 1 rows of a large input, 1 rows of a large output, 2 rows of words that no line holds"
    assert (left, last, status) == (f"{told}, 1 rows over devices", "tried: 1 passed, 0 failed", 0), out


def quick_tells_what_it_left_out(clone):
    clone.add_check()
    clone.program("rows/tried", '#!/bin/sh\necho "left out: 3 rows over devices"\necho "tried: 2 passed, 0 failed"\n')
    status, out, faults = clone.run("quick", how=("./check",))
    *_, left, last = out.splitlines()
    assert (status, last, faults) == (0, "6 passed, 0 failed", ""), (status, out, faults)
    assert left.startswith("left out: ") and left.endswith("3 rows over devices") and "proofs" in left, left
    assert clone.count() == 0, clone.notes()


def quick_fails_where_a_row_does(clone):
    clone.add_check()
    clone.program("rows/tried", '#!/bin/sh\necho "tried: 1 passed, 1 failed"\nexit 1\n')
    status, out, _ = clone.run("quick", how=("./check",))
    assert (status, out.splitlines()[-1]) == (1, "5 passed, 1 failed"), (status, out)


TESTS = [
    right_rows_pass,
    planted_rows_fail,
    what_it_can_not_play_is_told,
    quick_tells_what_it_left_out,
    quick_fails_where_a_row_does,
]
