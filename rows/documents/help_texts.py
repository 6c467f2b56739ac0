"""What the texts of help and of the manual page keep to: how long they are, how they are laid out, and their words."""

import os
import re
import shutil
import subprocess
import sys
import tempfile
from pathlib import Path

ROOT = Path(__file__).resolve().parent.parent.parent
sys.path.insert(0, str(ROOT / "tools/home"))

from helps import Failure, program_of
from manual import EXAMPLES, EXIT, SUBJECTS, manual

HELP, TEXTS = ROOT / "rows/program/help", ROOT / "docs/manual"
MOST_LINES, MOST_COLUMNS = 60, 80

# What the field says in other words: stderr, arguments, printed, ignored, invalid, after.
NOT_OURS = re.compile(
    r"fault output|standard (?:in|out)put|wrong words|\btold\b|\btells?\b|passed by|to be refused|\bowed\b|\bbehind\b"
    r"|\botherwise\b|\bstands?\b|\bat last\b|\blawful\b"
)


def help_told():
    """Each help has at most so many lines and columns, and begins with a sentence and the usage."""
    for file in sorted(HELP.glob("*.txt")):
        lines = file.read_text().splitlines()
        yield f"help of {file.stem}: {len(lines)} lines" if len(lines) > MOST_LINES else None
        yield from told_of(f"help of {file.stem}", lines)
        fine = lines[1] == "" and lines[2].startswith("Usage: wst ") and {EXIT, EXAMPLES} < set(lines)
        yield None if fine else f"help of {file.stem}: not a sentence, its usage, '{EXIT}' and '{EXAMPLES}'"
    if not any(HELP.glob("*.txt")):
        yield "no help"


def texts_told():
    """Each command and each subject has a text for the manual page, `wst` too, and no other text is there."""
    names = sorted({file.stem for file in HELP.glob("*.txt")} | {*SUBJECTS})
    there = sorted(file.stem for file in TEXTS.iterdir())
    yield None if names == there else f"docs/manual: {', '.join(there)}, wanted {', '.join(names)}"
    for file in sorted(TEXTS.glob("*.txt")):
        yield from told_of(f"docs/manual/{file.name}", file.read_text().splitlines())


def told_of(name, lines):
    """What is wrong with the lines of a text."""
    wide = [line for line in lines if len(line) > MOST_COLUMNS]
    yield f"{name}: {len(wide[0])} columns: {wide[0]}" if wide else None
    found = NOT_OURS.search(" ".join(" ".join(lines).split()))
    yield f"{name}: not a word of ours: {found[0]}" if found else None


def manual_told():
    """The page that is written from both has no line that is too wide, and no warning, if mandoc is there."""
    try:
        page = manual(program_of(says), "2000-01-01", TEXTS)
    except (Failure, OSError) as failure:
        yield f"manual page: {failure}"
        return
    if not shutil.which("mandoc"):
        return
    ran = subprocess.run(["mandoc", "-T", "lint"], input=page, capture_output=True, text=True, timeout=60)
    yield None if (ran.returncode, ran.stdout) == (0, "") else f"manual page: {ran.stdout}"
    ran = subprocess.run(["mandoc", "-T", "utf8"], input=page, capture_output=True, text=True, timeout=60)
    lines = re.sub(".\b", "", ran.stdout).splitlines()
    wide = [line for line in lines if len(line) > MOST_COLUMNS]
    yield f"manual page: {len(wide[0])} columns: {wide[0]}" if wide or not lines else None


def examples_told(program):
    """Each example of a help that needs no file and no server runs, with nothing on stderr, and prints the line that
    the comment above it names."""
    tried = [(file.stem, *example) for file in sorted(HELP.glob("*.txt")) for example in examples_of(file.read_text())]
    yield None if tried else "no help has an example that can be tried"
    yield from (fault_of(*example, program) for example in tried)


def examples_of(text):
    """The examples, each with the comment above it: lines that go on are joined."""
    lines = text.partition(f"\n{EXAMPLES}\n")[2].partition("\n\n")[0]
    comment = ""
    for line in re.sub(r"(?: \\|(?<=\|))\n +", " ", lines).splitlines():
        if line.startswith("  # "):
            comment = line.removeprefix("  # ")
        elif not re.search(r"localhost|127\.0\.0\.1|[^' ]* < |\*\.|\.pcap", line):
            yield comment, line.strip()


def fault_of(name, comment, command, program):
    with tempfile.TemporaryDirectory() as folder:
        (Path(folder) / "wst").symlink_to(program)
        env = {**os.environ, "PATH": f"{folder}:{os.environ['PATH']}"}
        shell = ["sh", "-c", command]
        ran = subprocess.run(shell, cwd=folder, env=env, capture_output=True, text=True, timeout=60, check=False)
    wanted = comment.removeprefix("prints: ") if comment.startswith("prints: ") else ""
    has_output = " > " in command or wanted in ran.stdout and ran.stdout
    fine = ran.returncode in (0, 1) and not ran.stderr and has_output
    return None if fine else f"help of {name}: {command}: status {ran.returncode}: {ran.stdout}{ran.stderr}"


def says(*words):
    """What the program prints, as far as the page needs it, by the texts that the rows compare with it."""
    if words == ("--version",):
        return "wst 0 (none)\n"
    if words[0] == "cases" and words[-1] != "--help":
        return "1.1.1 2\n"
    return (HELP / f"{'wst' if words[0] == '--help' else words[0]}.txt").read_text()
