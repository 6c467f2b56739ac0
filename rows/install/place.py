"""Where things are, and how commands are run."""

import os
import shutil
import subprocess
from functools import cache
from pathlib import Path

ROOT = Path(__file__).resolve().parent.parent.parent
PROGRAM = ROOT / "crates/wst/out/wst"
QUIET = {"stdin": subprocess.DEVNULL, "capture_output": True, "text": True, "timeout": 60}


class Lacking(Exception):
    """A command that a test needs is not there. Its text is the command."""


def is_built():
    """Whether the program was built from the sources as they stand."""
    words = ["sh", "-c", 'root=$1; . "$root/tools/built.sh"; is_built wst', "sh", str(ROOT)]
    return subprocess.run(words).returncode == 0


def run(*words, folder=None, **variables):
    """Runs a command, with these variables besides, and gives its status, output and fault output."""
    if shutil.which(words[0]) is None:
        raise Lacking(words[0])
    env = {**os.environ, "LC_ALL": "C.UTF-8", **variables}
    ran = subprocess.run(words, cwd=folder, env=env, **QUIET)
    return ran.returncode, ran.stdout, ran.stderr


@cache
def wst(*words):
    """What the program writes."""
    return subprocess.run([PROGRAM, *words], **QUIET).stdout


def commands():
    """The commands, and what the help of the program says of each."""
    lines = wst("--help").partition("\nCommands:\n")[2].partition("\n\n")[0].splitlines()
    return {line.split()[0]: " ".join(line.split()[1:]) for line in lines if line.split()[0] != "help"}


def cases(*words):
    """The IDs of the cases that begin so."""
    return [line.split()[0] for line in wst("cases", *words).splitlines()]
