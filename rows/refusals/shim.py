"""The shims of programs that are started with them: one refuses a request for memory, one counts what is asked for, and
one interrupts reads and writes."""

import os
import subprocess
from dataclasses import dataclass
from pathlib import Path

from runner.results import shown

SOURCES = Path("rows/refusals")


@dataclass
class Ended:
    """The status of a run, and what was written to the output and to the fault output, in the order in which it was."""

    status: int
    text: bytes

    def __str__(self):
        return f"status {self.status}, {shown(self.text)}"


def build_shim(folder, name):
    """Compiles the shim of this name with the compiler of the kit, and gives its path."""
    page = subprocess.run(["rt", "doc"], capture_output=True, text=True, check=True).stdout.strip()
    clang = Path(page).parent / "toolchain/bin/clang"
    shim = str(Path(folder) / f"{name}.so")
    subprocess.run([clang, "-shared", "-fPIC", "-O2", "-o", shim, SOURCES / f"{name}.c"], check=True)
    return shim


def refusing(shim, place, run):
    """Runs a program whose request with this number is refused, none for 0: what `run` gives, which starts it with
    these options and waits for its end, and whether a request was refused."""
    result, notes = noting(shim, {"REFUSE": str(place)}, "REFUSE_NOTE", run)
    return result, notes != b""


def interrupting(shim, run):
    """Runs a program whose reads and writes are interrupted: what `run` gives, and of which kind some were, r or w."""
    return noting(shim, {}, "INTERRUPT_NOTE", run)


def noting(shim, settings, note_name, run):
    """What `run` gives of a program with a shim and its settings, and what the shim has noted."""
    noted, note = os.pipe()
    env = {"PATH": os.environ["PATH"], "LD_PRELOAD": shim, note_name: str(note), **settings}
    with os.fdopen(noted, "rb") as notes:
        try:
            result = run(env=env, pass_fds=[note])
        finally:
            os.close(note)
        return result, notes.read()
