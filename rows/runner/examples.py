"""The examples: each input in `examples/COMMAND` with the answer beside it."""

from runner.commands import Run

BESIDE = (".out", ".args", ".faults", ".status")

# Folders that no command is run on: the example of two commands and the workflow, which `rows/loopback/run` runs, the
# scripts, which `rows/cases/scripts.rows` reads, the broken server, which README.md runs, and servers behind TLS, which a
# person runs.
OTHERS = ("broken", "ci", "loopback", "scripts", "tls")


def examples_below(folder):
    """A run for each example."""
    files = [file for file in sorted(folder.glob("*/*")) if file.parent.name not in OTHERS]
    inputs = [file for file in files if file.suffix not in BESIDE]
    return [example_of(file) for file in inputs]


def example_of(file):
    """What is wanted of an input: `NAME.out`, `NAME.faults` and `NAME.status`; `NAME.args` are further words."""
    words = read(file, ".args").split(b"\n")
    return Run(
        where=str(file),
        name=f"example {file.stem}",
        words=[file.parent.name.encode(), *(word for word in words if word)],
        input=file.read_bytes(),
        devices={},
        wanted={
            "status": int(read(file, ".status") or b"0"),
            "output": read(file, ".out"),
            "faults": read(file, ".faults"),
        },
    )


def read(file, suffix):
    """What stands beside the example, nothing where it is missing."""
    beside = file.with_suffix(suffix)
    return beside.read_bytes() if beside.exists() else b""
