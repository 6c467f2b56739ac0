"""Runs of `wst` in little room: with so much of stack, and with so much of memory in all, as `ulimit -s` and
`ulimit -v` set it."""

import resource
import subprocess

from shim import Ended

# What docs/proof/ASSUMPTIONS.md says that the program needs, in bytes: of stack, and of address space for the commands
# over files and in memory.
STACK = 512 * 1024
SPACE = 4608 * 1024
SECONDS = 60


def limited(program, kind, size):
    """How a run ends to which this limit is set."""
    pipes = {"stdout": subprocess.PIPE, "stderr": subprocess.STDOUT}
    ran = subprocess.run(
        program.words,
        input=program.given,
        timeout=SECONDS,
        preexec_fn=lambda: resource.setrlimit(kind, (size, size)),
        **pipes,
    )
    return Ended(ran.returncode, ran.stdout)


def failures_of_limits(program, wanted, is_right):
    """A text for each limit under which a run is not right: with its stack alone it is whole; with little memory in all
    it is, or it lacks memory, and it is never stopped."""
    with_stack = limited(program, resource.RLIMIT_STACK, STACK)
    failures = [] if with_stack == wanted else [f"with {STACK} bytes of stack: {with_stack}"]
    in_space = limited(program, resource.RLIMIT_AS, SPACE)
    return failures + ([] if is_right(in_space) else [f"in {SPACE} bytes: {in_space}"])
