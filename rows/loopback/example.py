"""The example of `wst serve` and `wst test` over loopback, as it stands in `examples/loopback`."""

import os
import subprocess

from server import WST

EXAMPLE = WST.parents[3] / "examples/loopback/run"


def the_example():
    ran = subprocess.run([EXAMPLE], env={**os.environ, "WST": str(WST)}, capture_output=True, timeout=30)
    assert ran.returncode == 0, (ran.stdout, ran.stderr)


TESTS = [the_example]
