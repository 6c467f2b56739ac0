"""The lines that the workflow in `examples/ci` runs, as a runner of workflows does: by bash, which stops at a
failure."""

import os
import re
import subprocess
import tempfile
from itertools import takewhile
from pathlib import Path
from xml.etree import ElementTree

from server import SECONDS, WST, free_port

WORKFLOW = WST.parents[3] / "examples/ci/workflow.yml"


def commands_of(workflow):
    """The lines below each `run: |`, up to the next step."""
    return [lines_below(part.splitlines()) for part in re.split(r"run: \|.*\n", workflow.read_text())[1:]]


def lines_below(lines):
    margin = lines[0][: -len(lines[0].lstrip())]
    return "\n".join(line.removeprefix(margin) for line in takewhile(lambda line: line.startswith(margin), lines))


def runs(known, folder):
    """The status of the first lines where this is known, and the IDs of the failures in the report that they leave; the
    lines of the next step leave a page."""
    port = str(free_port())
    test, page = [commands.replace("9001", port) for commands in commands_of(WORKFLOW)]
    assert "--known --junit" in test, test
    (folder / "known.txt").write_text(known)
    (folder / "wst").unlink(missing_ok=True)
    (folder / "wst").symlink_to(WST)
    # (a runner of workflows ends what was started by itself)
    command = f"trap 'kill $(jobs -p)' EXIT\n{test}\nstatus=$?\nset -e\n{page}\nexit $status\n"
    path = {**os.environ, "PATH": f"{folder}:{os.environ['PATH']}"}
    ran = subprocess.run(["bash", "-c", command], cwd=folder, env=path, capture_output=True, timeout=3 * SECONDS)
    assert (folder / "report.html").read_text().endswith("</html>\n")
    report = ElementTree.parse(folder / "report.xml").getroot()
    failed = [case.get("name") for case in report[0] if case.find("failure") is not None]
    return ran.returncode, [name.partition(" ")[0] for name in failed]


def the_workflow():
    """Of what it writes each case is known, and then one is otherwise, and one is new."""
    known = subprocess.run([WST, "test", "own"], capture_output=True, text=True, check=True).stdout
    with tempfile.TemporaryDirectory() as folder:
        assert runs(known, Path(folder)) == (0, [])
        other = known.replace("\n2.5 PASS\n", "\n2.5 FAIL Close\n").replace("\n5.11 PASS\n", "\n")
        assert runs(other, Path(folder)) == (1, ["2.5", "5.11"])


TESTS = [the_workflow]
