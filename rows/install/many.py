"""Tests of the commands for many servers in `docs/CI.md`, by the installed program, against echoes of its own."""

import os
import re
import socket
import subprocess
import tempfile
from contextlib import contextmanager
from pathlib import Path

from place import ROOT, Lacking, cases, run

PAGE = ROOT / "docs/CI.md"
HEADING = "## Many servers, many machines\n"


def blocks():
    """The commands of that part of the page: of one server, several, a page of them, machines, totals and a matrix."""
    return re.findall(r"(?ms)^```sh\n(.*?)^```$", PAGE.read_text().partition(HEADING)[2])


def passed():
    """The total where the cases of group 2 pass."""
    return f"{len(cases('2.*'))} pass, 0 loose, 0 fail\n"


def free_port():
    with socket.socket() as listener:
        listener.bind(("127.0.0.1", 0))
        return listener.getsockname()[1]


@contextmanager
def echo(prefix):
    """An echo at a free port, for the cases of group 2 once."""
    port = free_port()
    words = [prefix / "bin/wst", "serve", "--timeout=20", "--at-once=16", f"127.0.0.1:{port}", str(len(cases("2.*")))]
    server = subprocess.Popen(words, stdin=subprocess.DEVNULL, stdout=subprocess.PIPE, text=True)
    try:
        assert server.stdout.readline() == f"listening on 127.0.0.1:{port}\n"
        yield port
    finally:
        server.kill()
        server.communicate()


def run_block(prefix, folder, text, **variables):
    """Runs commands with the installed program on the path, for the cases of group 2 in place of all."""
    text = text.replace("wst cases |", "wst cases '2.*' |").replace("-N30", "-N4")
    path = f"{prefix}/bin:{os.environ['PATH']}"
    return run("sh", "-c", text, folder=folder, PATH=path, HOME=folder, **variables)


def many_at_a_time(prefix):
    with tempfile.TemporaryDirectory() as folder, echo(prefix) as port:
        ran = run_block(prefix, folder, blocks()[0].replace(":9001", f":{port} '2.*'"))
        assert ran == (0, "", ""), ran
        lines = "".join(f"{case} PASS\n" for case in cases("2.*"))
        assert (Path(folder) / "lines").read_text() == lines + passed()


def totals_of_parts(prefix):
    with tempfile.TemporaryDirectory() as folder:
        lines = "2.5 PASS\n1 pass, 0 loose, 0 fail\n6.4.1 LOOSE LateEnd\n7.1.1 FAIL Close\n0 pass, 1 loose, 1 fail\n"
        (Path(folder) / "lines").write_text(lines)
        ran = run_block(prefix, folder, blocks()[4])
        assert ran == (1, "1 pass, 1 loose, 1 fail\n", ""), ran


def parts_in_order(prefix):
    with tempfile.TemporaryDirectory() as folder:
        lines = [f"{case} PASS\n" for case in cases("2.*")]
        total = "4 pass, 0 loose, 0 fail\n"
        (Path(folder) / "lines").write_text("".join([*lines[4:], total, *lines[:4], total]))
        assert run_block(prefix, folder, in_order()) == (0, "".join(lines), "")


def in_order():
    """The command between the others that brings cases into their order."""
    return re.search(r"with `(grep -v [^`]*)`", PAGE.read_text())[1]


def servers(prefix):
    text = blocks()[1]
    with tempfile.TemporaryDirectory() as folder, echo(prefix) as one, echo(prefix) as other:
        text = text.replace(":9001", f":{one}").replace(":9002", f":{other}").replace('"$1" >', '"$1" "2.*" >')
        status, out, faults = run_block(prefix, folder, text)
        wanted = sorted(f"127.0.0.1:{port} {passed()}" for port in (one, other))
        assert (status, sorted(out.splitlines(True)), faults) == (0, wanted, ""), (status, out, faults)
        ran = run_block(prefix, folder, blocks()[2])
        assert ran == (0, "", ""), ran
        columns = re.findall(r'class="end"><span>(.*?)</span>', (Path(folder) / "report.html").read_text())
        assert sorted(columns) == sorted(f"127.0.0.1:{port}" for port in (one, other)), columns


def machines(prefix):
    if "GNU parallel" not in run("parallel", "--version")[1]:
        raise Lacking("GNU parallel")
    _, _, _, machines, totals, _ = blocks()
    with tempfile.TemporaryDirectory() as folder, echo(prefix) as port:
        status, out, _ = run_block(prefix, folder, machines.replace(":9001", f":{port}"))
        assert (status, out) == (0, ""), (status, out)
        ran = run_block(prefix, folder, totals)
        assert ran == (0, passed(), ""), ran


def a_matrix(prefix):
    text = blocks()[5]
    with tempfile.TemporaryDirectory() as folder, echo(prefix) as port:
        text = text.replace("./server 9001 & sleep 1; ", "").replace(":9001", f":{port}")
        status, out, faults = run_block(prefix, folder, text, GROUP="2")
        assert (status, out.splitlines(True)[-1], faults) == (0, passed(), ""), (status, out, faults)


TESTS = [many_at_a_time, totals_of_parts, parts_in_order, servers, machines, a_matrix]
