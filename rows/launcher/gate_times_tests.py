"""Tests of `tools/gate_times`: tables that are put together and compared."""

TOOL = ("tools/gate_times",)

HEAD = "crate                        proof         tests          seed  wrong bodies       program           all\n"
TAIL = "what is left: 10\nall: 25.2 minutes of processors, 12.0 minutes of wall time\n"

# A command that looks like a check of a crate, and takes a second and a half of a processor.
BUSY = ("python3", "-c", "import time\nwhile time.process_time() < 1.5: pass", "--crate-name", "ws_text")


def table(*rows):
    lines = [f"{name:20}{proof:14}{tests:14}{0:14}{bodies:14}{0:14}{0:14}\n" for name, proof, tests, bodies in rows]
    return HEAD + "".join(lines) + f"{'all crates':20}{0:14}{0:14}{0:14}{0:14}{0:14}{0:14}\n" + TAIL


def rises_are_named(clone):
    clone.write("then.txt", table(("ws_suite", 400, 0, 90), ("ws_wire", 100, 0, 1), ("ws_text", 50, 0, 0)))
    now = (("ws_suite", 700, 0, 1), ("ws_wire", 100, 0, 100), ("ws_text", 74, 9, 0), ("ws_new", 1, 0, 0))
    clone.write("out/gate_times.txt", table(*now))
    status, out, faults = clone.run("--compare", "then.txt", how=TOOL)
    assert (status, faults, out.splitlines()[-1]) == (1, "", "rose by half, compared with ws_wire: ws_suite"), out
    assert [line.split()[0] for line in out.splitlines()[1:-1]] == ["ws_suite", "ws_text", "ws_wire"], out


def a_slower_machine_is_no_rise(clone):
    clone.write("tools/gate_times.txt", table(("ws_suite", 400, 0, 0), ("ws_wire", 100, 0, 0)))
    clone.write("out/gate_times.txt", table(("ws_suite", 1190, 0, 0), ("ws_wire", 200, 0, 0)))
    status, out, _ = clone.run("--compare", how=TOOL)
    assert (status, out.splitlines()[-1]) == (0, "rose by half, compared with ws_wire: none"), out


def no_table_is_told(clone):
    for text in ("", "crate\n", table(("ws_suite", 1, 0, 0))):
        clone.write("then.txt", text)
        clone.write("out/gate_times.txt", table(("ws_wire", 1, 0, 0)))
        status, out, faults = clone.run("--compare", "then.txt", how=TOOL)
        assert (status, out) == (2, "") and faults.startswith("tools/gate_times: "), (text, status, faults)


def pieces_are_put_together(clone):
    clone.write("out/gate_times.txt", table(("ws_wire", 100, 7, 50), ("ws_text", 90, 0, 30)))
    assert clone.run("--add", *BUSY, how=TOOL)[0] == 0
    rows = [line.split() for line in (clone.top / "out/gate_times.txt").read_text().splitlines()]
    assert [row[:5] for row in rows if row[0] == "ws_wire"] == [["ws_wire", "100", "7", "0", "50"]], rows
    assert [row[2:5] for row in rows if row[0] == "ws_text"] == [["0", "0", "30"]], rows
    assert [int(row[1]) < 3 for row in rows if row[0] == "ws_text"] == [True], rows


TESTS = [rises_are_named, a_slower_machine_is_no_rise, no_table_is_told, pieces_are_put_together]
