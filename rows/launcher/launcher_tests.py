"""Tests of the launcher `wst`."""

import os
import threading

from clone import PROGRAM, SOURCE

BUILDING = "wst: proving and building first"


def builds_once(clone):
    status, out, faults = clone.run("show", "a b", text="input\n")
    assert (status, out) == (3, "first show a b\ninput\n"), (status, out)
    assert faults.startswith(BUILDING), faults
    assert [note.split()[:2] for note in clone.notes()] == [["wst", "begins"], ["wst", "ends"]], clone.notes()
    assert clone.run("show") == (3, "first show\n", "")
    assert clone.count() == 1


def goes_on_from_what_checks_left(clone):
    (clone.top / "crates/wst/out/incremental").mkdir(parents=True)
    assert clone.run("show")[:2] == (3, "first show\n")
    assert clone.notes() == [f"{clone.top}/crates/wst: run -- --help"], clone.notes()
    assert clone.run("show") == (3, "first show\n", "")


def two_at_a_time(clone):
    ends = []
    threads = [threading.Thread(target=lambda: ends.append(clone.run("x", seconds="0.5"))) for _ in range(4)]
    for thread in threads:
        thread.start()
    for thread in threads:
        thread.join()
    assert [end[:2] for end in ends] == [(3, "first x\n")] * 4, ends
    assert clone.count() == 1


def edits_are_seen(clone):
    clone.run()
    for path, text in ((SOURCE, "second\n"), ("crates/low/specs/Lib.antt", "x"), ("crates.txt", "wst:\n# more\n")):
        clone.write(path, text)
        status, out, faults = clone.run()
        assert (status, out) == (3, "second \n") and faults.startswith(BUILDING), (path, out, faults)
    (clone.top / "crates/low/specs/Lib.antt").unlink()
    assert clone.run()[2].startswith(BUILDING)
    assert clone.count() == 5


def an_old_date_is_seen_through(clone):
    clone.run()
    clone.write(SOURCE, "older\n")
    os.utime(clone.top / SOURCE, (0, 0))
    assert clone.run()[1] == "older \n"


def a_touched_source_is_the_same(clone):
    clone.run()
    os.utime(clone.top / SOURCE)
    assert clone.run() == (3, "first \n", "")


def a_renamed_source_is_seen(clone):
    clone.run()
    clone.write("crates/low/src/a.rt", "x")
    clone.run()
    os.rename(clone.top / "crates/low/src/a.rt", clone.top / "crates/low/src/b.rt")
    assert clone.run()[2].startswith(BUILDING)


def what_no_build_reads_is_passed_over(clone):
    clone.run()
    clone.write("crates/wst/must-fail/a.edit", "x")
    clone.write("crates/low/out/rlib", "x")
    clone.write("README.md", "x")
    assert clone.run() == (3, "first \n", "")


def another_program_is_not_trusted(clone):
    clone.run()
    clone.write(PROGRAM, "#!/bin/sh\necho planted\n")
    assert clone.run()[1] == "first \n"
    (clone.top / PROGRAM).unlink()
    assert clone.run()[1] == "first \n"
    assert clone.count() == 3


def an_empty_stamp_is_not_trusted(clone):
    clone.run()
    clone.write("out/wst.built", "")
    assert clone.run()[2].startswith(BUILDING)


def a_failed_build_runs_nothing(clone):
    clone.run()
    clone.write(SOURCE, "broken\n")
    for _ in range(2):
        status, out, faults = clone.run()
        assert (status, out) == (4, ""), (status, out)
        log = clone.top / "out/wst.log"
        assert str(log) in faults, faults
        assert log.read_text() == "error: broken\n"
    clone.write(SOURCE, "first\n")
    assert clone.run()[1] == "first \n"


def a_source_that_changes_is_built_again(clone):
    clone.write(SOURCE, "changing\n")
    status, out, faults = clone.run()
    assert (status, out) == (4, "") and "changed during the build" in faults, faults
    assert clone.run()[1] == "calm \n"


def no_rt(clone):
    status, out, faults = clone.run(path=str(clone.tools_alone()))
    assert (status, out) == (4, "") and "rt of the Rattle kit is not found" in faults, (status, faults)


def from_other_places(clone):
    clone.run()
    assert clone.run("x", how=("sh", "./wst")) == (3, "first x\n", "")
    assert clone.run("x", how=("sh", "../a clone/wst")) == (3, "first x\n", "")
    link = clone.folder / "link"
    link.symlink_to(clone.top / "wst")
    assert clone.run("x", how=(str(link),)) == (3, "first x\n", "")


def the_mark_of_the_test_command(clone):
    clone.program(PROGRAM, "#!/bin/sh\necho proved\n")
    assert clone.shell('sum=$(sources_sum); mark_built wst "$sum" && echo marked') == "marked"
    assert clone.run() == (0, "proved\n", "")
    clone.write(SOURCE, "second\n")
    assert clone.shell('mark_built wst "$(echo "other sources" | sha256sum)" || echo refused') == "refused"
    assert clone.run()[1] == "second \n"


TESTS = [
    builds_once,
    goes_on_from_what_checks_left,
    two_at_a_time,
    edits_are_seen,
    an_old_date_is_seen_through,
    a_touched_source_is_the_same,
    a_renamed_source_is_seen,
    what_no_build_reads_is_passed_over,
    another_program_is_not_trusted,
    an_empty_stamp_is_not_trusted,
    a_failed_build_runs_nothing,
    a_source_that_changes_is_built_again,
    no_rt,
    from_other_places,
    the_mark_of_the_test_command,
]
