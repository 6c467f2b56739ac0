"""Tests of the test command `check`: which programs it trusts."""

from clone import DEVICES_PROGRAM, DEVICES_SOURCE, LOOPS_PROGRAM, LOOPS_SOURCE, PROGRAM, REFUSALS_PROGRAM
from clone import REFUSALS_SOURCE, ROWS_PROGRAM, ROWS_SOURCE, SOURCE

CHECK = ("./check",)
PLANTED = "#!/bin/sh\necho planted\n"
PROGRAMS = (("wst", PROGRAM), ("test_rows", ROWS_PROGRAM), ("test_devices", DEVICES_PROGRAM))
PROGRAMS += (("test_loops", LOOPS_PROGRAM), ("test_refusals", REFUSALS_PROGRAM))


def last_line(text):
    return text.splitlines()[-1] if text else ""


def rows_fail(clone, name):
    """The rows must fail for this program."""
    status, out, faults = clone.run("rows", how=CHECK)
    told = f"check: {name} was not built from the sources as they stand; './check build' builds it\n"
    assert (status, out, faults) == (1, "rows: 0 passed, 1 failed\n", told), (status, out, faults)


def rows_pass(clone):
    assert clone.run("rows", how=CHECK) == (0, "rows: 2 passed, 0 failed\n", "")


def refusals_fail(clone, name):
    """The refusals of memory must fail for this program."""
    status, out, faults = clone.run("refusals", how=CHECK)
    told = f"check: {name} was not built from the sources as they stand; './check build' builds it\n"
    assert (status, out, faults) == (1, "refusals: 0 passed, 1 failed\n", told), (status, out, faults)


def plant(clone):
    """Programs that other sources gave, with stamps for the sources as they stand."""
    for name, program in PROGRAMS:
        clone.program(program, PLANTED)
        assert clone.shell(f'mark_built {name} "$(sources_sum)" && echo marked') == "marked"


def rows_of_no_programs_fail(clone):
    clone.add_check()
    rows_fail(clone, "wst")
    clone.run()
    rows_fail(clone, "test_rows")


def rows_of_built_programs_pass(clone):
    clone.add_check()
    assert clone.run("build", how=CHECK)[0] == 0
    rows_pass(clone)
    begun = sorted(note.split()[0] for note in clone.notes() if " begins " in note)
    assert begun == ["test_devices", "test_loops", "test_refusals", "test_rows", "wst"], clone.notes()


def a_build_goes_on_from_what_checks_left(clone):
    clone.add_check()
    (clone.top / "crates/test_rows/out/incremental").mkdir(parents=True)
    assert clone.run("build", how=CHECK)[0] == 0
    rows_pass(clone)
    names = ("wst", "test_rows", "test_devices", "test_loops", "test_refusals")
    built = [f"{clone.top}/crates/{name}: run" for name in names]
    assert clone.notes() == [f"{built[0]} -- --help", *built[1:]], clone.notes()


def rows_of_older_sources_fail(clone):
    clone.add_check()
    for path in (SOURCE, ROWS_SOURCE, DEVICES_SOURCE, LOOPS_SOURCE, "crates/low/src/a.rt", "crates.txt"):
        clone.run("build", how=CHECK)
        rows_pass(clone)
        clone.write(path, "second\n")
        rows_fail(clone, "wst")


def rows_of_another_program_fail(clone):
    clone.add_check()
    for name, program in PROGRAMS[:-1]:
        clone.run("build", how=CHECK)
        clone.program(program, PLANTED)
        rows_fail(clone, name)


def refusals_need_their_own_program(clone):
    clone.add_check()
    refusals_fail(clone, "wst")
    clone.run("build", how=CHECK)
    assert clone.run("refusals", how=CHECK) == (0, "rows: 2 passed, 0 failed\n", "")
    clone.program(REFUSALS_PROGRAM, PLANTED)
    refusals_fail(clone, "test_refusals")
    rows_pass(clone)


def a_build_that_fails_is_not_marked(clone):
    clone.add_check()
    for source, name in ((SOURCE, "wst"), (ROWS_SOURCE, "wst"), (DEVICES_SOURCE, "wst"), (REFUSALS_SOURCE, "wst")):
        for word in ("broken", "changing"):
            clone.write(source, f"{word}\n")
            assert clone.run("build", how=CHECK)[0] != 0, (source, word)
            rows_fail(clone, name)
        clone.write(source, "first\n")


def all_parts_are_counted(clone):
    clone.add_check()
    status, out, faults = clone.run(how=CHECK)
    assert (status, last_line(out)) == (0, "20 passed, 0 failed"), (status, out, faults)
    rows_pass(clone)
    assert clone.run("show") == (3, "first show\n", "")


def what_stood_before_is_removed(clone):
    clone.add_check()
    plant(clone)
    status, out, faults = clone.run(how=CHECK)
    assert (status, last_line(out)) == (0, "20 passed, 0 failed"), (status, out, faults)
    assert "left" not in clone.builds.read_text(), clone.builds.read_text()
    assert all("planted" not in (clone.top / program).read_text() for _, program in PROGRAMS)


def what_no_run_built_is_not_trusted(clone):
    clone.add_check()
    sources = (SOURCE, ROWS_SOURCE, DEVICES_SOURCE, LOOPS_SOURCE, REFUSALS_SOURCE)
    for source, (name, _) in zip(sources, PROGRAMS):
        clone.write(source, "lazy\n")
        plant(clone)
        status, out, faults = clone.run(how=CHECK)
        assert status == 1 and "sources: 0 passed, 1 failed\n" in out, (status, out, faults)
        assert not (clone.top / f"crates/{name}/out/{name}").exists(), name
        assert not (clone.top / f"out/{name}.built").exists(), name
        clone.write(source, "first\n")


def sources_that_change_while_it_runs_fail(clone):
    clone.add_check()
    clone.write(ROWS_SOURCE, "changing\n")
    status, out, _ = clone.run(how=CHECK)
    assert status == 1 and "sources: 0 passed, 1 failed\n" in out, (status, out)
    rows_fail(clone, "wst")


def wrong_words_run_nothing(clone):
    clone.add_check()
    for words in (("row",), ("rows", "rows"), ("build", "all")):
        status, out, faults = clone.run(*words, how=CHECK)
        assert (status, out) == (2, "") and faults.startswith("check: usage error: "), (words, status, out, faults)
    assert clone.count() == 0


TESTS = [
    rows_of_no_programs_fail,
    rows_of_built_programs_pass,
    a_build_goes_on_from_what_checks_left,
    rows_of_older_sources_fail,
    rows_of_another_program_fail,
    refusals_need_their_own_program,
    a_build_that_fails_is_not_marked,
    all_parts_are_counted,
    what_stood_before_is_removed,
    what_no_run_built_is_not_trusted,
    sources_that_change_while_it_runs_fail,
    wrong_words_run_nothing,
]
