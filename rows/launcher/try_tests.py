"""Tests of the launcher `try`, which runs the sources unproved."""

from clone import PROGRAM, SOURCE

TRY = ("./try",)
TOLD = (
    "wst: compiling the sources, unproved: two or three minutes at each call, and all output comes at the end\n"
    "wst: './wst' proves and builds them once; later calls of it start at once\n"
)


def runs_the_sources(clone):
    assert clone.run("show", "a b", text="input\n", how=TRY) == (3, "first show a b\ninput\n", TOLD)
    clone.write(SOURCE, "second\n")
    assert clone.run(how=TRY) == (3, "second \n", TOLD)
    begun = f"{clone.top}/crates/wst: try --steps 1 --seconds 86400 --"
    assert clone.notes() == [f"{begun} show a b", begun], clone.notes()


def builds_and_keeps_nothing(clone):
    clone.run(how=TRY)
    assert not (clone.top / PROGRAM).exists() and not (clone.top / "out").exists()
    assert clone.shell("is_built wst || echo no") == "no"


def its_words_are_its_own(clone):
    for words in (("--test",), ("--", "x"), ("show", "")):
        assert clone.run(*words, how=TRY) == (3, f"first {' '.join(words)}\n", TOLD), words


def what_the_program_says_is_shown(clone):
    clone.write(SOURCE, "faulty\n")
    assert clone.run("judge", how=TRY) == (1, "", f"{TOLD}line 1: not a capture\n")


def what_can_not_be_compiled_is_told(clone):
    clone.write(SOURCE, "broken\n")
    status, out, faults = clone.run(how=TRY)
    assert (status, out) == (4, ""), (status, out)
    assert faults.startswith(f"{TOLD}error: broken\n") and "could not be compiled" in faults, faults


def one_that_is_stopped_is_told(clone):
    clone.write(SOURCE, "panics\n")
    status, out, faults = clone.run(how=TRY)
    assert status == 4 and "checked: fault" in faults and "or was stopped" in faults, (status, out, faults)


def without_rt_nothing_runs(clone):
    status, out, faults = clone.run(how=TRY, path=str(clone.tools_alone()))
    assert (status, out) == (4, ""), (status, out)
    assert faults == "wst: not run: the command rt of the Rattle kit is not found\n", faults


def from_another_place(clone):
    assert clone.run("x", how=("../a clone/try",)) == (3, "first x\n", TOLD)
    link = clone.folder / "link"
    link.symlink_to(clone.top / "try")
    assert clone.run("x", how=(str(link),)) == (3, "first x\n", TOLD)


TESTS = [
    runs_the_sources,
    builds_and_keeps_nothing,
    its_words_are_its_own,
    what_the_program_says_is_shown,
    what_can_not_be_compiled_is_told,
    one_that_is_stopped_is_told,
    without_rt_nothing_runs,
    from_another_place,
]
