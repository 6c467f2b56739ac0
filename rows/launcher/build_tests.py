"""Tests of `tools/build`, which proves crates side by side, with stand-ins for the toolchain."""

import os

from clone import PROGRAM, SOURCE

BUILD = ("tools/build",)

# With so many free bytes two checks go on at once, also where other programs take some of them meanwhile.
ENOUGH = 8_000_000_000


def free_memory():
    with open("/proc/meminfo", encoding="ascii") as numbers:
        return next(1024 * int(line.split()[1]) for line in numbers if line.startswith("MemAvailable:"))


def tower(clone):
    """A program on two libraries, which stand on a low one."""
    clone.crate("low")
    clone.crate("left", "low")
    clone.crate("right", "low")
    clone.stand_on("left", "right")


def begun(clone):
    return [note.split()[0] for note in clone.notes() if " begins " in note]


def built(clone, *words):
    status, out, faults = clone.run(*words, how=BUILD)
    assert (status, out) == (0, ""), (status, out, faults)
    return faults


def a_crate_waits_for_those_below(clone):
    tower(clone)
    built(clone)
    assert not any("lacks" in note for note in clone.notes()), clone.notes()
    names = begun(clone)
    assert names[0] == "low" and names[-1] == "wst" and sorted(names[1:3]) == ["left", "right"], names
    assert clone.notes()[1] == "low ends" and clone.notes()[-2].startswith("wst begins"), clone.notes()
    assert (clone.top / PROGRAM).is_file()


def those_that_do_not_stand_on_each_other_are_built_at_once(clone):
    tower(clone)
    status, out, faults = clone.run(how=BUILD, seconds="0.3")
    assert (status, out) == (0, ""), (status, out, faults)
    middle = [note.split()[1] for note in clone.notes()[2:6]]
    at_once, in_turn = ["begins", "begins", "ends", "ends"], ["begins", "ends", "begins", "ends"]
    if len(os.sched_getaffinity(0)) == 1:
        assert middle == in_turn, clone.notes()
    elif free_memory() > ENOUGH:
        assert middle == at_once, clone.notes()
    else:
        assert middle in (at_once, in_turn), clone.notes()


def each_is_told(clone):
    tower(clone)
    told = built(clone).splitlines()
    assert len(told) == 4 and told[0] == "wst: crate 1 of 4, low, 0 min so far; it took 0 s of processors", told
    assert told[3] == "wst: crate 4 of 4, wst, 0 min so far; it took 0 s of processors", told


def what_has_not_changed_is_passed_over(clone):
    tower(clone)
    built(clone)
    clone.builds.unlink()
    built(clone)
    assert begun(clone) == ["wst"], clone.notes()


def an_edit_builds_what_stands_on_it(clone):
    tower(clone)
    built(clone)
    for path, names in (
        ("crates/left/src/lib.rt", ["left", "wst"]),
        ("crates/left/specs/Lib.antt", ["left", "wst"]),
        ("crates/low/proofs/Lib.antt", ["left", "low", "right", "wst"]),
        (SOURCE, ["wst"]),
    ):
        clone.builds.unlink()
        clone.write(path, "edited\n")
        built(clone)
        assert sorted(begun(clone)) == names, (path, clone.notes())


def a_failure_is_told_and_ends_all(clone):
    tower(clone)
    clone.write("crates/left/src/lib.rt", "broken\n")
    clone.write("crates/right/src/lib.rt", "slow\n")
    status, out, faults = clone.run(how=BUILD)
    assert (status, out) == (1, "error: broken\n"), (status, out)
    assert faults.splitlines()[-1] == "wst: left was not built", faults
    assert "wst" not in begun(clone) and "right ends" not in clone.notes(), clone.notes()
    clone.write("crates/left/src/lib.rt", "calm\n")
    clone.write("crates/right/src/lib.rt", "calm\n")
    clone.builds.unlink()
    built(clone)
    assert sorted(begun(clone)) == ["left", "right", "wst"], clone.notes()


def a_source_that_changes_is_not_kept(clone):
    tower(clone)
    clone.write("crates/low/src/lib.rt", "changing\n")
    status, out, faults = clone.run(how=BUILD)
    assert (status, out) == (1, "") and "the sources changed while low was built" in faults, (status, out, faults)
    clone.builds.unlink()
    built(clone)
    assert sorted(begun(clone)) == ["left", "low", "right", "wst"], clone.notes()


def what_is_no_library_is_told(clone):
    clone.stand_on("nowhere")
    status, out, faults = clone.run(how=BUILD)
    assert (status, out) == (1, "") and "nowhere, which is no crate and no library of the kit" in faults, faults
    assert clone.notes() == []


def a_crate_on_itself_is_told(clone):
    clone.crate("low", "low")
    clone.stand_on("low")
    status, _, faults = clone.run(how=BUILD)
    assert status == 1 and "low stands on itself" in faults, faults


def wrong_names_build_nothing(clone):
    clone.crate("low")
    for name in ("low", "nowhere"):
        status, out, faults = clone.run(name, how=BUILD)
        assert (status, out, faults) == (2, "", f"wst: {name} is no program of crates.txt\n"), (name, status, faults)
    assert clone.notes() == []


TESTS = [
    a_crate_waits_for_those_below,
    those_that_do_not_stand_on_each_other_are_built_at_once,
    each_is_told,
    what_has_not_changed_is_passed_over,
    an_edit_builds_what_stands_on_it,
    a_failure_is_told_and_ends_all,
    a_source_that_changes_is_not_kept,
    what_is_no_library_is_told,
    a_crate_on_itself_is_told,
    wrong_names_build_nothing,
]
