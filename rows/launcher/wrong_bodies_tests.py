"""Tests of `tools/wrong_bodies`, with a stand-in for the prover."""

TOOL = ("tools/wrong_bodies",)

# The stand-in notes what the record has before it says something of the second crate, of which it says nothing at all
# where a source says so.
STAND_IN = r"""#!/bin/sh
record="$(dirname "$0")/../a clone/wrong_bodies/refused.txt"
echo "must-fail one/first.edit: refused, as it must be (at a goal)"
echo "must-fail one/second.edit: not refused"
sleep 0.3
grep "^one/" "$record" | cut -d' ' -f1 >>"$BUILDS"
echo "then two" >>"$BUILDS"
read -r word <crates/two/src/lib.rt
[ "$word" = silent ] || echo "must-fail two/first.edit: refused, as it must be"
"""


def plant(clone):
    clone.program("../bin/rt", STAND_IN)
    for crate, names in (("one", ("first", "second")), ("two", ("first",))):
        clone.crate(crate)
        for name in names:
            clone.write(f"wrong_bodies/{crate}/{name}.edit", "file: src/lib.rt\nold: calm\nnew: wild\n")


def recorded(clone):
    lines = (clone.top / "wrong_bodies/refused.txt").read_text().splitlines()
    return [line.split()[0] for line in lines if "/" in line.split()[0]]


def each_crate_is_recorded_once_it_was_tried(clone):
    plant(clone)
    status, out, faults = clone.run(how=TOOL)
    assert (status, out.splitlines()[-1]) == (1, "wrong bodies: 2 passed, 1 failed"), (status, out, faults)
    assert clone.notes() == ["one/first", "then two"], clone.notes()
    assert recorded(clone) == ["one/first", "two/first"]


def what_was_not_tried_stays_recorded(clone):
    plant(clone)
    clone.run(how=TOOL)
    clone.write("crates/two/src/lib.rt", "silent\n")
    status, out, faults = clone.run(how=TOOL)
    assert (status, out.splitlines()[-1]) == (1, "wrong bodies: 1 passed, 2 failed"), (status, out, faults)
    assert recorded(clone) == ["one/first", "two/first"]
    assert clone.run("--list", how=TOOL)[1] == "one: 1 of 2\ntwo: 1 of 1\n"


def what_a_file_says_was_refused_is_kept_where_it_is_of_these_files(clone):
    plant(clone)
    clone.run(how=TOOL)
    record = clone.top / "wrong_bodies/refused.txt"
    lines = record.read_text()
    clone.write("refused", lines + "one/second 0123456789abcdef\none/third 0123456789abcdef\n")
    record.unlink()
    status, out, faults = clone.run("--refused", "refused", how=TOOL)
    assert (status, out) == (1, "wrong bodies: 2 passed, 2 failed\n"), (status, out, faults)
    assert record.read_text() == lines
    assert clone.notes() == ["one/first", "then two"], clone.notes()
    assert clone.run("--refused", "nothing", how=TOOL)[0] == 2


TESTS = [
    each_crate_is_recorded_once_it_was_tried,
    what_was_not_tried_stays_recorded,
    what_a_file_says_was_refused_is_kept_where_it_is_of_these_files,
]
