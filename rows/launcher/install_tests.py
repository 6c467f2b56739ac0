"""Tests of `install` where the program is not built."""

from clone import SOURCE
from launcher_tests import BUILDING

INSTALL = ("./install",)
PLACES = [
    "bin/wst",
    "share/bash-completion/completions/wst",
    "share/fish/vendor_completions.d/wst.fish",
    "share/man/man1/wst.1",
    "share/zsh/site-functions/_wst",
]


def places_below(clone, prefix):
    below = clone.top / prefix
    return sorted(str(file.relative_to(below)) for file in below.rglob("*") if file.is_file())


def what_is_not_built_is_built_first(clone):
    clone.add_install()
    status, out, faults = clone.run("below", how=INSTALL)
    assert (status, sorted(out.splitlines())) == (0, [f"below/{place}" for place in PLACES]), (status, out, faults)
    assert faults.startswith(BUILDING) and clone.count() == 1, faults
    assert places_below(clone, "below") == PLACES
    assert clone.run("show", how=("below/bin/wst",)) == (3, "first show\n", "")
    assert clone.run("again", how=INSTALL)[::2] == (0, "") and clone.count() == 1


def what_can_not_be_built_is_not_put(clone):
    clone.add_install()
    clone.write(SOURCE, "broken\n")
    status, out, faults = clone.run("below", how=INSTALL)
    assert (status, out) == (4, "") and "the build failed" in faults, (status, out, faults)
    assert not (clone.top / "below").exists()


def where_its_texts_can_not_be_written_nothing_is_put(clone):
    clone.add_install()
    clone.program("tools/home/write", "#!/bin/sh\nexit 1\n")
    status, out, _ = clone.run("below", how=INSTALL)
    assert (status, out) == (1, ""), (status, out)
    assert not (clone.top / "below").exists()


def removing_builds_nothing(clone):
    clone.add_install()
    assert clone.run("--remove", "below", how=INSTALL) == (0, "", "")
    assert clone.count() == 0 and not (clone.top / "below").exists()


TESTS = [
    what_is_not_built_is_built_first,
    what_can_not_be_built_is_not_put,
    where_its_texts_can_not_be_written_nothing_is_put,
    removing_builds_nothing,
]
