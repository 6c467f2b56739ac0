"""Tests of the files that `./install` puts and removes."""

import shutil
import tempfile
from pathlib import Path

from place import PROGRAM, ROOT, run

RIGHTS = {
    "bin/wst": 0o755,
    "share/bash-completion/completions/wst": 0o644,
    "share/fish/vendor_completions.d/wst.fish": 0o644,
    "share/man/man1/wst.1": 0o644,
    "share/zsh/site-functions/_wst": 0o644,
}


def files_below(prefix):
    return {str(file.relative_to(prefix)): file.stat().st_mode & 0o777 for file in prefix.rglob("*") if file.is_file()}


def five_files_are_put(prefix):
    assert files_below(prefix) == RIGHTS, files_below(prefix)
    assert (prefix / "bin/wst").read_bytes() == PROGRAM.read_bytes()


def the_program_runs_there(prefix):
    assert run(str(prefix / "bin/wst"), "test", "own", "2.5") == (0, "2.5 PASS\n1 pass, 0 loose, 0 fail\n", "")


def it_has_one_name(_):
    """A file of another name calls itself wst in its line of usage."""
    with tempfile.TemporaryDirectory() as folder:
        other = Path(folder) / "other"
        shutil.copy(PROGRAM, other)
        status, out, faults = run(str(other), "test")
        assert (status, out) == (2, "") and "\nUsage: wst test " in faults, faults
        assert "\nUsage: wst test " in run(str(other), "test", "--help")[1]


def a_second_install_replaces(prefix):
    before = {name: (prefix / name).read_bytes() for name in RIGHTS}
    (prefix / "bin/wst").write_text("old")
    (prefix / "share/man/man1/wst.1").write_text("old")
    status, out, faults = run(str(ROOT / "install"), ".", folder=prefix)
    assert (status, faults, len(out.splitlines())) == (0, "", 5), (status, out, faults)
    assert {name: (prefix / name).read_bytes() for name in RIGHTS} == before


def five_files_are_removed(_):
    with tempfile.TemporaryDirectory() as folder:
        prefix = Path(folder)
        assert run(str(ROOT / "install"), folder)[0] == 0
        (prefix / "bin/other").write_text("other")
        folders = sorted(file for file in prefix.rglob("*") if file.is_dir())
        for _ in range(2):
            assert run(str(ROOT / "install"), "--remove", folder) == (0, "", "")
            assert list(files_below(prefix)) == ["bin/other"], files_below(prefix)
            assert sorted(file for file in prefix.rglob("*") if file.is_dir()) == folders


def a_prefix_that_takes_no_files_is_told(prefix):
    status, out, faults = run(str(ROOT / "install"), str(prefix / "bin/wst"))
    assert (status, out) == (1, "") and faults, (status, out, faults)


def wrong_words_put_nothing(_):
    with tempfile.TemporaryDirectory() as folder:
        for words in (("a", "b"), ("",), ("--remove", "a", "b"), ("--remove", ""), ("--help",), ("a", "--remove")):
            status, out, faults = run(str(ROOT / "install"), *words, folder=folder)
            assert (status, out) == (2, "") and faults.startswith("install: usage error"), (words, status, out, faults)
        assert files_below(Path(folder)) == {}


TESTS = [
    five_files_are_put,
    the_program_runs_there,
    it_has_one_name,
    a_second_install_replaces,
    five_files_are_removed,
    a_prefix_that_takes_no_files_is_told,
    wrong_words_put_nothing,
]
