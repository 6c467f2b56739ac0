"""Tests of the manual page."""

import re

from place import ROOT, commands, run, wst

PAGE = "share/man/man1/wst.1"
TEXTS = ROOT / "docs/manual"


def mandoc_finds_nothing(prefix):
    assert run("mandoc", "-T", "lint", str(prefix / PAGE)) == (0, "", "")


def man_warns_of_nothing(prefix):
    status, _, faults = run("man", "--warnings", "-l", str(prefix / PAGE), MANWIDTH="80", MANPAGER="cat")
    assert (status, faults) == (0, ""), (status, faults)


def it_fits_into_80_columns(prefix):
    """By either program. mandoc strikes letters over each other."""
    pages = [run("man", "-l", str(prefix / PAGE), MANWIDTH="80", MANPAGER="cat")[1]]
    pages.append(re.sub(".\b", "", run("mandoc", "-T", "utf8", str(prefix / PAGE))[1]))
    wide = [line for page in pages for line in page.splitlines() if len(line) > 80]
    assert not wide, wide


def it_has_all_texts(prefix):
    """Each paragraph of each text stands on the page, whatever its lines."""
    page = in_words(run("man", "-l", str(prefix / PAGE), MANWIDTH="80", MANPAGER="cat")[1])
    for file in sorted(TEXTS.glob("*.txt")):
        for part in re.split(r"\n\n", file.read_text()):
            assert in_words(part) in page, (file.name, in_words(part))


def man_says_all_that_help_says(prefix):
    says_all(run("man", "-l", str(prefix / PAGE), MANWIDTH="80", MANPAGER="cat")[1])


def mandoc_says_all_that_help_says(prefix):
    says_all(re.sub(".\b", "", run("mandoc", "-T", "utf8", str(prefix / PAGE))[1]))


def says_all(page):
    """Each paragraph of each help stands on the page, whatever its lines, and each argument with its help."""
    page = in_words(re.sub(r"(?<=\w)-\n +(?=\w)", "-", page))
    assert page.startswith("WST(1)") and len(commands()) > 5, page[:200]
    for command in commands():
        for part in parts_of(wst(command, "--help")):
            assert in_words(part) in page, (command, in_words(part))


def parts_of(text):
    """The paragraphs of a help, and its arguments, written as a manual has them."""
    text = re.sub(r"(?m)^  -h, --help +Print help\n?", "", text)
    text = re.sub(r"(?m)^(Usage: |Arguments:\n|Options:\n)", "", text)
    text = re.sub(r"(?m)^( {2,6}[-\[<][^ \n]*(?: <[^>]+>)?)", named, text)
    return [part for part in re.split(r"\n\n", text.replace("<", " ").replace(">", " ")) if part.strip()]


def named(match):
    """An argument without its brackets; its dots stand apart."""
    return re.sub(r"[\[\]<>]", "", match[1]).replace("...", " ...")


def in_words(text):
    """A text by its words, without the marks of code, and without `<` and `>`, which help puts round values."""
    return " ".join(re.sub(r"[<>]", " ", text.replace("`", "")).split())


TESTS = [
    mandoc_finds_nothing,
    man_warns_of_nothing,
    it_fits_into_80_columns,
    it_has_all_texts,
    man_says_all_that_help_says,
    mandoc_says_all_that_help_says,
]
