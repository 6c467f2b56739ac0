"""The page of definitions, as it is made from the comments above the definitions. It isn't kept in the repository."""

import re

import definitions

# Where `tools/definitions` writes it.
PAGE = "out/DEFINITIONS.md"

# What stands above all crates; its lines are joined to paragraphs.
HEAD = """# Definitions

<!-- Made by tools/definitions from the comments in the sources. To change a line, change the comment. -->

Every public definition of every crate, with the comment above it in the source. The crates and files are in reading
order. [REVIEW]({root}docs/proof/REVIEW.md) quotes the definitions that state the rules of RFC 6455 and compares them with its text.

- The line below a file's name is the head of the file. It names the section of RFC 6455.
- A definition that has no comment of its own is shown with its type. Most of these are parts of the definition above
them.
- *Inside* lists the definitions that no public contract needs: they serve the contracts of private functions, proofs,
and the printing of lines. A reader may skip them.
- A number in a definition has no upper bound. Where a byte is meant, the definition says so.
- Worked examples are theorems in the file `Examples` of each crate. Three kinds are elsewhere, because their proofs
need lemmas of the crate: what is not text is in [NoTexts]({root}crates/ws_text/proofs/NoTexts.antt), a first fault, an
exchange and a taken piece are in [WorkedExamples]({root}crates/ws_session/proofs/WorkedExamples.antt), and verdicts are
the laws `worked_verdicts` and `worked_protocol_verdicts` of `ws_suite`.
"""


def page_of(root):
    """The text of the page, whose links begin at its place below `root`."""
    up = "../" * PAGE.count("/")
    parts = [re.sub(r"(?<=.)\n(?=\w|\[)", " ", HEAD).format(root=up)]
    for crate in crates_in(root):
        files = list(files_of(root / "crates" / crate))
        if files:
            parts.append(f"## {crate}\n\n{what_it_is(root / 'crates' / crate)}\n")
            parts += [file_part(file, up + str(file.relative_to(root))) for file in files]
    return "\n".join(parts)


def parts_of(text):
    """The parts of the page by their crates."""
    return dict(part.split("\n", 1) for part in re.split(r"(?m)^## ", text)[1:])


def crates_in(root):
    lines = (root / "crates.txt").read_text().splitlines()
    return [line.split(":")[0] for line in lines if not line.startswith("#")]


def what_it_is(crate):
    """The first paragraph at the head of a crate's sources."""
    root = crate / "src/lib.rt"
    lines = (root if root.exists() else crate / "src/main.rt").read_text().splitlines()
    end = next(at for at, line in enumerate(lines) if line in ("//!", "") or not line.startswith("//!"))
    return marked(" ".join(line.removeprefix("//! ") for line in lines[:end]))


def files_of(crate):
    """The files of a crate's definitions with public ones, in reading order, without the worked examples."""
    listed = crate / "specs/Lib.antt"
    names = re.findall(r"(?m)^pub mod (\w+)", listed.read_text()) if listed.exists() else []
    for name in names:
        file = crate / f"specs/{name}.antt"
        if not name.endswith("Examples") and definitions.public_names(file.read_text()):
            yield file


def file_part(file, link):
    """A file: its head, and a line for each definition."""
    lines = file.read_text().splitlines()
    head = list(comment_before(lines, next(at for at, line in enumerate(lines) if not line.startswith("--"))))
    told = [f"### [{file.stem}]({link})", "", sentence(head), ""]
    skipped = "skip this file" in " ".join(head) or file.stem.startswith("Inner")
    inside, seen = [], set()
    for at, line in enumerate(lines):
        if line.startswith("-- ---- "):
            skipped = skipped or "skip" in line
            title = line.removeprefix("-- ---- ").strip()
            told += [] if skipped else [f"*{marked(title)}*", ""]
        match = definitions.PUBLIC.match(line)
        if not match or match[1] in seen or match[1] in definitions.NO_NAMES:
            continue
        seen.add(match[1])
        comment = sentence(comment_before(lines, at))
        if skipped:
            inside.append(match[1])
        else:
            told.append(f"- `{match[1]}`: {comment or f'`{type_at(lines, at)}`'}")
    told += [f"- *Inside*: {', '.join(f'`{name}`' for name in inside)}"] if inside else []
    return "\n".join(spaced(told))


def type_at(lines, at):
    """The type of the definition that begins at this line, which may go on in the lines below it."""
    end = at + 1
    while end < len(lines) and lines[end].startswith("    "):
        end += 1
    text = " ".join(line.strip() for line in lines[at:end])
    name = definitions.PUBLIC.match(lines[at])[1]
    return text.split(f" {name} ", 1)[-1].removeprefix(": ").removesuffix(" where")


def spaced(lines):
    """The lines with one empty line before each title and at the end, and none twice."""
    told = []
    for line in [*lines, ""]:
        if line.startswith("*") and told and told[-1]:
            told.append("")
        if line or (told and told[-1]):
            told.append(line)
    return told


def comment_before(lines, at):
    """The lines of the comment that ends above this line, without a title."""
    start = at
    while start and lines[start - 1].startswith("--") and not lines[start - 1].startswith("-- ----"):
        start -= 1
    return (line.removeprefix("--").strip() for line in lines[start:at])


def sentence(lines):
    return marked(" ".join(lines).strip())


def marked(text):
    """The text as Markdown: outside of code `<` and `*` are themselves, and a name with an underscore is code."""
    parts = re.split(r"(`[^`]*`)", text) if text.count("`") % 2 == 0 else [text.replace("`", "\\`")]
    return "".join(part if part.startswith("`") else plain(part) for part in parts)


def plain(text):
    text = re.sub(r"(?<![\w`\\])(\w+_\w+)", r"`\1`", text)
    return re.sub(r"([<*|])(?=\S)", r"\\\1", text)
