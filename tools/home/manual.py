"""The manual page: what help says, and the texts of `docs/manual`, which say the rest. Each command has such a text,
`wst` itself too, and so has each subject that commands share."""

import re
import textwrap

SPECIAL = {"\\": "\\e", "'": "\\(aq", "`": "\\(ga", "^": "\\(ha", "~": "\\(ti"}
CODE = re.compile(r"(?<![\w^_])`([^`]+)`(?!\w)")
GAP = re.compile(r"^(\S.*?) {2,}(\S.*)$")
INDENT = re.compile(r" *")
VALUE = re.compile(r"<([^>]+)>")
MINUS = re.compile(r"--[\w-]+|(?<![a-zA-Z])-|-(?![a-zA-Z])")
MOST_COLUMNS = 78
WIDEST_TERM = 20

# The titles of two parts of help, and the subjects that have texts of their own, in their order on the page.
EXIT = "Exit status:"
EXAMPLES = "Examples:"
SUBJECTS = ("targets", "scripts", "verdicts", "captures")


def manual(program, date, texts):
    """The page in the macros `man`. The date is that of the version. `texts` is the folder of the texts."""
    end = program.whole.end
    parts = [
        f'.TH WST 1 {date} "wst {program.version}" "User Commands"',
        ".nr HY 0",
        ".ad l",
        ".SH NAME",
        f"wst \\- {roff(uncapped(program.whole.about))}",
        ".SH SYNOPSIS",
        *synopsis(program),
        ".SH DESCRIPTION",
        *section_of(text_of(texts, "wst")),
        ".SH COMMANDS",
        *(line for command in program.commands for line in section(command, text_of(texts, command.name))),
        *(line for name in SUBJECTS for line in (f".SH {name.upper()}", *section_of(text_of(texts, name)))),
        ".SH OPTIONS",
        *listed(program.whole.options),
        ".SH EXIT STATUS",
        *section_of(line for part in behind(end, EXIT) for line in part),
        ".SH EXAMPLES",
        *section_of(line for part in behind(end, EXAMPLES) for line in part),
    ]
    return "\n".join(parts) + "\n"


def text_of(texts, name):
    """The lines of a text."""
    return (texts / f"{name}.txt").read_text().splitlines()


def uncapped(text):
    return text[:1].lower() + text[1:]


def synopsis(program):
    yield ".nf"
    for command in program.commands:
        yield usage_line(command)
    yield from (bold(f"wst {option.name}") for option in program.whole.options)
    yield ".fi"


def usage_line(command):
    """How the command is called, its own name as it is to be written."""
    name = f"wst {command.name}"
    rest = roff(command.usage.removeprefix(name))
    return bold(name) + VALUE.sub(lambda match: italic(match[1]), rest)


def section(command, text):
    """What a command does, by its help and by its text, with its options, exit statuses and examples behind both."""
    yield f".SS {command.name}"
    yield usage_line(command)
    yield from prose([command.about + "."])
    yield from prose(without(command.end, EXIT, EXAMPLES))
    yield from prose(text)
    yield from listed(command.arguments)
    options = [option for option in command.options if option.name != "--help"]
    for heading in dict.fromkeys(option.heading for option in options):
        if heading != "Options":
            yield from prose([f"{heading}:"])
        yield from listed([option for option in options if option.heading == heading])
    yield from prose(line for mark in (EXIT, EXAMPLES) for part in behind(command.end, mark) for line in [mark, *part])


def listed(arguments):
    """Arguments or options, each with its help."""
    for argument in arguments:
        yield ".TP"
        yield headed(argument)
        yield from filled(argument.help)


def headed(argument):
    """How an argument is written."""
    if not argument.is_option:
        return italic(argument.value) + (" ..." if argument.is_many else "")
    names = ", ".join(bold(name) for name in (argument.short, argument.name) if name)
    return f"{names} {italic(argument.value)}" if argument.value else names


def without(lines, *marks):
    """The paragraphs that begin with none of these marks."""
    kept = [lines for lines in paragraphs(lines) if not lines[0].startswith(marks)]
    return [line for lines in kept for line in [*lines, ""]]


def behind(lines, mark):
    """The paragraphs that begin with this line, without it."""
    return [[*part[1:], ""] for part in paragraphs(lines) if part[0] == mark]


def paragraphs(lines):
    """The runs of lines between empty ones."""
    run = []
    for line in [*lines, ""]:
        if line:
            run.append(line)
        elif run:
            yield run
            run = []


def prose(lines):
    """Text as help has it: runs of lines at the margin are paragraphs, indented ones tables or stand as they are."""
    run, was_indented = [], False
    for line in [*lines, ""]:
        is_indented = line.startswith(" ")
        if run and (not line.strip() or is_indented != was_indented):
            yield from as_it_stands(run) if was_indented else [".PP", *filled(" ".join(run))]
            run = []
        was_indented = is_indented
        if line.strip():
            run.append(line)


def section_of(lines):
    """Text below a heading, which begins its first paragraph."""
    lines = list(prose(lines))
    return lines[1:] if lines[:1] == [".PP"] else lines


def as_it_stands(run):
    """Indented lines: a table of words and what they mean, or lines that are to be kept."""
    lines = textwrap.dedent("\n".join(run)).split("\n")
    table = table_of(lines)
    if table is None:
        yield from (".PP", ".RS 2", ".EX", *map(kept, lines), ".EE", ".RE")
        return
    width = min(WIDEST_TERM, max(len(term) for term, text in table if text) + 2)
    for term, text in table:
        yield f".TP {width}" if text else ".PP"
        yield bold(term.replace("`", ""))
        yield from filled(text)


def table_of(lines):
    """The rows of a table: words and a text, which goes on below itself, or for a row of two no text. None where the
    lines are no table."""
    rows, column = [], None
    for line in lines:
        match, indent = GAP.match(line), len(INDENT.match(line)[0])
        if match and not GAP.match(match[2]):
            rows.append((match[1], match[2]))
            column = match.start(2)
        elif GAP.match(line.strip()):
            return None
        elif rows and indent == column:
            rows[-1] = (rows[-1][0], f"{rows[-1][1]} {line.strip()}")
        elif indent == 0:
            rows.append((line, ""))
        else:
            return None
    return rows if 2 * sum(bool(text) for _, text in rows) > len(rows) else None


def kept(line):
    """A line that is to stand as it is."""
    return roff(line) or "\\&"


def filled(text):
    """A paragraph, each sentence on lines of its own."""
    for sentence in re.split(r"(?<=[.?!])\s+(?=[A-Z])", text.strip()):
        marked = CODE.sub(lambda match: bold(match[1]), escaped_outside(sentence))
        yield from map(guarded, textwrap.wrap(marked, MOST_COLUMNS, break_long_words=False, break_on_hyphens=False))


def escaped_outside(sentence):
    """A sentence with what is special escaped, but for what stands between marks."""
    parts, at = [], 0
    for match in CODE.finditer(sentence):
        parts += [roff(sentence[at : match.start()]), match[0]]
        at = match.end()
    return "".join([*parts, roff(sentence[at:])])


def roff(text):
    """Text that the macros take as it stands. A hyphen stays one between letters that are no option's; others are a
    minus."""
    special = "".join(SPECIAL.get(letter, letter) for letter in text)
    return guarded(MINUS.sub(lambda match: match[0].replace("-", "\\-"), special))


def bold(text):
    return f"\\fB{roff(text)}\\fR"


def italic(text):
    return f"\\fI{roff(text)}\\fR"


def guarded(line):
    """A line that is no request."""
    return f"\\&{line}" if line.startswith((".", "'")) else line
