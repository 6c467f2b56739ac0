"""The definitions of the crates: which names a file of them defines, and which it takes from other files."""

import re

DEFINED = re.compile(r"^(?:(?:abbrev|unfoldable) )*(?:pub )?(?:(?:record|data) )?(\w+)(?= |$)")
PUBLIC = re.compile(r"^(?:(?:abbrev|unfoldable) )*pub (?:(?:record|data) )?(\w+)(?= |$)")
USED = re.compile(r"^(?:pub )?use ([\w.]+)\.\{([^}]*)\}")
OURS = ("Rattle.ws_", "Rattle.wst", "Rattle.test_")
NO_NAMES = ("use", "pub", "mod", "unfolding", "record", "data", "abbrev", "unfoldable")
WORD = re.compile(r"(?<![\w.])[A-Za-z_]\w*")


def names_by(pattern, text):
    """The names at the beginning of a line that are defined there."""
    found = (pattern.match(line) for line in text.splitlines())
    return {match[1] for match in found if match and match[1] not in NO_NAMES}


def public_names(text):
    """The public definitions of a file."""
    return names_by(PUBLIC, text)


def has_theorem(text, name):
    """Whether a file of definitions or proofs has a theorem or a law of this name, or a law with such a clause."""
    forms = (rf"^(?:pub )?{name} :", rf"^pub fn {name}\(\)", rf"^ +ensures {name} ")
    return any(re.search(form, text, re.MULTILINE) for form in forms)


def has_type(text, name):
    """Whether sources have a type, or a constant, of this name."""
    return re.search(rf"^ *pub(?:\(crate\))? (?:enum|struct|type|trait|const) {name}\b", text, re.MULTILINE) is not None


def has_definition(text, name):
    """Whether a file has a definition, or a type of the code, of this name."""
    form = rf"^(?:abbrev |unfoldable )*(?:pub )?(?:record |data )?{name}(?= )"
    return re.search(form, text, re.MULTILINE) is not None or has_type(text, name)


def taken_names(text, ours):
    """The names that a file takes from other files, ours or the kit's, without the variants of enums."""
    taken = set()
    for line in text.splitlines():
        match = USED.match(line)
        if match and not match[1].endswith("TheVariants") and match[1].startswith(OURS) == ours:
            taken |= {name.split(" as ")[-1].strip() for name in match[2].split(",")}
    return {name for name in taken if WORD.fullmatch(name)}


def bound_names(lines):
    """The names that one definition binds, as its parameters: they are no uses of a definition of that name."""
    found = re.findall(r"[({] *((?:\w+ +)+): |λ ((?:\w+ *)+)\.", code_of(lines))
    return {name for names in found for name in " ".join(names).split()}


def code_of(lines):
    """The lines without their comments and texts."""
    code = " ".join(line for line in lines if not line.lstrip().startswith("--"))
    return re.sub(r'"[^"]*"', " ", code)


def words_of(lines, text):
    """The names that some lines of a file use: those of ours, which it defines or takes, and those of the kit."""
    used = set(WORD.findall(code_of(lines)))
    return used & (names_by(DEFINED, text) | taken_names(text, True)), used & taken_names(text, False)
