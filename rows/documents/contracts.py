"""The contracts of the public calls of a crate, from its sources: which clauses each has, and which definitions these
use."""

import re
from dataclasses import dataclass, field
from functools import cache

import definitions

FUNCTION = re.compile(r"^( *)(pub(?:\(\w+\))? )?(?:const )?fn (\w+)")
BLOCK = re.compile(r"^(?:impl(?:<.*?>)? (?:([\w:]+)(?:<.*?>)? for )?&?(?:'\w+ )?([\w:]+)|pub (trait) (\w+))")
CLAUSE = re.compile(r"^ +(ensures|requires|ghost)\*? (?:(\w+)(?: =)? )?\{")
OPENED = re.compile(r"^ *(?:ensures|requires|ghost)")
TAKEN = re.compile(r"^ *ghost use Rattle\.wst?_[\w.]+\.\{([^}]*)\};", re.MULTILINE)
WORD = re.compile(r"(?<![\w.])[A-Za-z_]\w*")

# The name of a clause that has none.
UNNAMED = "ensures"

# Of the members that contracts alone see, a row is owed to the text that is shown. The others are named where a claim
# needs them.
SHOWN = ("Display", "output")


@dataclass
class Clause:
    """A clause: `ensures`, `requires` or `ghost`, and the public definitions that it uses, in their order."""

    kind: str
    definitions: list


@dataclass
class Call:
    """A public function, law or implementation of a trait, by its name on the page."""

    name: str
    comment: str
    clauses: dict = field(default_factory=dict)

    def owed(self):
        """The names of the clauses that the page must have."""
        shows = self.name.startswith(f"{SHOWN[0]} of ")
        return [name for name, it in self.clauses.items() if it.kind == "ensures" or shows and name == SHOWN[1]]


def contracts_of(crate, defined):
    """The public calls of a crate's folder that have clauses, by their names. `defined` are all public definitions."""
    root = crate / "src/lib.rt"
    text = root.read_text() if root.exists() else ""
    lists = re.findall(r"(?ms)^pub use [\w:]+?::(\{.*?\}|\w+);", text)
    names = {*WORD.findall(" ".join(lists)), *re.findall(r"(?m)^pub fn (\w+)", text)}
    modules = set(re.findall(r"(?m)^pub mod (\w+);", text))
    calls = {}
    for file in sorted(crate.glob("src/**/*.rt")):
        module = file.relative_to(crate / "src").parts[0].removesuffix(".rt")
        for call in calls_of(file.read_text(), module, names, modules, defined):
            known = calls.setdefault(call.name, call)
            known.clauses.update(call.clauses)
    return {name: call for name, call in calls.items() if call.clauses}


def calls_of(source, module, names, modules, defined):
    """The public calls of a file, of the crate whose public names and modules are these."""
    taken = {word for words in TAKEN.findall(source) for word in WORD.findall(words)} & defined
    owner = trait = ""
    lines = source.splitlines()
    for at, line in enumerate(lines):
        block, function = BLOCK.match(line), FUNCTION.match(line)
        if block:
            trait, owner = (block[4], block[4]) if block[3] else (last(block[1]), last(block[2]))
            if trait and not block[3] and owner in names:
                yield Call(f"{trait} of {owner}", "", clauses_of(members(lines[at:]), taken))
        elif function:
            inside = owner if function[1] else ""
            is_public = function[2] == "pub " or bool(inside and trait)
            if is_public and (inside in names if inside else function[3] in names or module in modules):
                name = f"{inside}::{function[3]}" if inside else function[3]
                name = f"law {name}" if module == "laws" and not inside else name
                contract = clauses_of(contract_lines(lines[at:], len(function[1])), taken)
                yield Call(name, comment_above(lines, at), contract)


def last(path):
    return path.split("::")[-1] if path else ""


def comment_above(lines, at):
    """The first paragraph of the comment of a function, which may have attributes below it."""
    start = at
    while start and lines[start - 1].lstrip().startswith(("///", "#[")):
        start -= 1
    comment = [line.strip().removeprefix("///").strip() for line in lines[start:at] if line.lstrip().startswith("///")]
    return " ".join(comment[: comment.index("")] if "" in comment else comment)


def members(lines):
    """The lines of the members of an `impl` that contracts alone see."""
    inside = []
    for line in lines[1:] if not lines[0].endswith("}") else []:
        if line == "}":
            break
        inside.append(line)
    return [line for line in inside if not line.startswith("     ") or not CLAUSE.match(line)]


def contract_lines(lines, indent):
    """The contract of the function at the front of these lines: what stands before its body, or before the `;` of one
    that a trait asks for."""
    head, opened = [], False
    for line in lines:
        head.append(line)
        opened = opened or OPENED.match(line) is not None
        if line.startswith(" " * indent + "{") or line.endswith(("};",) if opened else (";", "{", "}")):
            break
    return head


def clauses_of(lines, taken):
    """The clauses among these lines by their names."""
    found, name, kind, text = {}, None, "", []
    for line in [*lines, "ensures {"]:
        if OPENED.match(line) or not line.startswith(" "):
            if name is not None:
                words = [word for word in dict.fromkeys(WORD.findall(" ".join(text))) if word in taken]
                known = found.setdefault(name, Clause(kind, []))
                known.definitions += [word for word in words if word not in known.definitions]
            match = CLAUSE.match(line)
            name, kind, text = ((match[2] or match[1]), match[1], []) if match else (None, "", [])
            line = line[match.end() :] if match else line
        text.append(line)
    return found


class Uses:
    """Which definitions use which, over the texts of all files of definitions."""

    def __init__(self, texts):
        self.uses = {}
        for text in texts:
            for name, used in uses_of(text):
                self.uses.setdefault(name, set()).update(used)

    def reached(self, names):
        """These names, and all that their definitions use."""
        found, left = set(names), list(names)
        while left:
            new = self.uses.get(left.pop(), set()) - found
            found |= new
            left += new
        return found


@cache
def uses_of(text):
    """The definitions of a file, each with the names that it uses."""
    found, name, used = [], None, []
    for line in text.splitlines():
        match = definitions.DEFINED.match(line)
        if match and match[1] not in definitions.NO_NAMES:
            if match[1] != name:
                found.append((name, set(WORD.findall(" ".join(used)))))
                name, used = match[1], []
        if not line.startswith(("--", "use ", "pub use ")):
            used.append(line)
    found.append((name, set(WORD.findall(" ".join(used)))))
    return tuple((name, frozenset(used)) for name, used in found if name)
