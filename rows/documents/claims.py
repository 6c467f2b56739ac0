"""The page of claims: what is written of each public call by its contract, and what a person says of it.

Below the heading of a crate stand lists of calls. The names of the calls, the names of their clauses and the
definitions that these use are the contract's; behind the colon is what a person claims:

    - **`CALL`, `CALL`** `clause`, `clause` (`definition`): Sentence.

and for several clauses a list below it, whose items may have several claims:

    - **`CALL`**:
      - `clause`: Sentence.
      - `clause` (`definition`), 2 claims:
        - Sentence.
        - Sentence.

A sentence in asterisks is the comment of the (first) call in its source, and written from there."""

import re
from dataclasses import dataclass, field

from contracts import UNNAMED, Uses, contracts_of
from definitions import public_names
from index import marked

GROUP = re.compile(r"^- \*\*(.*?)\*\*:? ?(.*)$")
ITEM = re.compile(r"^((?:`\w+`(?:, )?)*) ?(?:\(([^)]*)\))?(?:, \d+ claims)?: ?(.*)$")
NAMED = re.compile(r"\(((?:`\w+`(?:, | and )?)+)\)")
CODE = re.compile(r"`([^`]+)`")
LAST = "What is only tested"
NOT_OF_THE_PRODUCT = ("test_", "ws_bench", "wst_jobs", "example_")


@dataclass
class Item:
    """Clauses, and the sentences about them."""

    clauses: list
    sentences: list = field(default_factory=list)


@dataclass
class Group:
    """Calls, and the items about their clauses."""

    calls: list
    items: list = field(default_factory=list)


class Contracts:
    """What the sources below a folder say."""

    def __init__(self, root):
        specs = [file.read_text() for file in sorted(root.glob("crates/*/specs/*.antt"))]
        self.root, self.uses = root, Uses(specs)
        self.defined = set().union(*(public_names(text) for text in specs))
        self.crates = {}

    def of(self, crate):
        if crate not in self.crates:
            self.crates[crate] = contracts_of(self.root / "crates" / crate, self.defined)
        return self.crates[crate]


def parts_of(text):
    """The lines of a crate's part: its groups, and each other line as it is. Empty lines inside a group are left
    out."""
    parts = []
    for line in text.split("\n"):
        group, above = GROUP.match(line), last_group(parts)
        if group:
            parts.append(Group([name.replace("`", "") for name in group[1].split(", ")]))
            parts[-1].items += [item_of(group[2])] if group[2] else []
        elif line.startswith(("  - ", "    - ")) and above is not None:
            del parts[above + 1 :]
            items = parts[above].items
            if line.startswith("  - "):
                items.append(item_of(line[4:]))
            else:
                items += [] if items else [Item([UNNAMED])]
                items[-1].sentences.append(line[6:])
        else:
            parts.append(line)
    return parts


def last_group(parts):
    """The place of a group behind which there are only empty lines."""
    at = len(parts) - 1
    while at >= 0 and parts[at] == "":
        at -= 1
    return at if at >= 0 and isinstance(parts[at], Group) else None


def item_of(text):
    """An item in one line. One without a colon has no clause, and all of it is a sentence."""
    match = ITEM.match(text if ":" in text else f": {text}")
    clauses = CODE.findall(match[1]) if match else []
    sentence = match[3] if match else text
    return Item(clauses or [UNNAMED], [sentence] if sentence else [])


def with_contracts(parts, calls, lost):
    """The parts as the contracts of a crate's calls have them. `lost` gets the sentences whose calls or clauses are
    gone."""
    said = set()
    for group in [part for part in parts if isinstance(part, Group)]:
        group.calls = [name for name in dict.fromkeys(group.calls) if name in calls]
        for item in group.items:
            there = {(call, clause) for call in group.calls for clause in item.clauses if clause in calls[call].clauses}
            new = {clause for _, clause in there - said}
            lost += [] if new else item.sentences
            every = dict.fromkeys(clause for call in group.calls for clause in calls[call].clauses)
            item.clauses = [clause for clause in every if clause in new]
            said |= there
        group.items = [item for item in group.items if item.clauses]
    parts = [part for part in parts if not isinstance(part, Group) or part.items]
    for name, call in calls.items():
        owed = [clause for clause in call.owed() if (name, clause) not in said]
        alone = [part for part in parts if isinstance(part, Group) and part.calls == [name]]
        if owed and alone:
            alone[0].items.append(Item(owed))
        elif owed:
            at = len(parts)
            while at and parts[at - 1] == "":
                at -= 1
            parts.insert(at, Group([name], [Item(owed)]))
    return parts


def text_of(parts, calls):
    return "\n".join(part if isinstance(part, str) else group_text(part, calls) for part in parts)


def group_text(group, calls):
    names = ", ".join(f"law `{name[4:]}`" if name.startswith("law ") else shown(name) for name in group.calls)
    if len(group.items) == 1:
        head = item_head(group, group.items[0], calls)
        head = head.removeprefix(f"`{UNNAMED}`").strip() if group.items[0].clauses == [UNNAMED] else head
        head = f"- **{names}**" + (f" {head}" if head and head[0] in "`(" else head)
        return "\n".join([head, *(f"    - {it}" for it in nested(group, group.items[0], calls))])
    lines = [f"- **{names}**:"]
    for item in group.items:
        lines += [f"  - {item_head(group, item, calls)}", *(f"    - {it}" for it in nested(group, item, calls))]
    return "\n".join(lines)


def shown(name):
    """The name of a call: `path`, or `Trait` of `Type`."""
    return " of ".join(f"`{part}`" for part in name.split(" of "))


def item_head(group, item, calls):
    used = definitions_of(group, item, calls)
    head = ", ".join(f"`{name}`" for name in item.clauses)
    head += f" ({', '.join(f'`{name}`' for name in used)})" if used else ""
    if len(item.sentences) > 1:
        return f"{head}, {len(item.sentences)} claims:"
    return f"{head}: {told(item.sentences[0], group, calls)}" if item.sentences else f"{head}:"


def nested(group, item, calls):
    return [told(it, group, calls) for it in item.sentences] if len(item.sentences) > 1 else []


def told(sentence, group, calls):
    """A sentence; one in asterisks is the comment of the first call."""
    comment = marked(calls[group.calls[0]].comment)
    return f"*{comment}*" if re.match(r"^\*[^*].*\*$|^\*$", sentence) and comment else sentence


def definitions_of(group, item, calls):
    """The definitions that the clauses of an item use."""
    used = {}
    for call in group.calls:
        for clause in item.clauses:
            if clause in calls[call].clauses:
                used.update(dict.fromkeys(calls[call].clauses[clause].definitions))
    return list(used)


def sections_of(text):
    """The page, cut before each heading of its second level."""
    return re.split(r"(?m)^(?=## )", text)


def crate_of(section):
    return re.match(r"## (.*)", section)[1] if section.startswith("## ") else ""


def page_with_contracts(text, contracts, crates):
    """The page as the contracts of these crates have it, and the sentences that were lost."""
    sections, lost = sections_of(text), []
    there = [crate_of(section) for section in sections]
    for crate in crates:
        if crate not in there and contracts.of(crate):
            at = next(at for at, section in enumerate(sections) if crate_of(section) == LAST)
            sections.insert(at, f"## {crate}\n\n\n")
    for at, section in enumerate(sections):
        crate = crate_of(section)
        if crate in crates:
            calls = contracts.of(crate)
            sections[at] = text_of(with_contracts(parts_of(section), calls, lost), calls)
    return "".join(sections), lost


def groups_in(text, crates):
    """The groups of the page, each with its crate."""
    for section in sections_of(text):
        if crate_of(section) in crates:
            yield from ((crate_of(section), part) for part in parts_of(section) if isinstance(part, Group))


def wrong_sentences(text, contracts, crates):
    """What is wrong with the sentences of the page: none where one is wanted, or one that names in parentheses a
    definition on which its clauses don't stand."""
    for crate, group in groups_in(text, crates):
        calls = contracts.of(crate)
        for item in group.items:
            where = f"{crate}: {', '.join(group.calls)}: {', '.join(item.clauses)}"
            sentences = [it for it in item.sentences if it.strip("* ")]
            yield None if sentences else f"{where}: no claim"
            known = [name for name in group.calls if name in calls]
            reached = contracts.uses.reached(definitions_of(Group(known), item, calls))
            for sentence in sentences:
                named = {name for names in NAMED.findall(sentence) for name in CODE.findall(names)}
                missing = sorted(named & contracts.defined - reached)
                yield f"{where}: not among its definitions: {', '.join(missing)}" if missing else None


def words_by_hand(text, crates):
    """How many words of the page a person keeps: the sentences that aren't comments, and all outside of lists."""
    count = 0
    for section in sections_of(text):
        if crate_of(section) not in crates:
            count += len(section.split())
            continue
        for part in parts_of(section):
            kept = [part] if isinstance(part, str) else [it for item in part.items for it in item.sentences]
            count += sum(len(it.split()) for it in kept if not re.match(r"^\*[^*].*\*$", it))
    return count


def product_crates(root):
    """The crates that the page speaks of, lowest first."""
    lines = [line for line in (root / "crates.txt").read_text().splitlines() if not line.startswith("#")]
    crates = [line.split(":")[0] for line in lines]
    return [name for name in crates if not name.startswith(NOT_OF_THE_PRODUCT)]
