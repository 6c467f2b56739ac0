"""The tables that are written from elsewhere: the rules of VERDICTS and the titles of CASES, from definitions, and of
each crate of CRATES what it is, from the head of its sources, and on what it stands, from `crates.txt`."""

import re

from index import what_it_is

SENTENCE = r'((?:\s+(?:\+\+ )?codes ".*")+)$'
RULE = re.compile(rf"(?m)^(fail|loose|protocol|protocol_loose)_rule (\w+) \w+\.(\w+) ={SENTENCE}")
FAULT_RULE = re.compile(rf"(?m)^(?:reason_rule reason\.(\w+)|(doomed)_rule) ={SENTENCE}")
SENDER_RULE = re.compile(rf"(?m)^sender_rule reason\.(\w+) ={SENTENCE}")
TITLE = re.compile(r'(?m)^    (?:∷ )?\(codes "(.*)", codes "(.*)"\)$')
HEADS = {
    False: "| Verdict | Rule of a server | Rule of a client |",
    True: "| Verdict | What the standard orders of a server | What it orders of a client |",
}
FAULT_HEAD = "| Violation | Rule if it was sent | Rule if it was received |"
TITLE_HEAD = "| Case | Title |"


def rules_of(words):
    """The rule of each verdict by the role of the tested end: those of all, and those that it has by the protocol."""
    told = {False: {}, True: {}}
    for kind, role, why, parts in RULE.findall(words):
        name = f"{'LOOSE' if kind.endswith('loose') else 'FAIL'} {why}"
        for one in ("Server", "Client") if role == "tested" else (role,):
            told[kind.startswith("protocol")].setdefault(name, {})[one] = sentence_of(parts)
    return told


def fault_rules_of(rules):
    """The rule of each fault, and of what is doomed."""
    return {name or doomed.title(): sentence_of(parts) for name, doomed, parts in FAULT_RULE.findall(rules)}


def sentence_of(parts):
    return "".join(re.findall('codes "(.*)"', parts))


def with_rules(page, words):
    """The page of verdicts with both tables of their rules."""
    for by_protocol, rules in rules_of(words).items():
        page = with_table(page, HEADS[by_protocol], [(name, by["Server"], by["Client"]) for name, by in rules.items()])
    return page


def with_fault_rules(page, rules):
    """The page of verdicts with the table of the rules of faults."""
    senders = {name: sentence_of(parts) for name, parts in SENDER_RULE.findall(rules)}
    rows = [(name, rule, senders.get(name, "")) for name, rule in fault_rules_of(rules).items()]
    return with_table(page, FAULT_HEAD, rows)


def with_titles(page, titles):
    """The page of cases with the table of their titles."""
    return with_table(page, TITLE_HEAD, TITLE.findall(titles))


def with_table(page, head, rows):
    """The page with these rows below the head of a table, the first cell of each as code."""
    text = "".join(f"| `{name}` | {' | '.join(cells)} |\n" for name, *cells in rows)
    return re.sub(rf"(?m)^({re.escape(head)}\n[|-]+\n)(?:\|.*\n)*", lambda table: table[1] + text, page)


def below_of(crates):
    """The crates on which each stands, as `crates.txt` has them."""
    lines = [line.split(":") for line in crates.splitlines() if not line.startswith("#")]
    return {name: names.split() for name, names in lines}


def all_below(names, below):
    """All crates on which some stand."""
    found = {name for one in names for name in below.get(one, [])}
    return found | all_below(found, below) if found else found


def with_crates(page, root):
    """The page of crates with what each is, the first sentence at the head of its sources, and what it stands on: the
    crates below which it has no other, and others' crates."""
    below = below_of((root / "crates.txt").read_text())
    for name, names in below.items():
        ours = [one for one in names if one in below and one not in all_below(set(names) - {one}, below)]
        reached = all_below(ours, below)
        told = ", ".join(f"`{one}`" for one in ours)
        told += f" and what {'it stands' if len(ours) == 1 else 'they stand'} on" if reached else ""
        theirs = [f"`{one}`" for one in names if one not in below and one not in reached]
        cell = "".join(f" {one}" for one in [", ".join([told, *theirs] if told else theirs)] if one)
        head = what_it_is(root / "crates" / name).split(". ")[0].rstrip(".")
        page = re.sub(
            rf"(?m)^(\| `{name}` \|)[^|]*(\|.*\|) [^|]*\|$",
            lambda row: f"{row[1]} {head} {row[2]}{cell} |",
            page,
        )
    return page


def words_written(page):
    """How many words of a page stand in these tables."""
    heads = (*HEADS.values(), FAULT_HEAD, TITLE_HEAD)
    rows = [re.findall(rf"(?m)^{re.escape(head)}\n[|-]+\n((?:\|.*\n)*)", page) for head in heads]
    return len(" ".join(text for found in rows for text in found).split())


def words_of_crates(page):
    """How many words of the rows of crates are written so."""
    rows = [row.split("|") for row in page.splitlines() if row.startswith("| `")]
    return sum(len(row[2].split()) + len(row[-2].split()) for row in rows)
