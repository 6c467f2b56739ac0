"""Changes of a Python source, each of one expression or statement: what it asks is turned, dropped or shifted by one.

A change is told as `FUNCTION: OLD -> NEW`, with the number of its place where the function holds OLD several times.
"""

import ast
from collections import Counter
from typing import NamedTuple

OPERATORS = {
    ast.Lt: ("<", ["<=", ">="]),
    ast.LtE: ("<=", ["<", ">"]),
    ast.Gt: (">", [">=", "<="]),
    ast.GtE: (">=", [">", "<"]),
    ast.Eq: ("==", ["!="]),
    ast.NotEq: ("!=", ["=="]),
    ast.In: ("in", ["not in"]),
    ast.NotIn: ("not in", ["in"]),
    ast.Is: ("is", ["is not"]),
    ast.IsNot: ("is not", ["is"]),
    ast.Add: ("+", ["-"]),
    ast.Sub: ("-", ["+"]),
    ast.Mod: ("%", ["//"]),
    ast.FloorDiv: ("//", ["%"]),
}
IN_ORDER = {ast.Eq: ("==", ["<=", ">="]), ast.NotEq: ("!=", ["<", ">"])}


class Change(NamedTuple):
    name: str
    start: int
    end: int
    new: str

    def source(self, source):
        return source[: self.start] + self.new + source[self.end :]


def changes_of(source, exchanged):
    """All changes of a source; the names and attributes of each group in `exchanged` are taken for one another."""
    reader = Reader(source, exchanged)
    reader.visit(ast.parse(source))
    return named(source, reader.found)


def named(source, found):
    """The changes with their names, each once."""
    changes, seen, counts = [], set(), Counter()
    for function, start, end, new in found:
        if (start, end, new) in seen or source[start:end] == new:
            continue
        seen.add((start, end, new))
        name = " ".join(f"{function}: {source[start:end]} -> {new}".split())
        counts[name] += 1
        changes.append(Change(name if counts[name] == 1 else f"{name} ({counts[name]})", start, end, new))
    return changes


class Reader(ast.NodeVisitor):
    """Collects what can be changed, from the front to the end."""

    def __init__(self, source, exchanged):
        self.source, self.found, self.function = source, [], "top"
        self.lines = [0]
        for line in source.splitlines(keepends=True):
            self.lines.append(self.lines[-1] + len(line))
        self.exchanged = {name: [other for other in group if other != name] for group in exchanged for name in group}

    # ---- where a node stands, and what it says

    def start(self, node):
        return self.lines[node.lineno - 1] + node.col_offset

    def end(self, node):
        return self.lines[node.end_lineno - 1] + node.end_col_offset

    def text(self, node):
        return self.source[self.start(node) : self.end(node)]

    def put(self, node, *texts):
        """The node is replaced by each of the texts."""
        self.found += [(self.function, self.start(node), self.end(node), text) for text in texts]

    def put_between(self, left, right, old, texts):
        """The operator between two nodes is replaced; told with both."""
        start, end = self.start(left), self.end(right)
        at = self.source.index(old, self.end(left))
        for text in texts:
            new = self.source[start:at] + text + self.source[at + len(old) : end]
            self.found.append((self.function, start, end, new))

    # ---- what is changed

    def visit_FunctionDef(self, node):
        outer, self.function = self.function, node.name
        for child in node.body[1:] if ast.get_docstring(node) else node.body:
            self.visit(child)
        self.function = outer

    def visit_Import(self, node):
        pass

    visit_ImportFrom = visit_AnnAssign = visit_Import

    def visit_Module(self, node):
        for child in node.body[1:]:
            self.visit(child)

    def visit_ClassDef(self, node):
        pass

    def visit_Compare(self, node):
        for left, operator, right in zip([node.left, *node.comparators], node.ops, node.comparators):
            self.put_between(left, right, *OPERATORS[type(operator)])
            if type(operator) in IN_ORDER and isinstance(right, ast.Constant) and isinstance(right.value, int):
                self.put_between(left, right, *IN_ORDER[type(operator)])
            if isinstance(right, ast.Tuple):
                self.drop_each(right)
        self.generic_visit(node)

    def visit_BinOp(self, node):
        if type(node.op) in OPERATORS:
            self.put_between(node.left, node.right, *OPERATORS[type(node.op)])
            self.put(node, self.text(node.left), self.text(node.right))
        self.generic_visit(node)

    def visit_BoolOp(self, node):
        old, new = (" and ", " or ") if isinstance(node.op, ast.And) else (" or ", " and ")
        parts = [f"({self.text(value)})" for value in node.values]
        self.put(node, f"({new.join(parts)})")
        for at in range(len(parts)):
            self.put(node, f"({old.join(parts[:at] + parts[at + 1 :])})")
        self.generic_visit(node)

    def visit_UnaryOp(self, node):
        if isinstance(node.op, ast.Not):
            self.put(node, self.text(node.operand))
        self.generic_visit(node)

    def visit_If(self, node):
        self.put(node.test, "True", "False")
        self.generic_visit(node)

    visit_IfExp = visit_If

    def visit_comprehension(self, node):
        for test in node.ifs:
            self.put(test, "True")
        self.generic_visit(node)

    def visit_Constant(self, node):
        if type(node.value) is int:
            self.put(node, str(node.value + 1), str(node.value - 1))
        elif isinstance(node.value, str):
            self.put(node, *map(repr, self.exchanged.get(node.value, [])))

    def visit_Name(self, node):
        if isinstance(node.ctx, ast.Load):
            self.put(node, *self.exchanged.get(node.id, []))

    def visit_Attribute(self, node):
        self.put(node, *(f"{self.text(node.value)}.{name}" for name in self.exchanged.get(node.attr, [])))
        self.generic_visit(node)

    def visit_Slice(self, node):
        lower, upper = (self.text(part) if part else "" for part in (node.lower, node.upper))
        if lower:
            self.put(node, f":{upper}")
        if upper:
            self.put(node, f"{lower}:")
        self.generic_visit(node)

    def visit_List(self, node):
        """Each part is left out; of a list of rules at the top next ones are exchanged."""
        self.drop_each(node)
        if self.function == "top" and all(isinstance(part, ast.Tuple) for part in node.elts):
            for left, right in zip(node.elts, node.elts[1:]):
                between = self.source[self.end(left) : self.start(right)]
                text = f"{self.text(right)}{between}{self.text(left)}"
                self.found.append((self.function, self.start(left), self.end(right), text))
        self.generic_visit(node)

    def drop_each(self, node):
        for part in node.elts:
            self.put(part, "*[]")

    def visit_Dict(self, node):
        for key, value in zip(node.keys, node.values):
            self.found.append((self.function, self.start(key), self.end(value), "**{}"))
        self.generic_visit(node)

    def visit_Return(self, node):
        """A question is always answered so."""
        if node.value is None:
            self.put(node, "pass")
        else:
            if self.function.startswith(("is_", "has_", "skips_", "ends_", "echoes_")):
                self.put(node.value, "True", "False")
            self.generic_visit(node)

    def visit_Break(self, node):
        self.put(node, "pass")

    def visit_Continue(self, node):
        self.put(node, "pass")
