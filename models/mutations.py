"""Changes of a Python text: one operator, comparison, constant, boolean, case, name, attribute or statement at a time.

A text is changed at the position of a part of its syntax tree, so that each change can be shown and the rest keeps its
place. Types, decorators, comments and command-line code stay as they are.

A name becomes another one of its kind that is bound at its place, an attribute another one of its kind in its class (see
scopes.py), and a constant another one of its table.
"""

from __future__ import annotations

import ast
import re
from collections import Counter
from collections.abc import Iterator
from dataclasses import dataclass, replace
from typing import Dict, Optional, Tuple, Type, Union

from kinds import INT, Kinds, index_of
from scopes import Places, Scopes

# How a comparison is written, and its replacements.
COMPARISONS: Dict[Type[ast.cmpop], Tuple[str, Tuple[str, ...]]] = {
    ast.Lt: ("<", ("<=", ">=")),
    ast.LtE: ("<=", ("<", ">")),
    ast.Gt: (">", (">=", "<=")),
    ast.GtE: (">=", (">", "<")),
    ast.Eq: ("==", ("!=", "<=", ">=")),
    ast.NotEq: ("!=", ("==", "<", ">")),
    ast.Is: ("is", ("is not",)),
    ast.IsNot: ("is not", ("is",)),
    ast.In: ("in", ("not in",)),
    ast.NotIn: ("not in", ("in",)),
}
OPERATORS: Dict[Type[ast.operator], Tuple[str, str]] = {
    ast.Add: ("+", "-"),
    ast.Sub: ("-", "+"),
    ast.Pow: ("**", "*"),
    ast.Mod: ("%", "+"),
    ast.BitOr: ("|", "&"),
    ast.BitAnd: ("&", "|"),
    ast.LShift: ("<<", ">>"),
    ast.RShift: (">>", "<<"),
}
OTHER_CALLS = {"max": "min", "min": "max", "any": "all", "all": "any", "sorted": "list", "reversed": "list", "sum": "any"}
CLAIMS = ("NORMAL", "FAILOVER", "TAKEOVER")
VERDICTS = ("START", "FAILOVER", "MOVE", "TAKEOVER", "KEPT", "HALTED", "NOBODY")
BODIES = ("WHOLE", "INTERVAL", "NOTHING")
ACTS = ("Up", "Down", "Permit", "Start", "Stop", "ClaimAct", "Drain")
WORDS = ("VERB", "ACTOR", "NODE", "APP", "NUMBER", "TRUTH", "HEX", "CALLER")
LIVE_WORDS = ("READ", "FEED", "PHASE")
TABLES = (BODIES, ACTS, WORDS, LIVE_WORDS)
# The module with the verdicts' names.
PLACEMENT = "placement"

STATEMENTS = (ast.Expr, ast.Assign, ast.AnnAssign, ast.AugAssign, ast.Break, ast.If, ast.IfExp, ast.For, ast.comprehension)
UNTOUCHED_FUNCTIONS = ("main",)
UNTOUCHED_FIELDS = ("annotation", "returns", "decorator_list", "bases", "ops", "op", "ctx")
QUOTED = re.compile(r"[bf]?\"([^\"]*)\"|[bf]?'([^']*)'")
# A longer part is shown only by the lines of the change.
MOST_SHOWN = 120


@dataclass(frozen=True)
class Edit:
    """A part of a text with its replacement, and the part that is shown around it, or a pair of texts instead."""

    start: int
    end: int
    put: str
    around: Tuple[int, int]
    texts: Optional[Tuple[str, str]] = None


@dataclass(frozen=True)
class Mutation:
    """A change of a file: its function, its line, and the part before and after."""

    file: str
    function: str
    line: int
    edit: Edit
    old: str
    new: str

    def __str__(self) -> str:
        return f"{self.file} {self.function}: {self.old} -> {self.new}"

    def applied(self, text: str) -> str:
        return text[: self.edit.start] + self.edit.put + text[self.edit.end :]


def mutations_of(file: str, text: str, kinds: Optional[Kinds] = None) -> list[Mutation]:
    """All changes of a file, from top to bottom, given the kinds of names in its and other modules. Later ones that look
    alike in a function are numbered."""
    found: list[Mutation] = []
    seen: Counter[str] = Counter()
    for mutation in Walk(file, text, kinds or Kinds({file[: -len(".py")]: text})).mutations():
        seen[str(mutation)] += 1
        number = seen[str(mutation)]
        found.append(mutation if number == 1 else replace(mutation, new=f"{mutation.new} ({number})"))
    return found


def on_one_line(text: str) -> str:
    return " ".join(text.split())


def is_skipped(node: ast.AST) -> bool:
    """Whether a statement is outside the rules: a comment, an import, a type, or command-line code."""
    if isinstance(node, ast.Expr):
        return isinstance(node.value, ast.Constant)
    if isinstance(node, ast.If) and isinstance(node.test, ast.Compare):
        return isinstance(node.test.left, ast.Name) and node.test.left.id == "__name__"
    if isinstance(node, ast.Assign) and isinstance(node.value, ast.Subscript):
        return isinstance(node.value.value, ast.Name) and node.value.value.id in ("Union", "Callable")
    is_untouched = isinstance(node, ast.FunctionDef) and node.name in UNTOUCHED_FUNCTIONS
    return is_untouched or isinstance(node, (ast.Import, ast.ImportFrom, ast.Global))


def is_guard(node: ast.AST) -> bool:
    """Whether a statement may end its function: a call, or a case that returns or raises."""
    if isinstance(node, ast.If):
        return not node.orelse and isinstance(node.body[-1], (ast.Return, ast.Raise))
    return isinstance(node, ast.Expr) and isinstance(node.value, ast.Call)


class Walk:
    """Finds the changes of a text."""

    def __init__(self, file: str, text: str, kinds: Kinds) -> None:
        self.file = file
        self.text = text
        self.places = Places(text)
        self.span = self.places.span
        self.words = frozenset(re.findall(r"\w+", text))
        self.scopes = Scopes(file[: -len(".py")], self.places, kinds)
        self.function = "module"

    def mutations(self) -> Iterator[Mutation]:
        for function, edit in self.walk(ast.parse(self.text), None):
            line = self.text.count("\n", 0, edit.start) + 1
            old, new = edit.texts or self.shown(edit)
            yield Mutation(self.file, function, line, edit, old, new)

    def shown(self, edit: Edit) -> Tuple[str, str]:
        """The part around a change before and after it, or only the lines of the change if it is long."""
        start, end = edit.around
        if end - start > MOST_SHOWN:
            start = max(start, self.text.rfind("\n", 0, edit.start) + 1)
            end = min(end, max(edit.end, self.text.find("\n", edit.end)))
        new = self.text[start : edit.start] + edit.put + self.text[edit.end : end]
        return on_one_line(self.text[start:end]), on_one_line(new)

    def walk(self, node: ast.AST, around: Optional[ast.expr]) -> Iterator[Tuple[str, Edit]]:
        """The changes of a part, possibly inside a larger expression, with their functions."""
        if is_skipped(node):
            return
        outer = self.function
        if isinstance(node, (ast.FunctionDef, ast.ClassDef)):
            self.function = node.name if outer == "module" else f"{outer}.{node.name}"
        for edit in self.edits(node, around):
            yield self.function, edit
        inner = node if isinstance(node, ast.expr) and not isinstance(node, ast.Slice) else around
        for part in self.parts(node):
            yield from self.walk(part, inner)
        self.function = outer

    def parts(self, node: ast.AST) -> Iterator[ast.AST]:
        """The parts of a part that can be changed. A text with values in it has none."""
        fields = [] if isinstance(node, ast.JoinedStr) else ast.iter_fields(node)
        for name, value in fields:
            if name not in UNTOUCHED_FIELDS:
                yield from (part for part in (value if isinstance(value, list) else [value]) if isinstance(part, ast.AST))

    # Places

    def said(self, node: ast.AST) -> str:
        """The text of a part, in brackets if it needs them."""
        start, end = self.span(node)
        text = self.text[start:end]
        return f"({text})" if isinstance(node, (ast.BoolOp, ast.IfExp, ast.Lambda)) else text

    def other(self, node: ast.AST, put: str, around: Optional[ast.AST] = None) -> Edit:
        """A change of a whole part."""
        start, end = self.span(node)
        return Edit(start, end, put, self.span(around or node))

    def between(self, left: ast.AST, right: ast.AST, old: str, put: str, around: ast.AST) -> Edit:
        """A change between two parts."""
        first, last = self.span(left)[1], self.span(right)[0]
        at = self.text.index(old, first, last)
        return Edit(at, at + len(old), put, self.span(around))

    # Changes

    def edits(self, node: ast.AST, around: Optional[ast.expr]) -> Iterator[Edit]:
        """The changes of a part as a whole."""
        yield from self.in_body(node)
        if isinstance(node, STATEMENTS):
            yield from self.of_statement(node)
        elif isinstance(node, (ast.Constant, ast.JoinedStr, ast.Name, ast.Attribute)):
            yield from self.of_word(node, around or node)
        elif isinstance(node, (ast.Compare, ast.BoolOp, ast.UnaryOp, ast.BinOp)):
            yield from self.of_operation(node)
        elif isinstance(node, ast.Call):
            yield from self.of_call(node)
        elif isinstance(node, (ast.Subscript, ast.Slice, ast.Dict, ast.Lambda)):
            yield from self.of_container(node, around)

    def in_body(self, node: ast.AST) -> Iterator[Edit]:
        """Swaps two statements that may each end the function."""
        body = getattr(node, "body", None)
        for first, second in zip(body, body[1:]) if isinstance(body, list) else ():
            if is_guard(first) and is_guard(second) and not is_skipped(first):
                start, end = self.span(first)[0], self.span(second)[1]
                middle = self.text[self.span(first)[1] : self.span(second)[0]]
                heads = [on_one_line(self.said(one).split("\n")[0]) for one in (first, second)]
                texts = (" .. ".join(heads), " .. ".join(reversed(heads)))
                yield Edit(start, end, self.said(second) + middle + self.said(first), (start, end), texts)

    def of_statement(self, node: ast.AST) -> Iterator[Edit]:
        """Removes a statement, takes a case always or never, or takes only a loop's first item, or all except that."""
        if isinstance(node, (ast.If, ast.IfExp)):
            yield from (self.other(node.test, put) for put in ("True", "False"))
        elif isinstance(node, (ast.comprehension, ast.For)):
            yield from (self.other(test, "True") for test in getattr(node, "ifs", ()))
            yield from (self.other(node.iter, f"list({self.said(node.iter)}){part}") for part in ("[:1]", "[1:]"))
        elif isinstance(node, (ast.Assign, ast.AnnAssign)):
            target = node.targets[0] if isinstance(node, ast.Assign) else node.target
            if isinstance(target, (ast.Attribute, ast.Subscript)):
                yield self.other(node, "pass")
        else:
            yield self.other(node, "pass")
        if isinstance(node, ast.AugAssign):
            old, put = OPERATORS[type(node.op)]
            yield from (self.between(node.target, node.value, f"{old}=", by, node) for by in (f"{put}=", "="))

    def of_word(self, node: ast.expr, around: ast.expr) -> Iterator[Edit]:
        """Another constant, or another name of its family."""
        if isinstance(node, ast.JoinedStr):
            yield self.other(node, self.said(node)[:-1] + '!"', around)
        elif isinstance(node, ast.Constant):
            yield from self.of_constant(node, around)
        elif isinstance(node, (ast.Name, ast.Attribute)) and isinstance(node.ctx, ast.Load):
            yield from self.of_name(node, around)

    def of_name(self, node: Union[ast.Name, ast.Attribute], around: ast.expr) -> Iterator[Edit]:
        """Another name of its table or of its kind."""
        name = node.id if isinstance(node, ast.Name) else node.attr
        is_verdict = self.file.startswith(PLACEMENT) or self.said(node).startswith(f"{PLACEMENT}.")
        tables = (VERDICTS if is_verdict else CLAIMS, *(tuple(self.words.intersection(table)) for table in TABLES))
        others = [other for table in tables if name in table for other in sorted(table)]
        others += self.scopes.others(node)
        yield from (self.other(node, self.said(node)[: -len(name)] + other, around) for other in others if other != name)

    def of_constant(self, node: ast.Constant, around: ast.expr) -> Iterator[Edit]:
        """The other truth value, a number one up or down, or a text with a mark after one of its words."""
        if isinstance(node.value, bool):
            yield self.other(node, str(not node.value), around)
        elif isinstance(node.value, int):
            yield self.other(node, str(node.value + 1), around)
            if node.value > 0:
                yield self.other(node, str(node.value - 1), around)
        elif isinstance(node.value, (str, bytes)):
            start, end = self.span(node)
            shown = self.span(around)
            for quoted in QUOTED.finditer(self.text, start, end):
                first, last = quoted.span(1) if quoted[1] is not None else quoted.span(2)
                places = [word.end() for word in re.compile(r"[^ ]+").finditer(self.text, first, last)]
                yield from (Edit(place, place, "!", shown) for place in places or [last])

    def of_operation(self, node: ast.expr) -> Iterator[Edit]:
        """Another comparison or operator, or only one of its sides."""
        if isinstance(node, ast.Compare):
            sides = [node.left, *node.comparators]
            for left, op, right in zip(sides, node.ops, sides[1:]):
                old, others = COMPARISONS[type(op)]
                yield from (self.between(left, right, old, put, node) for put in others)
                yield from self.without_each(right, node)
        elif isinstance(node, ast.BoolOp):
            old, put = ("and", "or") if isinstance(node.op, ast.And) else ("or", "and")
            for left, right in zip(node.values, node.values[1:]):
                yield self.between(left, right, f"{old} ", f"{put} ", node)
            for at in range(len(node.values)):
                rest = node.values[:at] + node.values[at + 1 :]
                yield self.other(node, f" {old} ".join(self.said(value) for value in rest))
        elif isinstance(node, ast.UnaryOp) and isinstance(node.op, (ast.Not, ast.Invert)):
            yield self.other(node, self.said(node.operand))
        elif isinstance(node, ast.BinOp):
            yield from self.of_sides(node)

    def of_sides(self, node: ast.BinOp) -> Iterator[Edit]:
        """Another operator, or only one side. A format string stays."""
        texts = [side for side in (node.left, node.right) if isinstance(side, ast.Constant) and not isinstance(side.value, int)]
        if texts and isinstance(node.op, ast.Mod):
            return
        if not texts:
            old, put = OPERATORS[type(node.op)]
            yield self.between(node.left, node.right, f"{old} " if old != "**" else old, f"{put} ", node)
        if isinstance(node.op, (ast.Add, ast.Sub, ast.BitOr, ast.BitAnd)):
            for side, dropped in ((node.left, node.right), (node.right, node.left)):
                if not isinstance(dropped, ast.Constant):
                    yield self.other(node, self.said(side))

    def without_each(self, node: ast.expr, around: ast.expr) -> Iterator[Edit]:
        """A tuple, list or set without one of its items."""
        if isinstance(node, (ast.Tuple, ast.List, ast.Set)) and len(node.elts) > 1:
            opening, closing = self.said(node)[0], self.said(node)[-1]
            for at in range(len(node.elts)):
                rest = "".join(f"{self.said(item)}, " for item in node.elts[:at] + node.elts[at + 1 :])
                yield self.other(node, opening + rest.rstrip() + closing, around)

    def of_call(self, node: ast.Call) -> Iterator[Edit]:
        """A related function, only one of several values, no sorting, or two numbers swapped."""
        if isinstance(node.func, ast.Name) and node.func.id in OTHER_CALLS:
            yield self.other(node.func, OTHER_CALLS[node.func.id], node)
            yield from (self.other(node, self.said(value)) for value in node.args if len(node.args) > 1)
        for left, right in zip(node.args, node.args[1:]):
            if self.is_number(left) and self.is_number(right) and self.said(left) != self.said(right):
                start, end = self.span(left)[0], self.span(right)[1]
                yield Edit(start, end, f"{self.said(right)}, {self.said(left)}", self.span(node))
        for keyword in node.keywords:
            if keyword.arg == "key":
                start, end = self.span(node.args[-1])[1], self.span(keyword.value)[1]
                yield Edit(start, end, "", self.span(node))

    def is_number(self, node: ast.expr) -> bool:
        """Whether a part is a numeric name."""
        return isinstance(node, ast.Name) and self.scopes.reading.of(node) == INT

    def of_container(self, node: ast.AST, around: Optional[ast.expr]) -> Iterator[Edit]:
        """The first item for an indexed one, an interval without a bound, a table without a row, a reversed order."""
        if isinstance(node, ast.Subscript):
            index = index_of(node)
            if isinstance(index, (ast.Name, ast.Attribute)) and isinstance(node.ctx, ast.Load):
                yield self.other(index, "0", node)
        elif isinstance(node, ast.Slice):
            bounds = [bound for bound in (node.lower, node.upper) if bound is not None]
            yield from (self.other(bound, "", around) for bound in bounds)
        elif isinstance(node, ast.Dict):
            yield from self.without_rows(node)
        elif isinstance(node, ast.Lambda) and isinstance(node.body, ast.Tuple):
            items = [self.said(item) for item in reversed(node.body.elts)]
            yield self.other(node.body, f"({', '.join(items)})", node)

    def without_rows(self, node: ast.Dict) -> Iterator[Edit]:
        for key, value in zip(node.keys, node.values):
            if key is not None:
                start, end = self.span(key)[0], self.span(value)[1]
                comma = re.compile(r",?").match(self.text, end)
                yield Edit(start, comma.end() if comma else end, "", (start, end))
