"""The kinds of names, attributes and expressions in Python texts, read off their annotations.

A kind is a type without `None`. What has no annotation and can't be computed from parts that have one has no kind.
"""

from __future__ import annotations

import ast
from collections.abc import Iterable, Iterator, Sequence
from dataclasses import dataclass
from typing import Callable, Dict, Mapping, Optional, Tuple


@dataclass(frozen=True)
class Kind:
    """A type, or the kinds of a function's parameters and of its result."""

    name: str
    parts: Tuple[Kind, ...] = ()


INT, BOOL, UNKNOWN = Kind("int"), Kind("bool"), Kind("?")
FUNCTION, TUPLE, DICT = "function", "tuple", "dict"
Members = Dict[str, Kind]
OF_CALLS = {"len": INT, "int": INT, "sum": INT, "bool": BOOL, "any": BOOL, "all": BOOL, "range": Kind("range", (INT,))}
AS_FIRST_ARGUMENT = ("max", "min", "sorted", "list", "reversed", "set")
COMPREHENSIONS = (ast.ListComp, ast.SetComp, ast.GeneratorExp)
# Methods that return an item of a container.
ITEM_METHODS = ("get", "pop", "popleft", "setdefault")


def index_of(node: ast.Subscript) -> ast.AST:
    """What stands in brackets. Python 3.8 wraps it in a part of its own."""
    inner: ast.AST = getattr(node.slice, "value") if type(node.slice).__name__ == "Index" else node.slice
    return inner


def kind_of_annotation(node: Optional[ast.AST]) -> Optional[Kind]:
    if isinstance(node, ast.Name):
        return Kind(node.id)
    if isinstance(node, ast.BinOp):
        is_optional = isinstance(node.right, ast.Constant) and node.right.value is None
        return kind_of_annotation(node.left) if is_optional else None
    if isinstance(node, ast.Subscript) and isinstance(node.value, ast.Name):
        index = index_of(node)
        parts: Sequence[ast.AST] = getattr(index, "elts", [index])
        return Kind(node.value.id.lower(), tuple(kind_of_annotation(part) or UNKNOWN for part in parts))
    return None


def kind_of_function(node: ast.FunctionDef) -> Kind:
    """The kind of a function: its parameters except `self`, and its result."""
    parameters = [one for one in node.args.args if one.arg not in ("self", "cls")]
    parts = [*(one.annotation for one in parameters), node.returns]
    return Kind(FUNCTION, tuple(kind_of_annotation(part) or UNKNOWN for part in parts))


def members_of(node: ast.ClassDef) -> Iterator[Tuple[str, Kind]]:
    """The fields, properties and methods of a class."""
    for part in node.body:
        if isinstance(part, ast.FunctionDef):
            found = kind_of_function(part)
            yield part.name, found.parts[-1] if part.decorator_list else found
        elif isinstance(part, ast.AnnAssign) and isinstance(part.target, ast.Name):
            yield part.target.id, kind_of_annotation(part.annotation) or UNKNOWN


def item_of(kind: Optional[Kind], is_looped: bool) -> Optional[Kind]:
    """The items of a container: of a table its keys in a loop, and otherwise its values."""
    if kind is None or not kind.parts or kind.name == FUNCTION:
        return None
    return kind.parts[0 if is_looped or kind.name != DICT else -1]


class Kinds:
    """The classes and functions of some modules."""

    def __init__(self, texts: Mapping[str, str]) -> None:
        self.classes: Dict[str, Members] = {}
        self.functions: Dict[str, Members] = {}
        for module, text in texts.items():
            parts = ast.parse(text).body
            self.functions[module] = {part.name: kind_of_function(part) for part in parts if isinstance(part, ast.FunctionDef)}
            for part in parts:
                if isinstance(part, ast.ClassDef):
                    self.add_class(part)
                elif isinstance(part, ast.ImportFrom):
                    there = self.functions.get(part.module or "", {})
                    self.functions[module].update({one.name: there[one.name] for one in part.names if one.name in there})

    def add_class(self, node: ast.ClassDef) -> None:
        """Adds a class with its members and those of its bases."""
        members: Members = {}
        for base in node.bases:
            members.update(self.classes.get(base.id, {}) if isinstance(base, ast.Name) else {})
        self.classes[node.name] = members
        members.update(members_of(node))
        members.update(self.assigned_in(node))

    def assigned_in(self, node: ast.ClassDef) -> Iterator[Tuple[str, Kind]]:
        """The attributes that the constructor of a class assigns to."""
        for function in (one for one in node.body if isinstance(one, ast.FunctionDef) and one.name == "__init__"):
            parameters = {one.arg: kind_of_annotation(one.annotation) for one in function.args.args}
            reading = Reading(self, lambda name: parameters.get(name.id))
            for part in (one for one in ast.walk(function) if isinstance(one, (ast.Assign, ast.AnnAssign))):
                target = part.targets[0] if isinstance(part, ast.Assign) else part.target
                annotation = kind_of_annotation(getattr(part, "annotation", None))
                if isinstance(target, ast.Attribute) and part.value is not None:
                    yield target.attr, annotation or reading.of(part.value) or UNKNOWN


class Reading:
    """Computes the kinds of expressions, given those of names."""

    def __init__(self, kinds: Kinds, of_name: Callable[[ast.Name], Optional[Kind]]) -> None:
        self.kinds = kinds
        self.of_name = of_name

    def members(self, node: ast.Attribute) -> Members:
        """The members of the class or module before the dot."""
        if isinstance(node.value, ast.Name) and node.value.id in self.kinds.functions:
            return self.kinds.functions[node.value.id]
        kind = self.of(node.value)
        return self.kinds.classes.get(kind.name, {}) if kind is not None else {}

    def of(self, node: ast.AST) -> Optional[Kind]:
        if isinstance(node, ast.Name):
            return self.of_name(node)
        if isinstance(node, ast.Attribute):
            return self.members(node).get(node.attr)
        if isinstance(node, ast.Call):
            return self.of_call(node)
        if isinstance(node, ast.Subscript):
            kind = self.of(node.value)
            return kind if isinstance(index_of(node), ast.Slice) else item_of(kind, is_looped=False)
        if isinstance(node, ast.BinOp):
            return self.of_first([node.left, node.right])
        if isinstance(node, ast.IfExp):
            return self.of_first([node.body, node.orelse])
        if isinstance(node, ast.Tuple):
            return Kind(TUPLE, tuple(self.of(part) or UNKNOWN for part in node.elts))
        if isinstance(node, COMPREHENSIONS):
            return Kind("list", (self.of(node.elt) or UNKNOWN,))
        return Kind(type(node.value).__name__) if isinstance(node, ast.Constant) else None

    def of_first(self, nodes: Iterable[ast.AST]) -> Optional[Kind]:
        """The kind of the first part that has one, not counting `None`."""
        found = (self.of(node) for node in nodes)
        return next((kind for kind in found if kind not in (None, Kind("NoneType"))), None)

    def of_call(self, node: ast.Call) -> Optional[Kind]:
        if isinstance(node.func, ast.Name):
            name = node.func.id
            if name in self.kinds.classes:
                return Kind(name)
            if name in AS_FIRST_ARGUMENT:
                return self.of_first(node.args[:1])
            if name in OF_CALLS:
                return OF_CALLS[name]
        elif isinstance(node.func, ast.Attribute) and node.func.attr in ITEM_METHODS:
            return item_of(self.of(node.func.value), is_looped=False)
        found = self.of(node.func)
        return found.parts[-1] if found is not None and found.name == FUNCTION else None

    def of_items(self, node: ast.AST) -> Optional[Kind]:
        """The kind of what a loop takes from an expression."""
        if isinstance(node, ast.Call) and isinstance(node.func, ast.Name):
            items = [self.of_items(part) or UNKNOWN for part in node.args]
            if node.func.id in ("enumerate", "zip"):
                return Kind(TUPLE, (INT, items[0]) if node.func.id == "enumerate" else tuple(items))
        if isinstance(node, ast.Call) and isinstance(node.func, ast.Attribute) and node.func.attr in ("items", "values"):
            table = self.of(node.func.value)
            parts = table.parts if table is not None else ()
            return (Kind(TUPLE, parts) if node.func.attr == "items" else parts[-1]) if parts else None
        return item_of(self.of(node), is_looped=True)
