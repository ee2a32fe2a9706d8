"""The names of a Python text: where each one can be used, of which kind it is, and which others can stand for it."""

import ast
from dataclasses import dataclass
from typing import List, Optional, Tuple, Union

from kinds import COMPREHENSIONS, TUPLE, UNKNOWN, Kind, Kinds, Reading, kind_of_annotation


class Places:
    """The positions of the parts of a text."""

    def __init__(self, text: str) -> None:
        self.text = text
        self.lines = [0]
        for line in text.splitlines(keepends=True):
            self.lines.append(self.lines[-1] + len(line))

    def span(self, node: ast.AST) -> Tuple[int, int]:
        """The extent of a part."""
        start = self.lines[getattr(node, "lineno") - 1] + getattr(node, "col_offset")
        return start, self.lines[getattr(node, "end_lineno") - 1] + getattr(node, "end_col_offset")


@dataclass(frozen=True)
class Binding:
    """A name with its kind, and the part of the text in which it is bound."""

    name: str
    kind: Kind
    start: int
    end: int


class Scopes:
    """The names of a module."""

    def __init__(self, module: str, places: Places, kinds: Kinds) -> None:
        self.places = places
        self.reading = Reading(kinds, lambda node: self.kind_at(node.id, places.span(node)[0]))
        functions = kinds.functions.get(module, {}).items()
        self.bindings = [Binding(name, kind, 0, len(places.text)) for name, kind in functions]
        self.bind(ast.parse(places.text), None, None)

    # Binding

    def bind(self, node: ast.AST, end: Optional[int], of: Optional[str]) -> None:
        """Binds the names in a part of a function, which ends there, or of a class, but none outside of functions."""
        inner = end
        if isinstance(node, ast.FunctionDef):
            extent = self.places.span(node)
            self.bind_parameters(node, extent, of)
            inner, of = extent[1], None
        elif end is not None:
            self.bind_before(node, end)
        for part in ast.iter_child_nodes(node):
            self.bind(part, inner, node.name if isinstance(node, ast.ClassDef) else of)
        if end is not None:
            self.bind_after(node, end)

    def bind_before(self, node: ast.AST, end: int) -> None:
        """Binds what a loop or a comprehension assigns to."""
        if isinstance(node, ast.For):
            self.bind_target(node.target, self.reading.of_items(node.iter), (self.places.span(node.iter)[1], end))
        elif isinstance(node, (*COMPREHENSIONS, ast.DictComp)):
            for one in node.generators:
                self.bind_target(one.target, self.reading.of_items(one.iter), self.places.span(node))

    def bind_after(self, node: ast.AST, end: int) -> None:
        """Binds what a statement assigns to."""
        if isinstance(node, ast.Assign) and len(node.targets) == 1:
            self.bind_target(node.targets[0], self.reading.of(node.value), (self.places.span(node)[1], end))
        elif isinstance(node, ast.AnnAssign):
            self.bind_target(node.target, kind_of_annotation(node.annotation), (self.places.span(node)[1], end))

    def bind_parameters(self, node: ast.FunctionDef, extent: Tuple[int, int], of: Optional[str]) -> None:
        """Binds the parameters of a function, which may be a method of a class."""
        for one in node.args.args:
            kind = Kind(of) if one.arg == "self" and of is not None else kind_of_annotation(one.annotation)
            if kind is not None:
                self.bindings.append(Binding(one.arg, kind, *extent))

    def bind_target(self, target: ast.AST, kind: Optional[Kind], extent: Tuple[int, int]) -> None:
        """Binds the names in what is assigned to."""
        if kind is None:
            return
        if isinstance(target, ast.Name):
            self.bindings.append(Binding(target.id, kind, *extent))
        elif isinstance(target, ast.Tuple) and kind.name == TUPLE:
            for part, one in zip(target.elts, kind.parts):
                self.bind_target(part, one, extent)

    # Reading

    def bound_at(self, at: int) -> List[Binding]:
        """The names that are bound at a place, each as it was bound last."""
        return list({one.name: one for one in self.bindings if one.start <= at < one.end}.values())

    def kind_at(self, name: str, at: int) -> Optional[Kind]:
        return next((one.kind for one in self.bound_at(at) if one.name == name), None)

    def others(self, node: Union[ast.Name, ast.Attribute]) -> List[str]:
        """The other names that can stand for a name or an attribute: those of its kind in its function or in its class.
        Functions stand for functions of their module alone."""
        kind, at = self.reading.of(node), self.places.span(node)[0]
        if kind is None or UNKNOWN in (kind, *kind.parts):
            return []
        if isinstance(node, ast.Name):
            own, named = node.id, {one.name: one.kind for one in self.bound_at(at)}
        else:
            own, named = node.attr, self.reading.members(node)
        return sorted(name for name, other in named.items() if other == kind and name != own)
