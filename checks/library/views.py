"""Finds the views of a signature's types, as contracts see their values, and of the types inside these."""

import pathlib
import re
from typing import Dict, FrozenSet, Iterator, List, NamedTuple, Optional, Tuple

from checks.library.code_types import CodeTypes, Declared
from checks.library.contracts import CLAUSE, Function, SourceFile, name_of_block
from checks.library.modules import CodeType, Word, depth_of
from checks.library.resting import Resting, Scope, bound_in

MODEL = re.compile(r"^\s*impl(?:<.*>)? Model for (?P<rest>.*)\{$")
PART = re.compile(r"^\s*ghost (?P<name>\w+)(?:: | = )")
NAME = re.compile(r"\b[A-Z]\w+")


class View(NamedTuple):
    """The view of a type's values in contracts."""

    crate: str
    name: str
    file: pathlib.Path
    line: int
    # the lines of `Value` and `view`
    text: Tuple[str, ...]
    words: Tuple[Word, ...]


def block_at(lines: List[str], place: int) -> List[str]:
    """The lines of the block that begins at a line, without the first and last ones."""
    depth = depth_of(lines[place])
    last = place + 1
    while not lines[last].strip() or depth_of(lines[last]) > depth:
        last += 1
    return lines[place + 1 : last]


def parts_of(block: List[str]) -> Iterator[str]:
    """The lines of a block that define the view: `Value` and `view`."""
    name = ""
    for line in block:
        match = PART.match(line)
        name = match["name"] if match else name
        if line.strip().startswith("ghost use"):
            name = ""
        if name in ("Value", "view") and line.strip():
            yield line


class Views:
    def __init__(self, resting: Resting) -> None:
        """Reads the sources."""
        self.resting = resting
        self.modules = resting.modules
        self.types = CodeTypes(self.modules.root)
        self.crates = self.modules.crates
        self._by_name: Dict[str, View] = {}
        for crate in self.crates.order():
            for file in sorted((self.modules.root / "crates" / crate / "src").glob("**/*.rt")):
                self._read(crate, file)

    def _read(self, crate: str, file: pathlib.Path) -> None:
        source = SourceFile(crate, (), file)
        for place, line in enumerate(source.lines):
            match = MODEL.match(line)
            if match is not None:
                text = tuple(parts_of(block_at(source.lines, place)))
                joined = "\n".join(text)
                words = tuple(dict.fromkeys(Scope(self.modules, source.imports, None).cited_in(joined, bound_in(joined))))
                name = name_of_block(match["rest"])
                self._by_name[name] = View(crate, name, file, place + 1, text, words)

    def of_function(self, function: Function) -> List[View]:
        """The views of the values that a function takes, returns or changes, and of their parts."""
        signature: List[str] = []
        for line in function.text:
            if CLAUSE.match(line):
                break
            signature.append(line)
        found: Dict[str, View] = {}
        names = NAME.findall(" ".join(signature)) + [function.of]
        self._follow(names, function.crate, found, frozenset())
        return sorted(found.values(), key=lambda one: (self.crates.order().index(one.crate), str(one.file), one.line))

    def _follow(self, names: List[str], crate: str, found: Dict[str, View], above: FrozenSet[str]) -> None:
        """Goes from types to the types of their parts."""
        for name in names:
            declared = self._declared(name, crate)
            if declared is None or name in above or name in found:
                continue
            view = self._by_name.get(name)
            if view is not None and view.crate == declared.crate:
                found[name] = view
            inside = [one for line in declared.text for one in NAME.findall(re.sub(r"//.*$|\bghost .*$", "", line))]
            self._follow(inside, declared.crate, found, above | {name})

    def _declared(self, name: str, crate: str) -> Optional[Declared]:
        """The declaration of a type that a crate names: its own, or one of a crate below."""
        below = [one for one in reversed(self.crates.order()) if one in self.crates.below(crate)]
        places = (self.types.find(CodeType(one, name)) for one in [crate, *below])
        return next((one for one in places if one is not None), None)
