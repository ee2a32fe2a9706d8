"""Finds the declarations of the code's types and constants that definitions use."""

import pathlib
import re
from typing import Dict, Iterator, List, NamedTuple, Optional, Tuple

from checks.library.modules import CodeType, depth_of

DECLARATION = re.compile(r"^\s*(?:pub(?:\(\w+\))? )?(?:struct|enum|const) (?P<name>\w+)")


class Declared(NamedTuple):
    """A declaration, with the comment above it."""

    crate: str
    name: str
    file: pathlib.Path
    line: int
    text: Tuple[str, ...]


def is_above(line: str) -> bool:
    """Whether a line belongs to the declaration below it, as comments do."""
    return line.strip().startswith("///")


def text_at(lines: List[str], place: int) -> Tuple[str, ...]:
    """The declaration that begins at a line, with its comment, without `derive`."""
    first = place
    while first > 0 and (is_above(lines[first - 1]) or lines[first - 1].strip().startswith("#[")):
        first -= 1
    comment = [line for line in lines[first:place] if is_above(line)]
    last = place
    while not lines[last].rstrip().endswith((";", "}")) or depth_of(lines[last]) > depth_of(lines[place]):
        last += 1
    return tuple(comment + lines[place : last + 1])


def declarations_in(crate: str, file: pathlib.Path) -> Iterator[Declared]:
    lines = file.read_text(encoding="utf-8").split("\n")
    for place, line in enumerate(lines):
        match = DECLARATION.match(line)
        if match is not None:
            yield Declared(crate, match["name"], file, place + 1, text_at(lines, place))


class CodeTypes:
    """The declarations of all crates."""

    def __init__(self, root: pathlib.Path) -> None:
        """Reads nothing until asked."""
        self.root = root
        self._by_crate: Dict[str, Dict[str, Declared]] = {}

    def find(self, one: CodeType) -> Optional[Declared]:
        """The declaration of a type or constant, if found."""
        if one.crate not in self._by_crate:
            files = sorted((self.root / "crates" / one.crate / "src").glob("**/*.rt"))
            found = [each for file in files for each in declarations_in(one.crate, file)]
            self._by_crate[one.crate] = {each.name: each for each in found}
        return self._by_crate[one.crate].get(one.name)
