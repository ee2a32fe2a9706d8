"""Reads docs/sources.txt: the sources of definitions that aren't this project's own."""

import pathlib
from typing import Dict, Iterator, List, NamedTuple, Tuple

from checks.library.modules import Definition, Modules


class Tag(NamedTuple):
    """A definition with its source."""

    line: int
    crate: str
    name: str
    source: str


def tags_of(text: str) -> Iterator[Tag]:
    """The tags of a text. A source begins a line; its crates and definitions are indented below it."""
    source = ""
    for number, line in enumerate(text.split("\n"), 1):
        if not line.strip() or line.startswith("#"):
            continue
        if not line.startswith(" "):
            source = line.strip()
            continue
        crate, _, names = line.strip().partition(":")
        for name in names.split():
            yield Tag(number, crate, name, source)


class DefinitionSources:
    def __init__(self, root: pathlib.Path) -> None:
        """Reads the list."""
        self.file = root / "docs" / "sources.txt"
        self.tags: List[Tag] = list(tags_of(self.file.read_text(encoding="utf-8")))
        self._by_name: Dict[Tuple[str, str], str] = {(one.crate, one.name): one.source for one in self.tags}

    def of(self, one: Definition) -> str:
        """The source of a definition, or an empty text if it is this project's own."""
        return self._by_name.get((one.crate, one.name), "")

    def faults(self, modules: Modules) -> Iterator[str]:
        """The tags of missing definitions."""
        there = {(one.crate, one.name) for crate in modules.crates.order() for one in modules.definitions_of(crate)}
        for tag in self.tags:
            if (tag.crate, tag.name) not in there:
                yield f"docs/sources.txt:{tag.line}: {tag.crate} has no definition {tag.name}"
