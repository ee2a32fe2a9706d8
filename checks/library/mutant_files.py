"""Reads a crate's mutants from its file mutants.edits.

Each has a section: a line `mutant: NAME`, and then the lines of a must-fail edit, `file:` and pairs of `old:` and
`new:`. Empty lines separate sections, and lines that begin with `#` are comments.
"""

import pathlib
import re
from typing import Dict, Iterator, List, NamedTuple

FILE = "mutants.edits"
BEGINS = "mutant: "
NAME = re.compile(r"\w+")
OF_AN_EDIT = ("file: ", "old: ", "new: ")
# a text that is removed
NOTHING = "new:"


class Section(NamedTuple):
    """A mutant in the file: the number of its first line, its name, and its lines as a must-fail edit. Lines above the
    first mutant make a section without a name."""

    line: int
    name: str
    lines: List[str]

    def text(self) -> str:
        """Its text as a must-fail edit."""
        return "".join(f"{line}\n" for line in self.lines)


def sections_in(text: str) -> Iterator[Section]:
    section = Section(1, "", [])
    for number, line in enumerate(text.split("\n"), 1):
        if line.startswith(BEGINS):
            yield section
            section = Section(number, line[len(BEGINS) :], [])
        elif line and not line.startswith("#"):
            section.lines.append(line)
    yield section


def sections_of(folder: pathlib.Path) -> List[Section]:
    """The sections of the crate in this folder; none if it has no such file."""
    file = folder / FILE
    return list(sections_in(file.read_text(encoding="utf-8"))) if file.is_file() else []


def mutants_in(folder: pathlib.Path) -> Dict[str, str]:
    """The crate's mutants in name order, each with its text as a must-fail edit."""
    return {one.name: one.text() for one in sorted(sections_of(folder), key=lambda one: one.name) if one.name}


def faults_of_form(sections: List[Section]) -> Iterator[str]:
    """The faults in a file's sections, whatever their texts change."""
    names = [one.name for one in sections if one.name]
    for one in sections:
        if one.name and not NAME.fullmatch(one.name):
            yield f"{one.line}: {one.name!r} is no name of a mutant"
        if one.name and names.count(one.name) > 1:
            yield f"{one.line}: several mutants have the name {one.name}"
        if one.name and not one.lines:
            yield f"{one.line}: {one.name} changes nothing"
        for line in one.lines:
            if not one.name:
                yield f"{one.line}: no mutant has the line {line!r}"
            elif not line.startswith(OF_AN_EDIT) and line != NOTHING:
                yield f"{one.line}: {one.name} has the line {line!r}, which begins with none of file:, old: and new:"
