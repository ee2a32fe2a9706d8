"""Reads the rules in checks/library/restated.txt: which clause, row or test states each one without using its definition."""

import pathlib
import re
from typing import Iterator, List, NamedTuple

from checks.library.contracts import Sources
from checks.library.modules import Modules
from checks.library.promises import cited_in, faults_of_cited
from checks.library.spans import SPAN

PAGE = "checks/library/restated.txt"
# what names the rules below it, and how many cells a rule has
GROUP, CELLS = "==== ", 3
# the clauses of a function, after its name
CLAUSES = re.compile(r"\(`[^)]*\)")
# a row is named by its folder, a test of distac-view by its file
ROW = re.compile(r"([\w-]+)/([\w-]+)")
PYTHON_TEST = re.compile(r"(distac_view/tests/test_\w+\.py)::(test_\w+)")


class Rule(NamedTuple):
    """A line of the file: a rule, its definition, and what states it again."""

    line: int
    cells: List[str]


def rules_of(text: str) -> Iterator[Rule]:
    """The lines below the first group, without the names of groups."""
    inside = False
    for number, line in enumerate(text.split("\n"), 1):
        if line.startswith(GROUP):
            inside = True
        elif inside and line:
            yield Rule(number, [cell.strip() for cell in line.split("|")])


class Restated:
    """The rules, with what their last cells name."""

    def __init__(self, root: pathlib.Path, sources: Sources, modules: Modules) -> None:
        """Reads the file."""
        self.root = root
        self.sources = sources
        self.definitions = {one.name for crate in modules.crates.order() for one in modules.definitions_of(crate)}
        self.tests = frozenset(sources.crates.layers.get("Tests", ()))
        self.rules = list(rules_of((root / PAGE).read_text(encoding="utf-8")))

    def faults(self) -> Iterator[str]:
        """Rules that nothing states again, and missing definitions, clauses, rows and tests."""
        if not self.rules:
            yield f"{PAGE}: no rule below a line of four equal signs"
        for rule in self.rules:
            if len(rule.cells) != CELLS or not all(map(SPAN.search, rule.cells[1:])):
                yield f"{PAGE}:{rule.line}: a rule has a definition, and a clause, a row or a test"
                continue
            for fault in [*self.faults_of_definitions(rule.cells[1]), *self.faults_of_statements(rule.cells[2])]:
                yield f"{PAGE}:{rule.line}: {fault}"

    def faults_of_definitions(self, cell: str) -> Iterator[str]:
        """Definitions, or crates that have them, that a cell names and that aren't there."""
        names = (name for name in SPAN.findall(cell) if name not in self.definitions and name not in self.sources.crates.listed)
        return (f"there is no definition {name}" for name in names)

    def faults_of_statements(self, cell: str) -> Iterator[str]:
        """Clauses, rows and tests that a cell names and that aren't there."""
        cited = {one.name: one for one in cited_in(cell, ())}
        for name in SPAN.findall(CLAUSES.sub("", cell)):
            crate, row = name.split("::")[0], ROW.fullmatch(name)
            if row is not None:
                yield from () if self.is_row(row[1], row[2]) else (f"there is no row {name}",)
            elif crate in self.tests or PYTHON_TEST.fullmatch(name):
                yield from () if self.is_test(*name.split("::")) else (f"there is no test {name}",)
            elif crate in self.sources.crates.listed:
                yield from faults_of_cited(cited[name], crate, self.sources)
            else:
                yield f"{name} is neither a clause, nor a row, nor a test"

    def is_row(self, folder: str, name: str) -> bool:
        """Whether this row exists, with its output."""
        path = self.root / "examples" / "rows" / folder
        return (path / f"{name}.out").is_file() and any((path / f"{name}{one}").is_file() for one in (".distac", ".config"))

    def is_test(self, place: str, *names: str) -> bool:
        """Whether this test exists, in the module of a crate or in a file of distac-view."""
        if place.endswith(".py"):
            return self.is_in(place, f"    def {names[-1]}(")
        return self.is_in("/".join(("crates", place, "src", *names[:-1])) + ".rt", f"#[test]\nfn {names[-1]}(")

    def is_in(self, path: str, text: str) -> bool:
        """Whether a file exists and contains a text."""
        file = self.root / path
        return file.is_file() and text in file.read_text(encoding="utf-8")
