"""Reads docs/PROMISES.md: the functions and clauses for each promise."""

import pathlib
import re
from typing import Dict, Iterator, List, NamedTuple, Sequence, Set, Tuple

from checks.library.contracts import Function, Sources, is_within
from checks.library.spans import SPAN

SECTION = "## Crate by crate"
# separates a promise from its functions
CARRIED = " By "
# words in backticks that aren't names of functions, types or modules
NO_NAMES = frozenset(("requires", "ensures"))
# a clause in README.md, with the function if it isn't the first one named there
README_CLAUSE, FIRST_NAMED = re.compile(r"\(clause `(\w+)`(?: of `([\w:]+)`)?\)"), "World::run"


class Cited(NamedTuple):
    """A function, a type or a module of laws, with its clauses that are named. None means all."""

    name: str
    clauses: Tuple[str, ...]


class Promise(NamedTuple):
    """One item of a list."""

    line: int
    crate: str
    text: str
    cited: Tuple[Cited, ...]


def promised(part: str) -> Iterator[Cited]:
    """The names in a part of a text, each with the clauses that follow it in parentheses."""
    clauses: Tuple[str, ...] = ()
    for match in reversed(list(re.finditer(r"\(`[^)]*\)|`[^`]+`", part))):
        name = match[0].strip("`")
        if match[0].startswith("("):
            clauses = tuple(SPAN.findall(match[0]))
        elif re.fullmatch(r"[\w:]+", name) and name not in NO_NAMES:
            yield Cited(name, clauses)


def cited_in(text: str, above: Sequence[Cited]) -> Iterator[Cited]:
    """The names in a text. `the same` means those of the item above."""
    for part in text.split(";"):
        if part.strip().startswith("the same"):
            clauses = tuple(SPAN.findall(part))
            yield from (one._replace(clauses=clauses or one.clauses) for one in above)
        else:
            yield from promised(part)


class Item(NamedTuple):
    """An item of a list, joined with its continuation lines."""

    line: int
    crate: str
    text: str


def items_of(text: str) -> Iterator[Item]:
    """The items of the section by crates. A line with only a crate's name precedes the items of the crate."""
    inside, crate = False, ""
    item = Item(0, "", "")
    for number, line in enumerate([*text.split("\n"), ""], 1):
        goes_on = item.text != "" and line.startswith("  ")
        if item.text and not goes_on:
            yield item
            item = Item(0, "", "")
        name = re.fullmatch(r"\*\*`(\w+)`\*\*", line)
        if line.startswith("## "):
            inside = line == SECTION
        elif inside and name is not None:
            crate = name[1]
        elif inside and crate and line.startswith("- "):
            item = Item(number, crate, line[2:])
        elif goes_on:
            item = item._replace(text=f"{item.text} {line.strip()}")


def promises_of(text: str) -> Iterator[Promise]:
    above: Tuple[Cited, ...] = ()
    for one in items_of(text):
        says, _, carriers = one.text.rpartition(CARRIED)
        above = tuple(dict.fromkeys(cited_in(carriers, above)))
        yield Promise(one.line, one.crate, says, above)


def functions_of(one: Cited, crate: str, sources: Sources) -> List[Function]:
    """The functions that a name means: itself, those of a type, of a module or of a crate. The item's crate is preferred."""
    if one.name in sources.crates.listed:
        return [each for each in sources.public() if each.crate == one.name]
    asked = tuple(one.name.split("::"))
    found = [each for each in sources.functions if is_within(asked, each.whole())]
    if not found:
        of_type = [each for each in sources.public() if each.of == asked[-1]]
        found = of_type or [each for each in sources.public() if is_within(asked, (each.crate, *each.modules))]
    exact = [each for each in found if asked in (each.shown(), each.shown()[1:], each.whole())]
    return [each for each in exact or found if each.crate == crate] or exact or found


def place_of(one: Function) -> Tuple[str, int]:
    """The key of a function in a set."""
    return str(one.file), one.line


def faults_of_cited(one: Cited, crate: str, sources: Sources) -> Iterator[str]:
    found = functions_of(one, crate, sources)
    is_function = not one.name.split("::")[-1][0].isupper() and not re.fullmatch(r"dac_\w+", one.name)
    if not found and is_function:
        yield f"there is no function {one.name}"
        return
    there = {clause.name for each in found for clause in each.clauses}
    for clause in one.clauses:
        if re.fullmatch(r"\w+", clause) and clause not in there:
            yield f"{one.name} has no clause {clause}"


def faults_of_clauses(text: str, sources: Sources) -> Iterator[str]:
    """The clauses in README.md that their function lacks."""
    for found in README_CLAUSE.finditer(text):
        for fault in faults_of_cited(Cited(found[2] or FIRST_NAMED, (found[1],)), "dac_core", sources):
            yield f"README.md:{text.count(chr(10), 0, found.start()) + 1}: {fault}"


class Promises:
    def __init__(self, root: pathlib.Path, sources: Sources) -> None:
        """Reads the document."""
        self.text = (root / "docs" / "PROMISES.md").read_text(encoding="utf-8")
        self.readme = (root / "README.md").read_text(encoding="utf-8")
        self.sources = sources
        self.rows = list(promises_of(self.text))

    def faults(self) -> Iterator[str]:
        """Promises without names, and missing functions and clauses."""
        if not self.rows:
            yield f"docs/PROMISES.md: no promise below {SECTION}"
        for row in self.rows:
            if not row.text:
                yield f"docs/PROMISES.md:{row.line}: a promise ends with{CARRIED}and the functions that carry it"
            for one in row.cited:
                for fault in faults_of_cited(one, row.crate, self.sources):
                    yield f"docs/PROMISES.md:{row.line}: {fault}"
        yield from faults_of_clauses(self.readme, self.sources)

    def without_row(self) -> Iterator[str]:
        """The public functions that no promise covers, by their name, type or module."""
        named = {place_of(each) for row in self.rows for one in row.cited for each in functions_of(one, row.crate, self.sources)}
        lacking = ("::".join(each.shown()) for each in self.sources.public() if place_of(each) not in named)
        yield from dict.fromkeys(lacking)

    def unnamed_clauses(self) -> Iterator[str]:
        """The clauses that no promise names, although promises name other clauses of their function."""
        named: Dict[Tuple[str, int], Set[str]] = {}
        functions: Dict[Tuple[str, int], Function] = {}
        for row in self.rows:
            for one in row.cited:
                for each in functions_of(one, row.crate, self.sources):
                    functions[place_of(each)] = each
                    named.setdefault(place_of(each), set()).update(one.clauses or [clause.name for clause in each.clauses])
        for place, each in functions.items():
            clauses = [one.name for one in each.clauses if one.kind == "ensures" and one.name]
            lacking = [name for name in clauses if name not in named[place]]
            if lacking:
                yield f"{'::'.join(each.shown())} ({', '.join(lacking)})"
