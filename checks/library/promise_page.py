"""The page of all promises: each public function with its comment, and each of its clauses with the comment above
it."""

import textwrap
from typing import Iterator, List, NamedTuple, Sequence, Tuple

from checks.library.contracts import CLAUSE, Function, Sources
from checks.library.modules import Word
from checks.library.resting import Resting

WIDTH = 110
# functions of traits whose contracts promise nothing themselves
LEFT_OUT = frozenset(("drop", "from"))


class Commented(NamedTuple):
    """A named clause with the comment above it."""

    name: str
    comment: str


def commented(text: Sequence[str]) -> Iterator[Commented]:
    """A function's named `ensures` clauses, each with the comment lines above it."""
    comment: List[str] = []
    for line in text:
        bare = line.strip()
        match = CLAUSE.match(line)
        if bare.startswith("//"):
            comment.append(bare.lstrip("/ "))
            continue
        if match is not None and match["kind"] == "ensures" and match["name"]:
            yield Commented(match["name"], " ".join(comment))
        comment = []


def plain(lines: Tuple[str, ...]) -> str:
    """The text of a doc comment: its first paragraph."""
    text = "\n".join(line.strip().lstrip("/").strip() for line in lines)
    return " ".join(text.split("\n\n")[0].split())


def wrapped(text: str, first: str, other: str) -> List[str]:
    return textwrap.wrap(text, WIDTH, initial_indent=first, subsequent_indent=other, break_on_hyphens=False, break_long_words=False)


class PromisePage:
    """The output of `./believe --promises`."""

    def __init__(self, sources: Sources, resting: Resting) -> None:
        self.sources, self.resting = sources, resting

    def crates(self) -> List[str]:
        """The crates with contracts of public functions, lowest first."""
        return list(dict.fromkeys(one.crate for one in self.sources.public()))

    def lines(self, crate: str = "") -> Iterator[str]:
        """The functions of all crates, or of this one."""
        yield from wrapped(
            "Each public function with the comment above it, how many definitions its contract rests on, and each named clause "
            "with its comment. `./believe NAME CLAUSE` prints the definitions.",
            "",
            "",
        )
        for each in self.crates():
            if crate in ("", each):
                yield from ("", f"==== {each}")
                for one in self.sources.public():
                    if one.crate == each and one.name not in LEFT_OUT:
                        yield from self._function(one)

    def _function(self, one: Function) -> Iterator[str]:
        words: List[Word] = self.resting.cited_by_function(one)
        rests = len(self.resting.under(words).definitions)
        name = "::".join((one.of, one.name) if one.of else (*one.modules, one.name))
        said = plain(one.above)
        yield from wrapped(f"{name} ({rests}){': ' if said else ''}{said}", "", "    ")
        silent: List[str] = []
        for clause in commented(one.text):
            if clause.comment:
                yield from wrapped(f"{clause.name}: {clause.comment}", "    - ", "      ")
            else:
                silent.append(clause.name)
        if silent:
            yield from wrapped(", ".join(silent), "    - ", "      ")
