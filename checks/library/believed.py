"""The page of one contract: all definitions that it rests on, the types of the code, and the contract at the end."""

import itertools
import textwrap
from typing import Dict, Iterator, List, NamedTuple, Sequence, Set, Tuple

from checks.library.code_types import CodeTypes
from checks.library.definition_sources import DefinitionSources
from checks.library.modules import Definition, Modules, Word
from checks.library.resting import Rest, Resting
from checks.library.views import View

WIDTH = 110
# the most functions named at the end
MOST = 20


class Asked(NamedTuple):
    """The subject of a page: words with a heading, and the lines of a contract."""

    heading: str
    words: Tuple[Word, ...]
    contract: Tuple[str, ...]
    # the names of its clauses
    clauses: Tuple[str, ...]
    # for a definition, the functions whose clauses rest on it
    promising: Tuple[str, ...]
    # the contract's views of the code's values
    views: Tuple[View, ...]


def wrapped(text: str, before: str) -> List[str]:
    return textwrap.wrap(text, WIDTH, initial_indent=before, subsequent_indent=before, break_on_hyphens=False)


def lines_in(texts: Sequence[Tuple[str, ...]]) -> int:
    """The number of lines that are neither empty nor comments."""
    return sum(1 for text in texts for line in text if line.strip() and not line.strip().startswith(("///", "--")))


class BelievedPage:
    def __init__(self, asked: Asked, resting: Resting) -> None:
        """Finds the definitions that the subject rests on."""
        self.asked = asked
        self.resting = resting
        self.modules: Modules = resting.modules
        self.sources = DefinitionSources(self.modules.root)
        self.rest: Rest = resting.under(asked.words)
        types = CodeTypes(self.modules.root)
        found = [types.find(one) for one in self.rest.types]
        self.types = [one for one in found if one is not None]
        viewed = resting.under(asked.words + tuple(word for one in asked.views for word in one.words)).definitions
        # further definitions that the views rest on
        self.more = [one for one in viewed if one not in set(self.rest.definitions)]

    def counts(self) -> str:
        """The numbers at the end."""
        definitions = self.rest.definitions
        lines = lines_in([one.text for one in definitions])
        modules = len({(one.crate, one.module) for one in definitions})
        crates = len({one.crate for one in definitions})
        code = f"{len(self.types)} types and constants of the code, {lines_in([one.text for one in self.types])} lines"
        views = f"{len(self.asked.views)} views, which rest on {len(self.more)} more definitions"
        counted = f"{len(definitions)} definitions, {lines} lines, {modules} modules, {crates} crates; {code}"
        return f"{counted}; {views}" if self.asked.views else counted

    def lines(self) -> Iterator[str]:
        yield from wrapped(f"What {self.asked.heading} rests on, lowest crate first.", "")
        yield ""
        for crate in self.modules.crates.order():
            yield from self._code(crate)
            yield from self._modules([one for one in self.rest.definitions if one.crate == crate])
        yield from (f"==== {self.asked.heading}", *self.asked.contract, "") if self.asked.contract else ()
        yield from self._views()
        yield from self._ending()
        yield self.counts()

    def _code(self, crate: str) -> Iterator[str]:
        of_crate = sorted((one for one in self.types if one.crate == crate), key=lambda one: (str(one.file), one.line))
        for file, group in itertools.groupby(of_crate, lambda one: one.file):
            yield f"==== {crate}, {file.relative_to(self.modules.root / 'crates' / crate)}"
            for one in group:
                yield from (*textwrap.dedent("\n".join(one.text)).split("\n"), "")

    def _modules(self, definitions: Sequence[Definition]) -> Iterator[str]:
        """Definitions by modules, in reading order."""
        for _, group in itertools.groupby(definitions, lambda one: (one.crate, one.module)):
            yield from self._module(list(group))

    def _views(self) -> Iterator[str]:
        """The contract's views of values, with the definitions that only they need."""
        if not self.asked.views:
            return
        yield from wrapped("The contract sees values of the code by the views below. These rest on more definitions.", "")
        yield ""
        yield from self._modules(self.more)
        yield "==== views"
        for one in self.asked.views:
            yield f"{one.crate}, {one.file.relative_to(self.modules.root / 'crates' / one.crate)}:{one.line}: {one.name}"
            yield from (*one.text, "")

    def _module(self, definitions: Sequence[Definition]) -> Iterator[str]:
        """The definitions of a module, after its header."""
        first = definitions[0]
        module = self.modules.of_file(first.crate, first.module, first.file)
        yield f"==== {first.crate}, {first.module.split('.', 1)[1]}"
        if module is not None and module.header:
            yield from (*wrapped(" ".join(module.header), "-- "), "")
        under: Tuple[str, ...] = ()
        for one in definitions:
            yield from self._definition(one, under)
            under = one.under

    def _definition(self, one: Definition, under: Tuple[str, ...]) -> Iterator[str]:
        """The lines of a definition, after the blocks that it is in. Blocks that it shares with the previous definition
        aren't repeated."""
        shared = len([1 for old, new in zip(under, one.under) if old == new])
        yield from one.under[shared:]
        before = " " * (len(one.text[0]) - len(one.text[0].lstrip())) + "-- "
        yield from wrapped(" ".join(one.comment), before)
        source = self.sources.of(one)
        if source:
            yield from wrapped(f"From: {source}", before)
        yield from (*one.text, "")

    def _ending(self) -> Iterator[str]:
        """The laws named, the words of the toolchain's libraries, and the functions that rest on the subject."""
        if self.rest.laws:
            names = ", ".join(one.name for one in self.rest.laws)
            yield from (*wrapped(f"These laws are named, which are proved: {names}.", ""), "")
        words: Dict[str, Set[str]] = {}
        for one in self.rest.definitions:
            for module, word in self.resting.library_of(one):
                words.setdefault(module, set()).add(word)
        if words:
            listed = "; ".join(f"{module}: {', '.join(sorted(names))}" for module, names in sorted(words.items()))
            yield from (*wrapped(f"Of the toolchain's libraries the definitions use {listed}.", ""), "")
        named = self.asked.promising
        if named:
            more = f" and {len(named) - MOST} more" if len(named) > MOST else ""
            yield from (*wrapped(f"Public functions whose clauses rest on it: {', '.join(named[:MOST])}{more}.", ""), "")
