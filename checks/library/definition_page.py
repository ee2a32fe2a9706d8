"""Makes the page of all definitions that contracts name, from the comments above the definitions."""

import re
import textwrap
from typing import Iterator, List, NamedTuple, Optional, Set, Tuple

from checks.library.contracts import Sources
from checks.library.definition_sources import DefinitionSources
from checks.library.modules import Definition, Module, Modules
from checks.library.resting import Resting
from checks.library.texts import texts_in

# the page marks the definitions that this one rests on
HEADLINE = ("dac_model_world", "EachIsMeaning")
# a comment that begins so and adds little gets no row
SAME = re.compile(r"^the same, ")
FEW_WORDS = 6
# a comment that begins so continues the one above it
GOES_ON = re.compile(r"^(so (?!many)|the same\b|they\b|what they\b)", re.IGNORECASE)
# the longest definition shown instead of a comment
FEW_SIGNS = 130
WIDTH = 130


class Row(NamedTuple):
    """A row: definitions that share a comment."""

    module: str
    definitions: Tuple[Definition, ...]
    says: str
    source: str


class Chosen(NamedTuple):
    """The definitions with a row, and those of them that the headline rests on."""

    definitions: Tuple[Definition, ...]
    marked: Set[Definition]


def chosen_of(modules: Modules, sources: Sources, resting: Resting) -> Chosen:
    """Each definition that a public function's clause names or that the headline rests on, in reading order. One whose
    comment continues the one above it also brings that one."""
    words = (word for one in sources.public() for word in resting.cited_by_function(one))
    named = {word for word in words if isinstance(word, Definition) and not word.is_law()}
    headline = [one for one in modules.definitions_of(HEADLINE[0]) if one.name == HEADLINE[1]]
    marked = set(resting.under(headline).definitions)
    left = list(named | marked)
    chosen = set(left)
    while left:
        above = one_above(left.pop(), modules)
        if above is not None and above not in chosen:
            chosen.add(above)
            left.append(above)
    return Chosen(tuple(sorted(chosen, key=modules.rank)), marked)


def one_above(one: Definition, modules: Modules) -> Optional[Definition]:
    """The definition above, if this one's comment continues its comment."""
    module = modules.of_file(one.crate, one.module, one.file)
    if module is None or says_little(one) or not GOES_ON.match(" ".join(one.comment)):
        return None
    order = list(module.definitions.values())
    return order[order.index(one) - 1] if order[0] != one else None


def says_little(one: Definition) -> bool:
    """Whether a definition's comment only calls it another form of the same."""
    comment = " ".join(one.comment)
    return SAME.match(comment) is not None and len(comment.split()) <= FEW_WORDS


def equations_of(one: Definition) -> str:
    """The text of a definition without a comment, if it is short."""
    text = " ".join(" ".join(one.text[1:]).split())
    return "" if one.comment or len(text) > FEW_SIGNS else text


def goes_with(one: Definition, group: List[Definition]) -> bool:
    """Whether a definition shares the row of those before it: it adds little, or none of them has a text here."""
    is_silent = not one.comment and not equations_of(one)
    return says_little(one) or is_silent and bool(group) and not group[-1].comment and not equations_of(group[-1])


def groups_of(module: Module, chosen: Set[Definition]) -> Iterator[List[Definition]]:
    """The chosen definitions of a module in order, by rows."""
    group: List[Definition] = []
    for one in module.definitions.values():
        if not goes_with(one, group):
            if chosen.intersection(group):
                yield group
            group = []
        group.append(one)
    if chosen.intersection(group):
        yield group


def said_of(one: Definition, module: Module) -> str:
    """A row's text: the comment above its first definition, or without one the definition, if it is short and not the
    module's first, or the module's comment."""
    if one.comment:
        return " ".join(one.comment)
    equations = equations_of(one)
    is_first = one == next(iter(module.definitions.values()))
    return f"`{equations}`" if equations and not is_first else f"(of the module) {' '.join(module.header)}"


def rows_of(module: Module, chosen: Set[Definition], sources: DefinitionSources) -> Iterator[Row]:
    for group in groups_of(module, chosen):
        shown = tuple(one for one in group if one in chosen)
        source = next((sources.of(one) for one in shown if sources.of(one)), "")
        yield Row(module.path.split(".", 1)[1], shown, said_of(group[0], module), source)


def name_of(one: Definition, marked: Set[Definition]) -> str:
    """A name in the list: bold if the headline rests on it."""
    return f"**`{one.name}`**" if one in marked else f"`{one.name}`"


def list_of(rows: List[Row], marked: Set[Definition]) -> Iterator[str]:
    """The lists of a crate, one per module."""
    above = ""
    for row in rows:
        if row.module != above:
            yield from ([""] if above else []) + [f"`{row.module}`:", ""]
            above = row.module
        names = ", ".join(name_of(one, marked) for one in row.definitions)
        says = f"{names}: {row.says}" + (f" (source: {row.source})" if row.source else "")
        yield from textwrap.wrap(f"- {says}", WIDTH, subsequent_indent="  ", break_long_words=False, break_on_hyphens=False)


class Page:
    """The page of definitions, by layers, crates and modules."""

    def __init__(self, modules: Modules, sources: Sources, resting: Resting) -> None:
        self.modules = modules
        self.tags = DefinitionSources(modules.root)
        self.chosen = chosen_of(modules, sources, resting)
        # the top of the page, the words that definitions use, and a text for each of some crates
        self.texts = texts_in("definition_texts.txt")

    def lines(self) -> Iterator[str]:
        top = self.texts["introduction"].replace("COUNTS", self.counts()), self.texts["names"]
        yield from "\n".join(top).rstrip().split("\n")
        for layer, crates in self.modules.crates.layers.items():
            parts = [line for crate in crates for line in self._of_crate(crate)]
            yield from ("", f"## {layer}", *parts) if parts else ()

    def counts(self) -> str:
        every = sum(len(self.modules.definitions_of(crate)) for crate in self.modules.crates.order())
        few = f"{len(self.chosen.definitions):,} of the {every:,} definitions"
        return f"The lists have {few}. In bold are the {len(self.chosen.marked)} that the headline rests on."

    def _of_crate(self, crate: str) -> List[str]:
        """A crate's section, if it has rows or its own text, with modules in reading order."""
        chosen = set(self.chosen.definitions)
        paths = dict.fromkeys(one.module for one in self.chosen.definitions if one.crate == crate)
        by_path = {module.path: module for module in self.modules.all_of(crate)}
        rows = [row for path in paths for row in rows_of(by_path[path], chosen, self.tags)]
        says, lists = self.texts.get(crate, "").strip(), list(list_of(rows, self.chosen.marked))
        above = [line for part in (says.split("\n") if says else [], lists) if part for line in ("", *part)]
        return ["", f"### `{crate}`", *above] if above else []
