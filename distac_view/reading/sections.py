"""The places of a file's sections and their parameters, and which of them are repeated."""

from __future__ import annotations

import os
from typing import Iterable, Iterator, TypeVar

from distac_view.common.diagnostics import Remark
from distac_view.common.texts import cut, shown
from distac_view.reading.erlang_terms import Atom, Term, Way
from distac_view.reading.erlang_tokens import Kind, Misread, tokens_of, unescaped
from distac_view.reading.source_file import SourceFile

Name = TypeVar("Name")

OPENING = frozenset(("[", "{", "(", "#{", "<<"))
CLOSED = frozenset(("]", "}", ")", ">>"))
# Only in files of these names OTP merges two sections of one name.
SYS_CONFIG = ("sys.config", "sys.config.src")


class Sections:
    """The names of sections and parameters with their places, up to a token that our reader doesn't know."""

    def __init__(self, text: str) -> None:
        self.sections: list[tuple[str, int]] = []
        self.parameters: list[tuple[int, str, int]] = []
        self.first_string = 0
        try:
            self.find(text)
        except Misread:
            pass

    def find(self, text: str) -> None:
        """Walks through the tokens. A section's name is two brackets deep, that of a parameter four."""
        depth, before = 0, ""
        for token in tokens_of(text):
            if token.kind is Kind.MARK:
                depth += 1 if token.written in OPENING else -1 if token.written in CLOSED else 0
            elif before == "{" and token.is_name and depth in (2, 4):
                name = token.written if token.kind is Kind.ATOM else unescaped(token.written[1:-1], token.start + 1)
                self.add(depth, name, token.start)
            elif depth == 1 and token.kind is Kind.STRING:
                self.first_string = self.first_string or token.start
            before = token.written

    def add(self, depth: int, name: str, place: int) -> None:
        """Adds a name after an opening bracket."""
        if depth == 2:
            self.sections.append((name, place))
        elif self.sections:
            self.parameters.append((len(self.sections) - 1, name, place))

    def of_section(self, name: str) -> int:
        return max((place for section, place in self.sections if section == name), default=0)

    def of_parameter(self, name: str) -> int:
        """The last parameter of kernel of a name."""
        found = (place for number, parameter, place in self.parameters if (self.sections[number][0], parameter) == ("kernel", name))
        return max(found, default=0)

    def twice_parameters(self) -> Iterator[tuple[str, int]]:
        """Parameters repeated in their section."""
        found = again(((number, name), place) for number, name, place in self.parameters)
        return ((name, place) for (_, name), place in found)


def wrong_part(item: Term) -> Way:
    """The way to the fault in a section or a parameter: its name, the part after that, or all of it."""
    if not isinstance(item, tuple) or len(item) != 2:
        return ()
    return (1,) if isinstance(item[0], Atom) else (0,)


def again(named: Iterable[tuple[Name, int]]) -> Iterator[tuple[Name, int]]:
    """Of some names with their places, the repeated ones."""
    seen: set[Name] = set()
    for name, place in named:
        if name in seen:
            yield name, place
        seen.add(name)


def twice_in(file: SourceFile, sections: Sections, about_parameter: str) -> Iterator[Remark]:
    """Sections and parameters repeated in a file, each with a sentence: OTP doesn't boot with such a file."""
    for name, place in again(sections.sections):
        if os.path.basename(file.path) not in SYS_CONFIG:
            sentence = f"the section {cut(shown(name), 60)} stands twice: OTP boots with that in sys.config alone; put both into one"
            yield file.remark(place, "TwiceSection", sentence)
    for name, place in sections.twice_parameters():
        yield file.remark(place, "TwiceParameter", about_parameter.format(cut(shown(name), 60)))
