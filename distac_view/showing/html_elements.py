"""Elements of pages, as text."""

import re
from dataclasses import dataclass
from html import escape
from typing import Iterable, Iterator, List, Tuple, Union

from distac_view.common.texts import shown

# Places to break a name: after signs, and in a long part also after every few letters.
WORDS = re.compile(r"[^ ]+")
PARTS = re.compile(r"[^@,]*[@,]+|[^@,]+")
LONG, SHORT = 24, 12
UNIT = re.compile(r"(?<=\d) (?=(?:ms|s|to)\b)|(?<=\bto) (?=\d)")


def text_in(text: str) -> str:
    return escape(shown(text), quote=True)


def with_arrows(text: str) -> str:
    """A text with arrows of one sign."""
    return text.replace("->", "\N{RIGHTWARDS ARROW}")


def wrapped(text: str) -> str:
    """A text in a narrow element: a name can break, and a unit stays with its number."""
    whole = UNIT.sub("\N{NO-BREAK SPACE}", with_arrows(text))
    return WORDS.sub(lambda found: "<wbr>".join(text_in(piece) for piece in pieces_of(found.group())), whole)


def pieces_of(word: str) -> Iterator[str]:
    """The unbroken parts of a word: up to an @ or a comma, and of a long part some letters."""
    for part in PARTS.findall(word):
        size = SHORT if len(part) > LONG else len(part)
        yield from (part[place : place + size] for place in range(0, len(part), size))


def paragraphs(sentences: Iterable[str]) -> str:
    return "".join(f"<p>{text_in(sentence)}</p>" for sentence in sentences)


def bullets(sentences: Iterable[str]) -> str:
    """A list of sentences, if there are any."""
    items = "".join(f"<li>{text_in(sentence)}</li>" for sentence in sentences)
    return f"<ul>{items}</ul>" if items else ""


def section(heading: str, inside: str) -> str:
    """A part of a page with its heading, unless it is empty."""
    return f"<section><h2>{text_in(heading)}</h2>{inside}</section>" if inside else ""


def region(kind: str, name: str, inside: str) -> str:
    """A box that scrolls, also by keyboard."""
    return f'<div class="{kind}" role="region" aria-label="{text_in(name)}" tabindex="0">{inside}</div>'


@dataclass(frozen=True)
class Square:
    """A cell of a picture: its text, and its kind, which chooses its pattern."""

    kind: str
    text: str


Cells = Tuple[Union[str, Square], ...]


@dataclass(frozen=True)
class Table:
    """A table with a name, the heads of its columns, and rows. The last cell of a short row fills the rest.

    Cells don't wrap, except those of the last column, unless all may. On a narrow screen each row is a card, whose
    cells repeat their heads. Such cells are no cells to a screen reader unless they have roles.
    """

    name: str
    heads: Tuple[str, ...]
    rows: List[Cells]
    numbers: range = range(0)
    wraps: bool = False

    @property
    def text(self) -> str:
        """The table in a box that scrolls if it doesn't fit."""
        heads = "".join(f'<th role="columnheader" scope="col"{self.kind(place)}>{wrapped(head)}</th>' for place, head in enumerate(self.heads))
        rows = "".join(f"<tr role=\"row\">{''.join(self.cells(row))}</tr>\n" for row in self.rows)
        parts = f'<thead role="rowgroup"><tr role="row">{heads}</tr></thead>\n<tbody role="rowgroup">{rows}</tbody>'
        table = f'<table role="table" aria-label="{text_in(self.name)}">{parts}</table>'
        return region("wide wraps" if self.wraps else "wide", self.name, table)

    def kind(self, place: int) -> str:
        """The alignment of a column's cells."""
        return ' class="end"' if place in self.numbers else ""

    def cells(self, row: Cells) -> Iterator[str]:
        """The cells of a row: the first one is its head."""
        for place, cell in enumerate(row):
            kind, text = (f' class="{cell.kind}"', cell.text) if isinstance(cell, Square) else (self.kind(place), cell.strip())
            rest = len(self.heads) - place if place == len(row) - 1 else 1
            more = f' colspan="{rest}"' if rest > 1 else f' data-head="{text_in(with_arrows(self.heads[place]))}"'
            name, role = ("td", 'role="cell"') if place else ("th", 'role="rowheader" scope="row"')
            yield f"<{name} {role}{kind}{more}>{wrapped(text)}</{name}>"
