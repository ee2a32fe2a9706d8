"""The place of a byte of a file for users: line, column, and the line with a caret."""

from __future__ import annotations

from dataclasses import dataclass

from distac_view.common.texts import CONTROLS, columns_of, text_of

MOST_BEFORE = 100
MOST_BEHIND = 60


@dataclass(frozen=True)
class Place:
    """A place in a file: its line and column from 1, and the parts of the line shown before and after it.

    Only a part of a long line is shown.
    """

    line: int
    column: int
    before: str
    behind: str


@dataclass(frozen=True)
class Remark:
    """A remark at a place: the name of the fault, refusal or warning, a sentence, and the applications concerned."""

    place: Place
    name: str
    sentence: str
    apps: tuple[str, ...] = ()

    def text(self, path: str) -> str:
        """The remark as printed: the place in the file, the sentence, the line and a caret."""
        head = f"{path}:{self.place.line}:{self.place.column}: {self.name}: {self.sentence}"
        return "\n".join((head, *quoted(self.place)))

    def told(self, path: str) -> Told:
        return Told(self.name, self.sentence, path, self.place, self.apps)


@dataclass(frozen=True)
class Told:
    """A fault or a warning: its name and its place in a file, if any, a sentence, and the applications concerned."""

    name: str
    sentence: str
    path: str | None = None
    place: Place | None = None
    apps: tuple[str, ...] = ()

    def text(self) -> str:
        """Its printed form."""
        if self.path is None or self.place is None:
            return "distac-view: " + (f"{self.name}: {self.sentence}" if self.name else self.sentence)
        return Remark(self.place, self.name, self.sentence).text(self.path)


class Faulty(Exception):
    """A file has a fault: the remark, and the file."""

    def __init__(self, path: str, remark: Remark) -> None:
        super().__init__(path, remark)
        self.path = path
        self.remark = remark


def place_of(source: bytes, offset: int) -> Place:
    """The place of a byte of a file. The file's length is the place after its last byte."""
    start = source.rfind(b"\n", 0, offset) + 1
    line = line_from(source, start)
    return place_in(line, source.count(b"\n", 0, start) + 1, offset - start)


def place_in(line: bytes, number: int, offset: int) -> Place:
    """The place of a byte of a line. A carriage return at the line's end belongs to the end."""
    whole = text_of(line[:offset])
    before = one_sign_each(whole[-MOST_BEFORE:])
    behind = one_sign_each(text_of(without_return(line)[offset : offset + 4 * MOST_BEHIND])[:MOST_BEHIND])
    dots = ".. " if len(whole) > MOST_BEFORE else ""
    more = " .." if len(line) > offset + 4 * MOST_BEHIND else ""
    return Place(number, len(whole) + 1, dots + before, behind + more)


def line_from(source: bytes, start: int) -> bytes:
    """The line that begins at a byte, without its line feed."""
    end = source.find(b"\n", start)
    return source[start:] if end < 0 else source[start:end]


def without_return(line: bytes) -> bytes:
    """A line without the carriage return at its end."""
    return line[:-1] if line.endswith(b"\r") else line


def one_sign_each(text: str) -> str:
    """A text as an editor counts it: each of `CONTROLS` but a tab, and each invalid byte, is one character."""
    return "".join(sign_of(character) for character in text)


def sign_of(character: str) -> str:
    """The visible form of a character."""
    is_odd = character != "\t" and (CONTROLS.match(character) or 0xD800 <= ord(character) < 0xE000)
    return "\N{REPLACEMENT CHARACTER}" if is_odd else character


def quoted(place: Place) -> list[str]:
    """The line of a place, shortened if it is long, with a caret under the place."""
    blank = "".join("\t" if sign == "\t" else " " * columns_of(sign) for sign in place.before)
    return [f"  {place.before}{place.behind}", f"  {blank}^"]
