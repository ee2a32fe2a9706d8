"""An input of `distac sim`: its configuration, and the lines of its script with their places in the file."""

from __future__ import annotations

from dataclasses import dataclass
from typing import IO, NamedTuple

from distac_view.common.problems import Problem
from distac_view.common.texts import text_of
from distac_view.reading.verbs import TELL, words_of

MOST_CONFIG, MOST_INPUT = 65_536, 2_097_152


class Line(NamedTuple):
    """A line of a script: its number in the file, and its text without the line feed."""

    number: int
    text: str

    @property
    def is_event(self) -> bool:
        """Whether it is neither empty nor a comment."""
        return self.text != "" and not self.text.startswith("%")

    @property
    def words(self) -> list[str]:
        return words_of(self.text)

    @property
    def verb(self) -> str:
        """Its first word."""
        return (self.words or [""])[0]

    @property
    def is_tell(self) -> bool:
        """Whether it is a line `tell`, which `distac-view` writes out."""
        return self.is_event and self.verb == TELL


@dataclass(frozen=True)
class Script:
    """A file: all its bytes, the bytes before the line `--`, and the lines after it."""

    source: bytes
    config: bytes
    lines: list[Line]

    @property
    def has_tells(self) -> bool:
        """Whether any line is a `tell`."""
        return TELL.encode() in self.source and any(line.is_tell for line in self.lines)


def separator_in(source: bytes) -> int | None:
    """The first byte of the first line that is exactly two dashes."""
    if source.startswith(b"--\n") or source == b"--":
        return 0
    place = source.find(b"\n--\n")
    if place >= 0:
        return place + 1
    return len(source) - 2 if source.endswith(b"\n--") else None


def script_of(source: bytes) -> Script | None:
    """The script of a file, if it has the line `--`."""
    place = separator_in(source)
    if place is None:
        return None
    first = source.count(b"\n", 0, place) + 2
    lines = [Line(number, text) for number, text in enumerate(text_of(source[place + 3 :]).split("\n"), first)]
    return Script(source, source[:place], lines)


def read_bytes(path: str, most: int) -> bytes:
    """The bytes of a file, or of standard input for a dash. Of a long one, one byte more than allowed suffices."""
    try:
        with open(0 if path == "-" else path, "rb", closefd=path != "-") as file:
            return read_most(file, most)
    except (OSError, ValueError) as error:
        raise Problem(f"{path} can't be read: {getattr(error, 'strerror', None) or error}") from error


def read_most(file: IO[bytes], most: int) -> bytes:
    """The contents of a file, up to its end or just past the allowed length."""
    parts, size = [], 0
    while size <= most:
        part = file.read(most + 1 - size)
        if not part:
            break
        parts.append(part)
        size += len(part)
    return b"".join(parts)
