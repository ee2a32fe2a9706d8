"""Bytes as text and back without loss, and text in a form for users."""

from __future__ import annotations

import re
import unicodedata

# Characters that move a cursor, end a line, or change the direction of the following text.
CONTROLS = re.compile("[\x00-\x1f\x7f-\x9f\u2028-\u202e\u2066-\u2069]")


def text_of(data: bytes) -> str:
    """Bytes as text. Invalid UTF-8 is preserved, so that `bytes_of` returns it."""
    return data.decode("utf-8", "surrogateescape")


def bytes_of(text: str) -> bytes:
    """The bytes of a text from `text_of`."""
    return text.encode("utf-8", "surrogateescape")


def shown(text: str) -> str:
    """A text in which each cursor move, change of direction and invalid byte is one replaced character."""
    whole = text.encode("utf-8", "surrogateescape").decode("utf-8", "replace")
    return CONTROLS.sub("\N{REPLACEMENT CHARACTER}", whole.replace("\t", " "))


def columns_of(text: str) -> int:
    """The columns of a screen that a text takes."""
    return sum(width_of(character) for character in text)


def width_of(character: str) -> int:
    """The columns of a screen that a character takes."""
    if unicodedata.combining(character):
        return 0
    return 2 if unicodedata.east_asian_width(character) in "WF" else 1


def padded(text: str, columns: int) -> str:
    return text + " " * (columns - columns_of(text))


def cut(text: str, columns: int) -> str:
    """A text of at most so many characters; two dots replace the rest."""
    return text if len(text) <= columns else text[: columns - 2] + ".."


def listed(words: list[str]) -> str:
    """Some words as a part of a sentence."""
    if len(words) < 2:
        return "".join(words)
    return ", ".join(words[:-1]) + " and " + words[-1]
