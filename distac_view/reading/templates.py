"""Templates of configuration files, which releases fill in when they start."""

from __future__ import annotations

import re
from bisect import bisect_right
from dataclasses import dataclass
from typing import Mapping

from distac_view.reading.erlang_tokens import Misread

TEMPLATE = re.compile(r"\$\{(?P<name>[A-Za-z_][A-Za-z0-9_.]*)(?::-(?P<default>[^}\n]*))?\}")
FILLED_IN = (
    "a template that is filled in when the release starts: give its variables by gather --env, or take the file that this makes, "
    "or a running node's answer (gather --print-command)"
)
COMMENT = r"(?<!\$)%.*"


def template_in(text: str, comment: str = COMMENT) -> int | None:
    """The first character of a `${NAME}` outside comments."""
    for line in re.finditer(r"[^\n]+", text):
        found = TEMPLATE.search(re.sub(comment, "", line.group()))
        if found:
            return line.start() + found.start()
    return None


@dataclass(frozen=True)
class Piece:
    """A part of a text with variables filled in: its beginning there and in the template, and if it is a value."""

    start: int
    source: int
    is_value: bool


@dataclass(frozen=True)
class Filled:
    """A text with its variables filled in, and its parts."""

    text: str
    pieces: tuple[Piece, ...] = ()
    names: tuple[str, ...] = ()

    def source_place(self, place: int) -> int:
        """The character of the template that a character of the text comes from."""
        number = bisect_right([piece.start for piece in self.pieces], place) - 1
        if number < 0:
            return place
        piece = self.pieces[number]
        return piece.source if piece.is_value else piece.source + place - piece.start


def filled_in(text: str, values: Mapping[str, str], comment: str = COMMENT) -> Filled:
    """A text with its variables filled in. Raises this if one has no value, unless it is in a comment."""
    parts: list[str] = []
    pieces, names, length, behind = [Piece(0, 0, False)], [], 0, 0
    for found in TEMPLATE.finditer(text):
        value = values.get(found["name"]) or value_without(found, text, comment, found["name"] in values)
        parts += [text[behind : found.start()], value]
        start = length + found.start() - behind
        length, behind = start + len(value), found.end()
        pieces += [Piece(start, found.start(), True), Piece(length, behind, False)]
        names += [found["name"]] if value != found.group() else []
    return Filled("".join([*parts, text[behind:]]), tuple(pieces), tuple(names))


def value_without(found: "re.Match[str]", text: str, comment: str, is_empty: bool) -> str:
    """The replacement of a variable that is empty or has no value: its default, if the template has one."""
    if found["default"] is not None:
        if "{" in found["default"]:
            raise Misread(found.start(), "a release ends a default at its first }, so that it holds no tuple and no variable: give a value by --env")
        return str(found["default"])
    if is_empty:
        return ""
    line = text[text.rfind("\n", 0, found.start()) + 1 : found.start() + 1]
    if re.sub(comment, "", line) != line:
        return found.group()
    raise Misread(found.start(), f"{found['name']} has no value: give one by --env {found['name']}=VALUE")
