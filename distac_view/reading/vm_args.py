"""Argument files such as `vm.args`: their words as `erl -args_file` reads them, and the flags that configure a node."""

from __future__ import annotations

import re
from dataclasses import dataclass, field
from typing import Iterable, NamedTuple

from distac_view.reading.erlang_tokens import Misread

ENDINGS = (".args", ".args.src", ".args.eex")
FIRST = re.compile(r"(?:\s|#[^\n]*(?:\n|\Z))*[-+][A-Za-z]")
COMMENT = r"#.*"
BLANK = " \t\n\r\v\f"


class Word(NamedTuple):
    """A word of an argument file: unquoted, with the file's path, its first character and each one's place."""

    text: str
    path: str
    place: int
    signs: "tuple[int, ...]"


@dataclass
class Flags:
    """The contents of flags: the configuration files, kernel's parameters with their values, and the node's name, of
    which the first counts."""

    configs: list[Word] = field(default_factory=list)
    kernel: "list[tuple[Word, Word]]" = field(default_factory=list)
    names: list[Word] = field(default_factory=list)


def are_arguments(path: str, text: str) -> bool:
    """Whether a file contains arguments: by its name, or because it begins with a flag."""
    return path.endswith(ENDINGS) or FIRST.match(text) is not None


def words_of(path: str, text: str) -> list[Word]:
    """The words of a file: quotes keep everything between them, and a backslash outside keeps the next character."""
    found, place = [], 0
    while place < len(text):
        if text[place] in BLANK:
            place += 1
        elif text[place] == "#":
            place = line_end(text, place)
        else:
            signs, end = signs_at(text, place)
            found.append(Word("".join(text[sign] for sign in signs), path, place, tuple(signs)))
            place = end
    return found


def signs_at(text: str, place: int) -> "tuple[list[int], int]":
    """The places of the characters of the word that begins at a character, and the character after it."""
    signs: list[int] = []
    while place < len(text) and text[place] not in BLANK + "#":
        sign = text[place]
        if sign in "\"'":
            end = text.find(sign, place + 1)
            if end < 0:
                raise Misread(place, f"this {sign} is never closed: erl takes all behind it for one word")
            signs += range(place + 1, end)
            place = end + 1
        elif sign == "\\":
            signs += range(place + 1, min(place + 2, len(text)))
            place += 2
        else:
            signs.append(place)
            place += 1
    return signs, place


def line_end(text: str, place: int) -> int:
    """Where the line of a character ends."""
    end = text.find("\n", place)
    return len(text) if end < 0 else end


def flags_of(words: Iterable[Word]) -> Flags:
    """The flags of some words, as a node reads them: each has all words up to the next, and `-extra` is the last."""
    flags = Flags()
    for flag, values in grouped(words):
        if flag == "-config":
            flags.configs += values
        elif flag == "-kernel":
            flags.kernel += zip(values[::2], values[1::2])
        elif flag in ("-name", "-sname"):
            flags.names += values[:1]
    return flags


def grouped(words: Iterable[Word]) -> "list[tuple[str, list[Word]]]":
    """Each flag with its values. A flag of the emulator, which begins with a plus, has none here."""
    found: "list[tuple[str, list[Word]]]" = []
    for word in words:
        if word.text == "-extra":
            break
        if word.text[:1] in ("-", "+"):
            found.append((word.text, []))
        elif found:
            found[-1][1].append(word)
    return found
