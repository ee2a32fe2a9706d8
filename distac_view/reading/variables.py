"""The values of the variables in templates of configuration files, from `--env` and files of variables."""

from __future__ import annotations

import re
from dataclasses import dataclass
from typing import Iterable

from distac_view.common.diagnostics import Faulty, Remark, place_of
from distac_view.common.problems import Problem
from distac_view.common.texts import cut, shown
from distac_view.reading.script_file import MOST_INPUT, read_bytes

NAME = re.compile(r"[A-Za-z_][A-Za-z0-9_.]*\Z")
LINE = re.compile(r"\s*(?:export\s+)?(?P<name>[A-Za-z_][A-Za-z0-9_.]*)=(?P<value>.*)\Z")
QUOTED = re.compile(r"(?P<quote>[\"'])(?P<value>.*)(?P=quote)\Z")
ENDING = ".env"


@dataclass(frozen=True)
class Variables:
    """Values by name. If none were given, nothing is filled in."""

    pairs: tuple[tuple[str, str], ...] = ()
    are_given: bool = False

    def values(self) -> "dict[str, str]":
        """The value of each name; later ones override earlier ones."""
        return dict(self.pairs)

    def with_file(self, path: str) -> Variables:
        """These, overridden by those of a file."""
        return Variables((*self.pairs, *pairs_of(path)), True)


def variables_of(words: Iterable[str]) -> Variables:
    """The values from `--env`, given as NAME=VALUE or as file names. A later one overrides earlier ones."""
    found = Variables()
    for word in words:
        name, sign, value = word.partition("=")
        if not (sign and NAME.match(name)):
            found = found.with_file(word)
        elif "\n" in value:
            raise Problem(f"--env {name} has a line feed in its value, and a release's file has none there")
        else:
            found = Variables((*found.pairs, (name, value)), True)
    return found


def pairs_of(path: str) -> "list[tuple[str, str]]":
    """The pairs in a file of lines NAME=VALUE. Empty lines and those that begin with # are skipped, and quotes around a
    value are removed."""
    source = read_bytes(path, MOST_INPUT)
    found, offset = [], 0
    for line in source.split(b"\n"):
        text = line.decode("utf-8", "surrogateescape").rstrip("\r")
        if text.strip() and not text.lstrip().startswith("#"):
            pair = LINE.match(text)
            if pair is None:
                sentence = f"a line of variables is NAME=VALUE, and this is {cut(shown(text), 60)}"
                raise Faulty(path, Remark(place_of(source, offset), "BadVariable", sentence))
            quoted = QUOTED.match(pair["value"])
            found.append((pair["name"], quoted["value"] if quoted else pair["value"]))
        offset += len(line) + 1
    return found
