"""The files that `gather` read, with their SHA-256, as comments above its configuration."""

from __future__ import annotations

import hashlib
import os
import re
from dataclasses import dataclass

from distac_view.common.names import name_of
from distac_view.common.texts import text_of

WRITTEN = re.compile(r"^%+ (?P<node>'[^'\n]*'|[^\s']+) (?P<file>\S.*) sha256 (?P<mark>[0-9a-f]{64})\s*$", re.MULTILINE)


@dataclass(frozen=True)
class Sum:
    """A file of a node, and the SHA-256 of its bytes."""

    node: str
    file: str
    mark: str

    @property
    def comment(self) -> str:
        return f"%% {self.node} {self.file} sha256 {self.mark}"


def sums_in(text: bytes) -> list[Sum]:
    """The files that a configuration was gathered from."""
    return [Sum(name_of(found["node"]), found["file"], found["mark"]) for found in WRITTEN.finditer(text_of(text))]


def without_sums(text: bytes) -> list[str]:
    """The lines of a configuration without its first comment, which names a version, and without those of files."""
    lines = text_of(text).splitlines()
    return [line for line in lines if not WRITTEN.match(line) and not (line.startswith("%%") and ", gather: " in line)]


def mark_now(path: str) -> str | None:
    """The SHA-256 of a file as it is now, if it is there."""
    if not os.path.isfile(path):
        return None
    try:
        with open(path, "rb") as file:
            return hashlib.sha256(file.read()).hexdigest()
    except OSError:
        return None
