"""The origin of a page: the command, the time, the files with their checksums, the version, and the program used."""

import argparse
import hashlib
import os
import shlex
from dataclasses import dataclass, field
from datetime import datetime, timezone
from typing import Iterable, List

from distac_view.common.names import bare_name
from distac_view.common.version import version_line
from distac_view.common.writing import PIPE
from distac_view.reading.sums import Sum, sums_in
from distac_view.showing.html_elements import section, text_in

# The time that a build gives its files, so that repeated builds are equal.
EPOCH = "SOURCE_DATE_EPOCH"


@dataclass(frozen=True)
class File:
    """An input file: its name without folders, the checksum of its contents, unless it is a pipe, which is read once,
    and the files that it was gathered from."""

    name: str
    mark: str
    sums: List[Sum] = field(default_factory=list)

    @property
    def line(self) -> str:
        """The file in a line."""
        return f"{self.name}, SHA-256 {self.mark}" if self.mark else self.name

    @property
    def gathered(self) -> List[str]:
        """The files that it was gathered from, in lines."""
        return [f"{bare_name(each.node)}: {file_name(each.file)}, SHA-256 {each.mark}" for each in self.sums]


@dataclass(frozen=True)
class Asked:
    """The origin of a page."""

    command: str
    moment: str
    files: List[File]
    version: str
    program: str

    @property
    def section(self) -> str:
        """The part of a page about it."""
        files = []
        for number, file in enumerate(self.files, 1):
            which = f" {number}" if len(self.files) > 1 else ""
            files += [(f"File{which}", file.line), *((f"Gathered{which}", line) for line in file.gathered)]
        rows = [("Command", self.command), *files, ("When", self.moment), ("Version", self.version), ("Answered by", self.program)]
        pairs = "".join(f"<dt>{text_in(name)}</dt><dd>{text_in(value)}</dd>" for name, value in rows)
        return section("How this was asked", f"<dl>{pairs}</dl>")


def asked_by(words: argparse.Namespace, read: Iterable[str], program: str) -> Asked:
    """The origin of a page, from a command line and its input files."""
    paths = list(read)
    named = [*paths, words.output, *([words.distac] if words.distac else [])]
    command = shlex.join(["distac-view", *(without_folders(word, named) for word in words.arguments)])
    return Asked(command, moment(), [file_at(path) for path in paths], version_line(), program)


def file_name(path: str) -> str:
    """The name of a file without its folders."""
    return "standard input" if path == PIPE else os.path.basename(path) or path


def without_folders(word: str, paths: List[str]) -> str:
    """A word of a command line with paths reduced to file names, as in `--after=scripts/repair.distac`."""
    longest = max((path for path in paths if os.sep in path and word.endswith(path)), key=len, default="")
    return word[: len(word) - len(longest)] + os.path.basename(longest)


def file_at(path: str) -> File:
    if path == PIPE or not os.path.isfile(path):
        return File(file_name(path), "")
    try:
        with open(path, "rb") as file:
            data = file.read()
        return File(file_name(path), hashlib.sha256(data).hexdigest(), sums_in(data))
    except OSError:
        return File(file_name(path), "")


def moment() -> str:
    """The time of the question, in UTC."""
    try:
        now = datetime.fromtimestamp(int(os.environ[EPOCH]), timezone.utc)
    except (KeyError, ValueError, OverflowError, OSError):
        now = datetime.now(timezone.utc)
    return now.strftime("%Y-%m-%d %H:%M UTC")
