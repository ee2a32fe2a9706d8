"""The rows of each command in examples/rows, and the examples: each an input, its output and its status."""

from __future__ import annotations

from collections.abc import Iterator
from dataclasses import dataclass
from pathlib import Path

TOP = Path(__file__).resolve().parent.parent
CHECK, SIM, LIVE, RECORD = "check", "sim", "live", "record"
# The folders of rows for each command, with the status of their rows.
FOLDERS = {command: {command: 0, f"{command}-faults": 1} for command in (CHECK, SIM, LIVE, RECORD)}


@dataclass(frozen=True)
class Row:
    """An input of a command, its output, and its status."""

    name: str
    source: bytes
    output: bytes
    status: int = 0
    command: str = SIM


def inputs_in(folder: Path, command: str) -> list[Path]:
    return sorted(folder.glob("*.config" if command == CHECK else "*.distac"))


def row_of(path: Path, name: str, status: int, command: str) -> Row:
    """The row of an input, whose output is stored next to it."""
    return Row(name, path.read_bytes(), path.with_suffix(".out").read_bytes(), status, command)


def rows(top: Path, command: str) -> Iterator[Row]:
    for folder, status in FOLDERS[command].items():
        for path in inputs_in(top / "examples" / "rows" / folder, command):
            yield row_of(path, f"{folder}/{path.stem}", status, command)


def examples(top: Path, command: str) -> Iterator[Row]:
    """The examples of `check`, `sim` or `live`."""
    for path in inputs_in(top / "examples", command):
        if path.name.startswith("live-") == (command == LIVE):
            yield row_of(path, path.stem, 0, command)


def all_rows(top: Path) -> list[Row]:
    """The rows and then the examples of `sim` and `live`."""
    return [row for command in (SIM, LIVE) for read in (rows, examples) for row in read(top, command)]
