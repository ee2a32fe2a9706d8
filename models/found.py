"""Inputs that checks/fuzz found, in the folder `found`. Each reaches code of the program that no seed reaches.

Each command has a file with one input per line, as hexadecimal bytes, the shortest first. Those of `feed` are the bytes
of packets, which a script feeds under the configuration of models/seeds.py. An input of `live` or `record` is kept only if
its pages are the same in every order of its threads.
"""

from __future__ import annotations

from collections.abc import Callable
from functools import lru_cache
from pathlib import Path
from typing import Tuple

import check
import live
import seeds
import simulator

FOLDER = Path(__file__).resolve().parent / "found"
# The program's word for each command tried.
WORDS = {"check": "check", "sim": "sim", "live": "live", "feed": "sim", "record": "record"}
FEEDS = seeds.PACKETS_UNDER + seeds.PARTED + b"feed "

Answer = Tuple[bytes, int]
# (the lines of `record` depend on the threads: recorded.py judges them)
MODELS: dict[str, Callable[[bytes], Answer]] = {
    "check": check.check,
    "sim": simulator.simulate,
    "live": live.run_live,
    "feed": simulator.simulate,
}


def source_of(command: str, found: bytes) -> bytes:
    """The program's input for a kept one."""
    return FEEDS + found.hex().encode() + b"\n" if command == "feed" else found


@lru_cache(None)
def kept(command: str) -> tuple[bytes, ...]:
    path = FOLDER / f"{command}.txt"
    return tuple(map(bytes.fromhex, path.read_text().split())) if path.exists() else ()


def source(command: str, _seed: int, number: int) -> bytes:
    """The program's input of a number."""
    return source_of(command, kept(command)[number])


def keep(command: str, inputs: list[bytes]) -> None:
    all_kept = sorted({*kept(command), *inputs}, key=lambda data: (len(data), data))
    FOLDER.mkdir(exist_ok=True)
    (FOLDER / f"{command}.txt").write_text("".join(f"{data.hex()}\n" for data in all_kept))
