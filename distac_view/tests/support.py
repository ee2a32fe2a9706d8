"""Shared parts of the tests: the repository, `distac`, and `distac-view` run in this process or in its own."""

from __future__ import annotations

import io
import json
import os
import signal
import subprocess
import sys
import tempfile
import time
import unittest
from collections.abc import Callable
from dataclasses import dataclass
from html.parser import HTMLParser
from pathlib import Path
from typing import Any
from unittest import mock

TOP = Path(__file__).resolve().parents[2]
EXAMPLES = TOP / "examples"
HERE = TOP / "distac_view" / "tests"
MISTAKES, NODES, STAND_IN = HERE / "mistakes", HERE / "nodes", HERE / "stand_in.py"
PROGRAM = os.environ.get("DISTAC") or str(STAND_IN)
IS_STAND_IN = PROGRAM == str(STAND_IN)

sys.path[:0] = [str(TOP), str(TOP / "models")]

# A shell's `&` ignores Ctrl-C in what it starts.
if signal.getsignal(signal.SIGINT) == signal.SIG_IGN:
    signal.signal(signal.SIGINT, signal.default_int_handler)

from json_schema import documented
from distac_view.asking.program import Distac, found_distac
from distac_view.cli import command_line
from distac_view.cli.expect import within


@dataclass(frozen=True)
class Said:
    """The result of `distac-view`: its exit status and output."""

    status: int
    output: str
    errors: str


class InRoom(unittest.TestCase):
    """Tests with a folder of their own."""

    def setUp(self) -> None:
        room = tempfile.TemporaryDirectory()
        self.addCleanup(room.cleanup)
        self.room = Path(room.name)

    def write(self, name: str, text: str) -> Path:
        """A file in the folder."""
        path = self.room / name
        path.parent.mkdir(parents=True, exist_ok=True)
        path.write_bytes(text.encode("utf-8", "surrogateescape"))
        return path

    def script(self, name: str, text: str) -> Path:
        """A script of the shell that can be run."""
        path = self.write(name, f"#!/bin/sh\n{text}\n")
        path.chmod(0o755)
        return path

    def names(self) -> list[str]:
        """The contents of the folder."""
        return sorted(path.name for path in self.room.iterdir())

    def until(self, holds: Callable[[], bool]) -> None:
        """Waits until something holds."""
        last = time.monotonic() + 60
        while not holds():
            self.assertLess(time.monotonic(), last)
            time.sleep(0.05)

    def answer(self, status: int, *words: str) -> Any:
        """An answer as JSON, which fits its schema."""
        said = view(*words, "--json")
        self.assertEqual((said.status, documented().faults_of(said.output)), (status, []), said)
        return json.loads(said.output)


class Elements(HTMLParser):
    """The elements of a page in order, with their attributes."""

    def __init__(self, page: str) -> None:
        super().__init__()
        self.found: list[tuple[str, dict[str, str]]] = []
        self.feed(page)

    def handle_starttag(self, tag: str, attrs: list[tuple[str, str | None]]) -> None:
        self.found.append((tag, {name: value or "" for name, value in attrs}))


def hear_signals() -> None:
    """Makes a process that is started hear the signals that `nohup` or a shell's `&` ignores. A shell can't trap these."""
    for number in (signal.SIGHUP, signal.SIGINT, signal.SIGQUIT):
        signal.signal(number, signal.SIG_DFL)


def distac() -> Distac:
    """The program that DISTAC names, or the models in this process."""
    if not IS_STAND_IN:
        return found_distac(PROGRAM)
    from stand_in import MODELS

    return Distac(lambda word, source: MODELS[word](source))


def view(*words: str, program: str | None = None) -> Said:
    """Runs `distac-view` in this process with a program, by default that of the tests. A file must be named."""
    output, errors = io.TextIOWrapper(io.BytesIO()), io.TextIOWrapper(io.BytesIO())
    with mock.patch.object(sys, "stdout", output), mock.patch.object(sys, "stderr", errors):
        with mock.patch.object(command_line, "found_distac", lambda _: found_distac(program) if program else distac()):
            status = status_of(list(words))
    return Said(status, written(output), written(errors))


def status_of(words: list[str]) -> int:
    """The exit status of `distac-view`, even if its command line ends it."""
    try:
        return int(command_line.run(words))
    except SystemExit as end:
        return int(end.code or 0)


def written(stream: io.TextIOWrapper) -> str:
    stream.flush()
    kept = stream.buffer
    assert isinstance(kept, io.BytesIO)
    return kept.getvalue().decode("utf-8", "surrogateescape")


def gather(*words: str, folder: Path = NODES) -> Said:
    """The output of `gather` for files in a folder."""
    with within(str(folder)):
        return view("gather", *words)


def run_view(*words: str, source: bytes = b"", program: str = PROGRAM) -> Said:
    """Runs `distac-view` in its own process."""
    surroundings = {**os.environ, "DISTAC": program}
    done = subprocess.run([sys.executable, str(TOP / "distac-view"), *words], input=source, capture_output=True, env=surroundings)
    decoded = (stream.decode("utf-8", "surrogateescape") for stream in (done.stdout, done.stderr))
    return Said(done.returncode, *decoded)
