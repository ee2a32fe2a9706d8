"""The program `distac`: finding and running it."""

from __future__ import annotations

import os
import shutil
import subprocess
from dataclasses import dataclass
from pathlib import Path
from typing import Callable

from distac_view.asking.by_models import asked_of_models
from distac_view.common.output import say
from distac_view.common.problems import Problem
from distac_view.common.texts import bytes_of, text_of

# The folder above the package. If this program is packed into one file, that file is in its place.
TOP = Path(__file__).resolve().parents[2]
BESIDE = (TOP if TOP.is_dir() else TOP.parent) / "distac"
MODELS = "--models"
BY_MODELS = "the models: nothing of them is proved"
NAMED = "a program distac that was named: distac-view doesn't know whether it is proved"
ABOUT = {"proved": "the proved program distac", "not proved": "the program distac, which is not proved"}

Asked = Callable[[str, bytes], "tuple[bytes, int]"]


@dataclass(frozen=True)
class Answer:
    """The output lines of `distac`, and whether it found a fault."""

    lines: list[str]
    is_fault: bool


class Distac:
    """The program, as a function from its subcommand and input to its output and exit status.

    A page reports whether it is known to be proved. It counts the cases of a question, and the finished ones, for the
    progress shown, which calls one case by its unit.
    """

    def __init__(self, asked: Asked, about: str = "the program distac") -> None:
        self.asked = asked
        self.about = about
        self.is_asked: Callable[[], None] = lambda: None
        self.cases = 0
        self.cases_done = 0
        self.unit = "case"

    def check(self, config: bytes) -> Answer:
        return self.answer("check", config)

    def sim(self, source: bytes) -> Answer:
        return self.answer("sim", source)

    def play(self, config: bytes, script: list[str]) -> list[str]:
        """The output of `distac sim` for a script without faults."""
        said = self.sim(joined(config, script))
        if said.is_fault:
            raise Problem(f"distac refused a script that distac-view made: {said.lines[0]}")
        return said.lines

    def has_played(self, source: bytes, output: bytes) -> bool:
        """Whether `distac sim` plays an input to exactly this output."""
        self.is_asked()
        return self.asked("sim", source) == (output, 0)

    def answer(self, word: str, source: bytes) -> Answer:
        self.is_asked()
        printed, status = self.asked(word, source)
        lines = lines_of(text_of(printed))
        if status == 1 and lines[-1:] == ["out of memory"]:
            raise Problem("distac ran out of memory: give the machine more, or make the input smaller")
        has_one_line = word == "check" or status == 1
        if status not in (0, 1) or (has_one_line and len(lines) != 1) or (printed and not printed.endswith(b"\n")):
            raise Problem(f"distac {word} gave no answer: it ended with status {status} and printed {len(printed)} bytes")
        return Answer(lines, status == 1)


def lines_of(text: str) -> list[str]:
    """The lines of a text, which end only at line feeds."""
    return text.split("\n")[:-1]


def joined(config: bytes, script: list[str]) -> bytes:
    """A configuration and script lines as an input of `distac sim`."""
    gap = b"" if config.endswith(b"\n") else b"\n"
    return config + gap + b"--\n" + bytes_of("".join(line + "\n" for line in script))


def found_distac(named: str | None) -> Distac:
    """The program named by the command line or the environment, or the one next to this; or the models."""
    path = named or os.environ.get("DISTAC")
    if path == MODELS:
        say("distac-view: the models answer, and nothing of them is proved")
        return Distac(asked_of_models(), BY_MODELS)
    program, about = (runnable(path), NAMED) if path else program_beside()
    return Distac(lambda word, source: run(program, word, source), about)


def nobody() -> Distac:
    """For output without a question: no program is looked for."""

    def asked(word: str, _source: bytes) -> tuple[bytes, int]:
        raise Problem(f"there is no program to be asked for distac {word}")

    return Distac(asked)


def runnable(path: str) -> str:
    """The program of this name or at this path."""
    program = shutil.which(path) if os.sep not in path else path
    if program is None or not os.path.isfile(program):
        more = "name one by --distac PATH or by the environment variable DISTAC, or ask the models by --models"
        raise Problem(f"no program distac at {path}: {more}")
    if not os.access(program, os.X_OK):
        raise Problem(f"{path} can't be run: it isn't executable")
    return os.path.abspath(program)


def program_beside() -> tuple[str, str]:
    """The program next to this one, and whether it is proved: the proved one, or else one without proof, compiled first
    if necessary."""
    if not TOP.is_dir():
        return runnable(str(BESIDE)), NAMED
    state, path = which_answers()
    if state not in ("proved", "not proved"):
        say("distac-view: the program distac is compiled first, without proof, in a minute or two; --models asks the models instead")
        launch("--unproved", "--help")
        state, path = which_answers()
    if state == "not proved":
        say("distac-view: the program distac is NOT PROVED; ./distac prove proves it")
    elif state != "proved":
        raise Problem("the program distac couldn't be compiled: name one by --distac PATH, or ask the models by --models")
    return path, ABOUT[state]


def which_answers() -> tuple[str, str]:
    """The output of `./distac --which`: the state of the program, and its path."""
    state, _, path = text_of(launch("--which")).strip().partition(": ")
    return state, path


def launch(*words: str) -> bytes:
    """The output of the script next to this one, with nothing to read."""
    runnable(str(BESIDE))
    try:
        return subprocess.run([str(BESIDE), *words], stdin=subprocess.DEVNULL, stdout=subprocess.PIPE, check=False).stdout
    except OSError as error:
        raise Problem(f"{BESIDE} can't be run: {error.strerror or error}") from error


def run(program: str, word: str, source: bytes) -> tuple[bytes, int]:
    """Runs the program once. Its standard error goes to the user."""
    try:
        done = subprocess.run([program, word], input=source, stdout=subprocess.PIPE, check=False)
    except OSError as error:
        raise Problem(f"{program} can't be run: {error.strerror or error}") from error
    return done.stdout, done.returncode
