"""`expect`: a folder of questions, each compared with its stored answer.

NAME.question contains a command line in shell syntax, and NAME.answer its result. Each runs in its folder, so that
paths don't depend on the folder's place.
"""

import argparse
import io
import os
import shlex
import sys
import tempfile
from contextlib import contextmanager
from dataclasses import dataclass
from difflib import unified_diff
from typing import Iterator

from distac_view.asking.program import Distac
from distac_view.cli.reporting import ended_by
from distac_view.common.diagnostics import Faulty
from distac_view.common.output import Output
from distac_view.common.problems import Problem, Status
from distac_view.common.texts import bytes_of, listed, shown, text_of
from distac_view.common.writing import write_whole
from distac_view.reading.script_file import MOST_INPUT, read_bytes
from distac_view.showing.json_answers import Fields, json_of

QUESTION, ANSWER = ".question", ".answer"
ASKED = ("check", "gather", "play", "ends", "what-if", "rolling", "load")
PIPE = "|"
ERRORS = "standard error:"


@dataclass(frozen=True)
class Stored:
    """A question: its name, words, stored answer, and present answer with its status. An answer can be missing."""

    name: str
    words: "list[str]"
    stored: "str | None"
    answer: "str | None"
    status: "int | None"

    @property
    def verdict(self) -> str:
        """Whether the answer is as stored."""
        if self.answer is None or self.stored is None:
            return "left" if self.answer is None else "new"
        return "same" if self.answer == self.stored else "differs"

    @property
    def is_fault(self) -> bool:
        """Whether one of the answers is missing."""
        return self.status == Status.TROUBLE and self.verdict != "same"

    def lines(self) -> Iterator[str]:
        if self.verdict == "same":
            return
        yield f"{shown(self.name)}: {shown(' '.join(self.words)) or 'no question has this answer any more'}"
        old, new = ((text or "").splitlines() for text in (self.stored, self.answer))
        yield from list(unified_diff(old, new, lineterm=""))[2:]


def expect(distac: Distac, words: argparse.Namespace, output: Output) -> Status:
    """Runs the questions of a folder, and prints differences from the stored answers, or stores the new ones."""
    if not os.path.isdir(words.folder):
        raise Problem(f"{words.folder} is no folder: expect wants one with NAME.question and NAME.answer")
    found = [held_against(distac, words, name) for name in chosen_names(words.folder, words.names)]
    written = [each for each in found if words.write and each.answer is not None and each.verdict != "same"]
    for each in written:
        write_whole(path_of(words.folder, each.name, ANSWER), bytes_of(each.answer or ""), [])
    if words.json:
        output.line(json_of("expect", {"folder": words.folder, "answers": [fields_of(each, each in written) for each in found]}, []))
    else:
        print_all(found, written, words.write, output)
    output.flush()
    return status_of([each for each in found if each not in written])


def print_all(found: "list[Stored]", written: "list[Stored]", writes: bool, output: Output) -> None:
    """Prints the differences or the files written, and a line with the counts."""
    for each in found:
        for line in [f"{shown(each.name)}: written, status {each.status}"] if each in written else each.lines():
            output.line(line)
    same = sum(each.verdict == "same" for each in found)
    output.line(f"{len(written)} of {len(found)} answers are written" if writes else f"{same} of {len(found)} answers are as stored")


def status_of(found: "list[Stored]") -> Status:
    """The exit status: the worst of all answers."""
    if any(each.is_fault for each in found):
        return Status.TROUBLE
    return Status.FINE if all(each.verdict == "same" for each in found) else Status.NO


def path_of(folder: str, name: str, ending: str) -> str:
    return os.path.join(folder, name + ending)


def chosen_names(folder: str, names: "list[str]") -> "list[str]":
    """The names of a folder's questions and answers, or those chosen by the command line."""
    try:
        stems = [os.path.splitext(name) for name in sorted(os.listdir(folder))]
    except OSError as error:
        raise Problem(f"{folder} can't be read: {error.strerror or error}") from error
    known = list(dict.fromkeys(stem for stem, ending in stems if ending in (QUESTION, ANSWER)))
    wanted = [name[: -len(QUESTION)] if name.endswith(QUESTION) else name for name in names]
    unknown = [name for name in wanted if name not in known]
    if unknown or not known:
        raise Problem(f"{folder} has no question {shown(listed(unknown))}" if unknown else f"{folder} has no NAME.question")
    return wanted or known


def held_against(distac: Distac, words: argparse.Namespace, name: str) -> Stored:
    """A question of the folder with its present answer."""
    question, answer = (path_of(words.folder, name, ending) for ending in (QUESTION, ANSWER))
    stored = text_of(read_bytes(answer, MOST_INPUT)) if os.path.exists(answer) else None
    if not os.path.exists(question):
        return Stored(name, [], stored, None, None)
    commands = commands_in(question)
    with within(words.folder):
        text, status = asked_in_turn(distac, words.parser_of_words(), question, commands)
    return Stored(name, [word for command in commands for word in (PIPE, *command)][1:], stored, text, status)


def commands_in(path: str) -> "list[list[str]]":
    """The commands of a question: words in shell syntax, comments after #, and a bar between two commands."""
    try:
        lexer = shlex.shlex(text_of(read_bytes(path, MOST_INPUT)), posix=True, punctuation_chars=PIPE)
        lexer.whitespace_split = True
        words = list(lexer)
    except ValueError as error:
        raise Problem(f"{path} is no command line: {error}") from error
    bars = [-1, *(place for place, word in enumerate(words) if word == PIPE), len(words)]
    commands = [words[start + 1 : end] for start, end in zip(bars, bars[1:])]
    wrong = next((command for command in commands if not command or command[0] not in ASKED), None)
    if wrong is not None:
        raise Problem(f"{path}: a question begins with {listed(list(ASKED))}, and not with {shown(' '.join(wrong[:1])) or 'nothing'}")
    return commands


def asked_in_turn(distac: Distac, parser: argparse.ArgumentParser, path: str, commands: "list[list[str]]") -> "tuple[str, int]":
    """The answer to a question in its stored form, and its status: that of the last command, or of the first one
    without an answer."""
    data, errors, status = b"", io.BytesIO(), int(Status.FINE)
    for command in commands:
        with standard_input(data), standard_error(errors):
            data, status = answer_to(distac, parsed(parser, path, command, errors))
        if status == Status.TROUBLE:
            break
    said = errors.getvalue()
    parts = [f"status {status}\n", text_of(data), f"{ERRORS}\n{text_of(said)}" if said else ""]
    return "".join(parts), status


def parsed(parser: argparse.ArgumentParser, path: str, command: "list[str]", errors: io.BytesIO) -> argparse.Namespace:
    """The words of a command. A question names no program, and writes no file."""
    try:
        words = parser.parse_args(command)
    except SystemExit as end:
        raise Problem(f"{path} isn't taken: {text_of(errors.getvalue()).strip() or 'it asks for help'}") from end
    written = [getattr(words, name, None) for name in ("output", "html", "keep")] + [words.script if command[0] == "gather" else None]
    if any(file not in (None, "-") for file in written):
        raise Problem(f"{path} would write a file, and a question may not")
    if words.distac is not None:
        raise Problem(f"{path} names a program, and expect itself says which one is asked")
    return words


def answer_to(distac: Distac, words: argparse.Namespace) -> "tuple[bytes, int]":
    """The output of a command, and its status."""
    output = Kept()
    try:
        status: Status = words.subcommand(distac, words, output)
    except (Faulty, Problem) as ended:
        status = ended_by(ended, words, output)
    return output.kept.getvalue(), int(status)


class Kept(Output):
    """Standard output of a question."""

    def __init__(self) -> None:
        super().__init__()
        self.kept = io.BytesIO()
        self.stream = self.kept


@contextmanager
def within(folder: str) -> Iterator[None]:
    """The folder in which a question is asked."""
    before = os.getcwd()
    os.chdir(folder)
    try:
        yield
    finally:
        os.chdir(before)


@contextmanager
def standard_input(data: bytes) -> Iterator[None]:
    """The standard input of a question, for a dash."""
    kept = os.dup(0)
    try:
        with tempfile.TemporaryFile() as file:
            file.write(data)
            file.seek(0)
            os.dup2(file.fileno(), 0)
            yield
    finally:
        os.dup2(kept, 0)
        os.close(kept)


@contextmanager
def standard_error(errors: io.BytesIO) -> Iterator[None]:
    before, sys.stderr = sys.stderr, io.TextIOWrapper(errors, "utf-8", "surrogateescape", write_through=True)
    try:
        yield
    finally:
        sys.stderr.detach()
        sys.stderr = before


def fields_of(each: Stored, is_written: bool) -> Fields:
    return {
        **{name: getattr(each, name) for name in ("name", "words", "status", "verdict", "stored", "answer")},
        "written": is_written,
    }


def add_expect(parser: argparse.ArgumentParser) -> None:
    parser.add_argument("folder", metavar="FOLDER", help="a folder with NAME.question, the words of a command line, and NAME.answer")
    parser.add_argument("names", metavar="NAME", nargs="*", help="the questions that are asked: all, if none is named")
    parser.add_argument("--write", action="store_true", help="write the answers that differ anew")
    parser.add_argument("--json", action="store_true", help="print the answer as JSON")
