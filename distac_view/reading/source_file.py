"""A file of a node with its text: variables are filled in, and everything around a remote shell's answer is blank."""

import hashlib
import os
import re
from dataclasses import dataclass

from distac_view.common.diagnostics import Faulty, Remark, place_of
from distac_view.common.problems import Problem
from distac_view.reading.erlang_reader import decoded, decoded_anyway, encoding_of
from distac_view.reading.erlang_tokens import Misread
from distac_view.reading.script_file import MOST_INPUT, read_bytes
from distac_view.reading.templates import COMMENT, Filled, filled_in
from distac_view.reading.variables import Variables
from distac_view.reading.vm_args import COMMENT as ARGUMENT_COMMENT
from distac_view.reading.vm_args import are_arguments

ANSWER_MARK = "%% distac-view: kernel of "


@dataclass(frozen=True)
class SourceFile:
    """A file: its path, its bytes, and its text, blank outside a remote shell's answer if it contains one.

    Variables are filled in, if any were given.
    """

    path: str
    source: bytes
    filled: Filled

    @property
    def text(self) -> str:
        return self.filled.text

    @property
    def has_arguments(self) -> bool:
        """Whether it contains command-line words instead of terms."""
        return are_arguments(self.path, self.text)

    @property
    def answered_by(self) -> str:
        """The node whose remote shell gave the answer in it, if there is one."""
        _, _, behind = decoded(self.source).partition(ANSWER_MARK)
        return behind.split("\n")[0].strip()

    @property
    def mark(self) -> str:
        """The SHA-256 of its bytes."""
        return hashlib.sha256(self.source).hexdigest()

    def remark(self, place: int, name: str, sentence: str) -> Remark:
        """A fault or a warning at a character of the text."""
        before = decoded_anyway(self.source)[: self.filled.source_place(place)]
        offset = len(before.encode(encoding_of(self.source), "surrogateescape"))
        return Remark(place_of(self.source, offset), name, sentence)

    def fault(self, place: int, name: str, sentence: str) -> Faulty:
        return Faulty(self.path, self.remark(place, name, sentence))


def file_at(path: str, variables: Variables) -> SourceFile:
    """A file by its path. As in OTP, `.config` is added if the file doesn't exist without it."""
    if path != "-" and not os.path.exists(path) and os.path.exists(f"{path}.config"):
        path = f"{path}.config"
    source = read_bytes(path, MOST_INPUT)
    if len(source) > MOST_INPUT:
        raise Problem(f"{path} has more than 2,097,152 bytes: move what isn't kernel's to another file")
    try:
        file = SourceFile(path, source, Filled(answer_in(decoded(source))))
    except Misread as misread:
        place = len(source.decode("utf-8", "replace")[: misread.place].encode("utf-8", "replace"))
        raise Faulty(path, Remark(place_of(source, place), "BadEncoding", misread.sentence)) from misread
    return with_variables(file, variables) if variables.are_given else file


def plain_file(path: str, source: bytes) -> SourceFile:
    """A file as it is, with invalid bytes as characters."""
    return SourceFile(path, source, Filled(decoded_anyway(source)))


def with_variables(file: SourceFile, variables: Variables) -> SourceFile:
    """A file with its variables filled in, if it has any."""
    comment = ARGUMENT_COMMENT if file.has_arguments else COMMENT
    try:
        return SourceFile(file.path, file.source, filled_in(file.text, variables.values(), comment))
    except Misread as misread:
        raise file.fault(misread.place, "NoValue", misread.sentence) from misread


def answer_in(text: str) -> str:
    """A text, or a remote shell's answer, with blanks instead of the rest so that lines keep their places."""
    start = text.find(ANSWER_MARK)
    if start < 0:
        return text
    first = text.find("\n", start) + 1 or len(text)
    end = text.find("\n", first)
    end = len(text) if end < 0 else end
    return re.sub(r"[^\n]", " ", text[:first]) + text[first:end] + re.sub(r"[^\n]", " ", text[end:])
