"""The output of `distac sim`, divided among the script lines."""

from __future__ import annotations

from dataclasses import dataclass

from distac_view.common.problems import Problem
from distac_view.reading.configuration import Configuration
from distac_view.reading.script_file import Line
from distac_view.reading.verbs import Role, word_of


@dataclass(frozen=True)
class Answered:
    """A script line with its output lines. Comments and empty lines have none."""

    line: Line
    answer: list[str]

    @property
    def first(self) -> str:
        return self.answer[0] if self.answer else ""

    @property
    def actor(self) -> str:
        """The node where the line happens."""
        return word_of(self.line.words, Role.ACTOR) or ""


def answered(lines: list[Line], output: list[str], configuration: Configuration) -> list[Answered]:
    page_length = 2 + len(configuration.nodes) + 2 * len(configuration.applications)
    found, place = [], 0
    for line in lines:
        end = place + answer_length(line, output, place, page_length) if line.is_event else place
        found.append(Answered(line, output[place:end]))
        place = end
    if place != len(output):
        raise Problem("distac printed more lines than its script asks for")
    return found


def answer_length(line: Line, output: list[str], place: int, page_length: int) -> int:
    """The number of output lines, from a position, that belong to a line."""
    if place >= len(output):
        raise Problem("distac printed fewer lines than its script asks for")
    if line.verb == "page" and not output[place].endswith(" off"):
        return page_length
    end = place + 1
    if line.verb == "tick":
        while end < len(output) and output[end].startswith(("claim ", "passed ")):
            end += 1
    return end - place
