"""Scripts built line by line, with the moment and the answer of each line."""

from __future__ import annotations

import re
from dataclasses import dataclass, field, replace

from distac_view.asking.program import Distac
from distac_view.asking.sim_output import Answered, answered
from distac_view.common.problems import Problem
from distac_view.reading.configuration import Configuration
from distac_view.reading.script_file import Line

SHIPPED = re.compile(r"shipped (?P<number>\d+) ")
SHARED = re.compile(r"shared (?P<count>\d+)\Z")
ISSUED = re.compile(r"(?:booted \d+ op|issued|claim) (?P<number>\d+)")


class Miscounted(Problem):
    """A ship was refused that was expected to be heard."""


@dataclass
class Story:
    """A script under a configuration, at a moment in milliseconds.

    Each line has its moment, and its answer once played. `shipped` and `issued` count messages and operations; until
    the lines are played, the latter is an upper bound. `played` counts the messages of played lines.
    """

    config: bytes
    configuration: Configuration
    lines: list[str] = field(default_factory=list)
    moments: list[int] = field(default_factory=list)
    answers: list[Answered] = field(default_factory=list)
    printed: int = 0
    now: int = 0
    shipped: int = 0
    issued: int = 0
    is_counted: bool = True
    played: int = 0

    def copy(self) -> Story:
        """A copy that can continue separately."""
        return replace(self, lines=list(self.lines), moments=list(self.moments), answers=list(self.answers))

    def add(self, *lines: str) -> None:
        """Adds lines at the present moment."""
        self.lines += lines
        self.moments += [self.now] * len(lines)

    def add_uncounted(self, *lines: str) -> None:
        """Adds lines that ship an unknown number of messages."""
        self.add(*lines)
        self.is_counted = False

    def command(self, *lines: str) -> None:
        """Adds lines that each issue an operation, or are refused."""
        self.add(*lines)
        self.issued += len(lines)

    def tell(self, sender: str, hearer: str) -> None:
        """A node tells another one its state. The ship must not be refused."""
        self.shipped += 1
        self.add(f"ship {sender} {hearer}", f"hear {hearer} {self.shipped}")

    def look(self, node: str) -> int:
        """Adds a line that prints a page. Returns its position among the lines."""
        self.add(f"page {node}")
        return len(self.lines) - 1

    def play(self, distac: Distac, *asked: str) -> list[Answered]:
        """Plays the lines, followed by some that aren't kept, whose answers it returns."""
        texts = [*self.lines[len(self.answers) :], *asked]
        output = distac.play(self.config, [*self.lines, *asked])[self.printed :]
        each = answered([Line(number, text) for number, text in enumerate(texts, 1)], output, self.configuration)
        count = len(texts) - len(asked)
        for one in each[:count]:
            self.answers.append(one)
            self.printed += len(one.answer)
        self.count(each[:count])
        return each[count:]

    def count(self, each: list[Answered]) -> None:
        """Counts the messages and operations of lines that were just played."""
        issued = [ISSUED.match(line) for one in each for line in one.answer]
        self.issued = max((int(found["number"]) for found in issued if found), default=self.last_issued())
        self.played = messages_in(each, self.played)
        if self.is_counted and self.played != self.shipped:
            raise Miscounted("distac shipped fewer messages than distac-view counted on")
        self.shipped, self.is_counted = self.played, True

    def last_issued(self) -> int:
        """The number of the last operation in all answers."""
        for one in reversed(self.answers):
            for line in reversed(one.answer):
                found = ISSUED.match(line)
                if found:
                    return int(found["number"])
        return 0


def messages_in(each: list[Answered], number: int) -> int:
    """The number of the last message, before and after some lines."""
    for one in each:
        shipped, shared = SHIPPED.match(one.first), SHARED.match(one.first)
        if shipped:
            number = int(shipped["number"])
        elif shared:
            number += int(shared["count"])
    return number
