"""Lines `tell NODE NODE ..`, written out as `ship` and `hear`, so that only some nodes share.

As in a share, nodes that are off and ships that are refused are left out. The numbers of messages come from `distac`: a
script runs with guesses of what each line ships, and each answer shows whether its guess was right. Everything before
the first wrong guess stays right when the guesses are corrected and the script runs again, because later lines change
nothing before them.
"""

from __future__ import annotations

import re
from copy import copy
from dataclasses import dataclass, field
from enum import Enum
from typing import Callable

from distac_view.common.diagnostics import Remark
from distac_view.common.names import name_of
from distac_view.common.texts import cut, shown
from distac_view.reading.configuration import name_order
from distac_view.reading.script_faults import RETURN, has_return, no_such, offset_of, remark_in_line
from distac_view.reading.script_file import Line
from distac_view.reading.verbs import TELL, is_name, usage

SHIPPED = re.compile(r"shipped (?P<number>\d+) ")
HEARER_OFF = "refused 1 Off"
SHARED = re.compile(r"shared (?P<count>\d+)\Z")

# From lines to the first output line of each.
Run = Callable[["list[Line]"], "list[str]"]


class Outcome(Enum):
    """The outcome of a ship of a `tell`: it is heard, it is refused, or its receiver is off and left out."""

    HEARD = "heard"
    REFUSED = "refused"
    LEFT_OUT = "left out"


@dataclass
class Turn:
    """A line of the script, with the number of messages that it is expected to ship."""

    line: Line
    count: int

    def tried(self, _: int) -> list[Line]:
        """The lines run to check the guess."""
        return [self.line]

    def written(self, _: int) -> list[Line]:
        """The lines of the final script."""
        return [self.line]

    def mend(self, answers: list[str]) -> None:
        """Takes the answers to the tried lines as the guess."""
        self.count = shipped_by(answers[0])


@dataclass
class Told(Turn):
    """A ship of a `tell`, with its receiver and its expected outcome."""

    hearer: str
    outcome: Outcome = Outcome.HEARD

    def tried(self, number: int) -> list[Line]:
        """The ship and, if expected to be heard, its delivery. Omitted lines are replaced by a look at the node."""
        if self.outcome is Outcome.LEFT_OUT:
            return [Line(self.line.number, f"same {self.hearer} {self.hearer}")]
        return self.written(number) or [self.line]

    def written(self, number: int) -> list[Line]:
        """The ship and its delivery, or nothing. The number is that of the last message."""
        if self.outcome is not Outcome.HEARD:
            return []
        return [self.line, Line(self.line.number, f"hear {self.hearer} {number}")]

    def mend(self, answers: list[str]) -> None:
        """Takes the answers to the tried lines as the guess."""
        if self.outcome is Outcome.LEFT_OUT:
            is_left_out, is_shipped = answers[0] != "same", True
        else:
            is_left_out, is_shipped = answers[-1] == HEARER_OFF and len(answers) == 2, bool(shipped_by(answers[0]))
        self.outcome = Outcome.LEFT_OUT if is_left_out else Outcome.HEARD if is_shipped else Outcome.REFUSED
        self.count = int(self.outcome is Outcome.HEARD)


@dataclass
class Writing:
    """A script that is written out."""

    run: Run
    turns: list[Turn] = field(default_factory=list)

    def lines(self, form: Callable[[Turn, int], list[Line]]) -> list[Line]:
        """The script by the present guesses, with each turn as a function of the last message's number."""
        found, number = [], 0
        for turn in self.turns:
            number += turn.count
            found += form(turn, number)
        return found

    def settle(self) -> None:
        """Runs the script until each guess agrees with `distac`."""
        while not self.mend(self.run(self.lines(lambda turn, number: turn.tried(number)))):
            pass

    def mend(self, answers: list[str]) -> bool:
        """Takes the answers as the guesses, and returns whether all were right."""
        place, were_right = 0, True
        for turn in self.turns:
            end, guess = place + len(turn.tried(0)), copy(turn)
            turn.mend(answers[place:end])
            were_right, place = were_right and turn == guess, end
        return were_right


def shipped_by(answer: str) -> int:
    """The number of messages that a line shipped, by its answer."""
    shared = SHARED.match(answer)
    return int(shared["count"]) if shared else int(bool(SHIPPED.match(answer)))


def written_out(lines: list[Line], run: Run) -> list[Line]:
    """A script with each `tell` written out after a comment that contains it. All its lines must be correct."""
    writing = Writing(run)
    for line in lines:
        writing.turns += turns_of(line) if line.is_tell else [Turn(line, 1 if line.is_event and line.verb == "ship" else 0)]
    writing.settle()
    return writing.lines(lambda turn, number: turn.written(number))


def turns_of(line: Line) -> list[Turn]:
    """The ships of a `tell` after a comment: from each of its nodes to each other one, in name order."""
    names = sorted((name_of(word) for word in line.words[1:]), key=name_order)
    pairs = [(one, other) for one in names for other in names if one != other]
    comment = Turn(Line(line.number, f"% {line.text.strip()}"), 0)
    return [comment, *[Told(Line(line.number, f"ship {one} {other}"), 1, other) for one, other in pairs]]


def fault_in(line: Line, nodes: list[str]) -> Remark | None:
    if has_return(line):
        return remark_in_line(line, offset_of(line, len(line.words) - 1), "BadName", RETURN)
    if len(line.words) < 3:
        offset = offset_of(line, len(line.words))
        return remark_in_line(line, offset, "BadCount", f"two nodes or more tell each other what they know: {usage(TELL)}")
    for place, word in enumerate(line.words[1:], 1):
        fault = fault_of_name(word, [name_of(other) for other in line.words[1:place]], nodes)
        if fault:
            return remark_in_line(line, offset_of(line, place), *fault)
    return None


def fault_of_name(word: str, earlier: list[str], nodes: list[str]) -> tuple[str, str] | None:
    """The name and the sentence of the fault of a node in a `tell`."""
    if not is_name(word):
        name = cut(shown(word.strip("'")), 60)
        return "BadName", f"only a small letter followed by letters, digits, _ and @ needs no quotes: is '{name}' meant?"
    if name_of(word) not in nodes:
        return "UnknownActor", no_such("node", name_of(word), nodes)
    if name_of(word) in earlier:
        return "TwiceInTell", f"{shown(name_of(word))} stands in this line already: take one of them out"
    return None
