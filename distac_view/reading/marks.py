"""The phases and callers of a recorded run, which its comments name."""

from __future__ import annotations

import re
from dataclasses import dataclass, field
from typing import Iterable

from distac_view.reading.script_file import Line

MARK = re.compile(r"% (?:phase (?P<phase>[1-9][0-9]{0,8})|caller (?P<caller>[1-4]))\Z")
# The last line of the output of `distac live`, whose own phases contain no events.
LAST_OF_OUTPUT = "% weave ok"


@dataclass(frozen=True)
class Marks:
    """By the numbers of lines: the phases that begin there, the callers of events, and the comments that name these callers."""

    phases: dict[int, int] = field(default_factory=dict)
    callers: dict[int, int] = field(default_factory=dict)
    before: frozenset[int] = frozenset()


def marks_in(lines: Iterable[Line]) -> Marks:
    """The phases and callers that the comments of a script name, after the output of `distac live` if they contain it."""
    phases: dict[int, int] = {}
    named: dict[int, int] = {}
    callers: dict[int, int] = {}
    for line in lines:
        mark = MARK.match(line.text)
        if line.text == LAST_OF_OUTPUT:
            phases.clear()
        elif mark and mark["phase"]:
            phases[line.number] = int(mark["phase"])
        elif mark:
            named[line.number] = int(mark["caller"])
        elif line.is_event and line.number - 1 in named:
            callers[line.number] = named[line.number - 1]
    return Marks(phases, callers, frozenset(number - 1 for number in callers))
