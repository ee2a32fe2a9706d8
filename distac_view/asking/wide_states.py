"""Lines that print a state with more lives of nodes than its format can count."""

from __future__ import annotations

from typing import Iterator

from distac_view.asking.sim_output import Answered
from distac_view.common.diagnostics import Remark
from distac_view.reading.script_faults import remark_in_line

MOST_LIVES = 65_535
PRINTING = ("state", "bytes")
SENTENCE = (
    "{count} lives of nodes began before this line, and a state counts at most 65,535: bytes of one that has more are read by nobody"
)


def too_wide(each: list[Answered]) -> Iterator[Remark]:
    """The remark on lines that may print such a state, because so many nodes booted before them."""
    count = 0
    for one in each:
        count += one.first.startswith("booted ")
        if count > MOST_LIVES and one.line.is_event and one.line.verb in PRINTING:
            yield remark_in_line(one.line, 0, "TooManyLives", SENTENCE.format(count=f"{count:,}"))
