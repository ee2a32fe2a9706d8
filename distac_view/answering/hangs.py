"""Applications that OTP may fail to restart in a played case, with a note on them."""

from __future__ import annotations

from typing import Iterable, Iterator, Sequence

from distac_view.answering.notes import Note
from distac_view.asking.cases import Course
from distac_view.common.names import bare_names
from distac_view.common.texts import listed, shown
from distac_view.reading.configuration import Configuration
from distac_view.reading.equal_times import CURE, pairs_among


def names_that_hang(courses: Sequence[Course], nodes: Iterable[str], configuration: Configuration) -> list[str]:
    """The applications that OTP may fail to restart with the remaining nodes of one loss, or of several that don't
    affect each other: those that fail over at one moment, and all later ones, because a node that hangs restarts
    nothing any more."""
    claimed = {each.app: each.milliseconds for course in courses for each in course.claims}
    lost = {held.app for course in courses for held in course.at_once.held.values() if held.verdict == "failover" and held.app in claimed}
    left = [node for node in nodes if not any(node in course.loss.down for course in courses)]
    applications = [each for each in configuration.applications if each.name in lost]
    for moment in sorted({claimed[name] for name in lost}):
        if pairs_among([each for each in applications if claimed[each.name] == moment], left):
            return [each.name for each in applications if claimed[each.name] >= moment]
    return []


def hang_notes(cases: Iterable["tuple[list[str], list[str]]"]) -> Iterator[Note]:
    """A note for each loss that may hang: the nodes that are down, and the applications."""
    for down, names in cases:
        if names:
            lost, some = listed(bare_names(down)), "one" if len(names) == 2 else "some"
            text = f"Without {lost} OTP 25 may hang, and restart only {some} of {listed(bare_names(names))}: {CURE}."
            yield Note("EqualTimes", shown(f"{text} While it hangs, {lost} can't start its applications again."))
