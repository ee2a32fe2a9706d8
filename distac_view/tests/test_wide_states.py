"""States with more lives than their format can count are reported."""

from __future__ import annotations

import unittest

from support import IS_STAND_IN, InRoom, view
from distac_view.asking.sim_output import Answered
from distac_view.asking.wide_states import MOST_LIVES, too_wide
from distac_view.reading.script_file import Line

HEAD = "[{kernel,[{distributed,[{a,[x,y]}]}]}].\n--\n"


def booted(count: int) -> list[Answered]:
    """Repeated boots of a node."""
    return [Answered(Line(number, "boot x 0"), [f"booted {number} op {number}"]) for number in range(1, count + 1)]


class WideStates(InRoom):
    """A line that may print such a state gets a warning."""

    def test_which_lines(self) -> None:
        lines = ("state x", "bytes 1", "page x", "% state x", "")
        rows: tuple[tuple[int, list[str]], ...] = ((MOST_LIVES, []), (MOST_LIVES + 1, ["state x", "bytes 1"]))
        for count, told in rows:
            ends = [Answered(Line(count + place, text), ["00"]) for place, text in enumerate(lines, 1)]
            found = [(remark.place.behind, remark.name) for remark in too_wide([*booted(count), *ends])]
            self.assertEqual(found, [(text, "TooManyLives") for text in told])

    def test_refused_boots_begin_no_life(self) -> None:
        refused = [Answered(Line(1, "boot x 0"), ["refused 2 AlreadyOn"])] * (MOST_LIVES + 5)
        self.assertEqual(list(too_wide([*refused, Answered(Line(2, "state x"), ["00"])])), [])

    @unittest.skipIf(IS_STAND_IN, "the models take minutes for so many lines")
    def test_a_whole_script(self) -> None:
        path = self.write("script", HEAD + "boot x 0\ncrash x\n" * (MOST_LIVES + 1) + "boot y 0\nstate y\n")
        said = view("play", "--strict", str(path))
        self.assertEqual(said.status, 1)
        self.assertIn("TooManyLives: 65,537 lives of nodes began", said.errors)
