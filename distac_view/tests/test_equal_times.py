"""Pairs of applications that are reported to hang: the cases measured with three real nodes of OTP 25, which all start
all applications."""

from __future__ import annotations

import unittest

from support import distac
from distac_view.asking.inputs import check_config
from distac_view.reading.configuration import Configuration
from distac_view.reading.equal_times import pairs_among, pairs_that_hang

LIST, TUPLE, OTHER_WAY = "[cp1,cp2,cp3]", "[cp1,{cp2,cp3}]", "[cp1,cp3,cp2]"
HUNG = (
    ((400, TUPLE), (400, TUPLE)),
    ((5000, TUPLE), (5000, TUPLE)),
    ((0, TUPLE), (0, TUPLE)),
    ((400, TUPLE), (400, LIST)),
    ((400, LIST), (400, OTHER_WAY)),
    ((400, "[{cp1,cp2},cp3]"), (400, LIST)),
    ((400, "[cp1,cp2]"), (400, "[cp1,cp3]")),
    ((400, LIST), (400, "[cp1,cp3]")),
)
WENT_WELL = (
    ((400, LIST), (400, LIST)),
    ((400, TUPLE), (420, TUPLE)),
    ((400, TUPLE), (900, TUPLE)),
    ((400, "[cp1,cp2,{cp3}]"), (400, "[cp1,cp2]")),
    ((400, "[{cp1,cp2}]"), (400, "[cp1,cp2]")),
    ((4_294_967_295, TUPLE), (4_294_967_295, TUPLE)),
)


def configuration_of_two(entries: tuple[tuple[int, str], ...]) -> Configuration:
    """A configuration with two applications."""
    text = ",".join("{a%d,%d,%s}" % (number, time, nodes) for number, (time, nodes) in enumerate(entries))
    return check_config(distac(), "x", f"[{{kernel,[{{distributed,[{text}]}}]}}].".encode()).configuration


class EqualTimes(unittest.TestCase):
    def test_measured_cases(self) -> None:
        for entries in HUNG:
            for turned in (entries, entries[::-1]):
                self.assertEqual(len(pairs_that_hang(configuration_of_two(turned))), 1, turned)
        for entries in WENT_WELL:
            self.assertEqual(pairs_that_hang(configuration_of_two(entries)), [], entries)

    def test_one_node_left(self) -> None:
        applications = configuration_of_two(HUNG[0]).applications
        self.assertEqual(len(pairs_among(applications, ["cp2", "cp3"])), 1)
        self.assertEqual(pairs_among(applications, ["cp3"]), [])
        self.assertEqual(pairs_among(applications, []), [])

    def test_other_nodes(self) -> None:
        self.assertEqual(pairs_that_hang(configuration_of_two(((400, "[cp1,{cp2,cp3}]"), (400, "[cp4,{cp2,cp3}]")))), [])
        self.assertEqual(pairs_that_hang(configuration_of_two(((400, "[cp1,{cp2,cp3}]"), (400, "[cp1]")))), [])
        self.assertEqual(pairs_that_hang(configuration_of_two(((400, "[cp1,cp2,{cp3,cp4}]"), (400, "[cp1,cp2,{cp3,cp4}]"))))[0].node, "cp2")
