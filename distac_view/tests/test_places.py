"""Lines and columns as an editor counts them."""

from __future__ import annotations

import unittest

import support
from distac_view.common.diagnostics import place_of, quoted
from distac_view.common.misspellings import is_near, looks_misspelt
from distac_view.common.names import node_meant, short_names
from distac_view.common.texts import shown

assert support.TOP


def place(source: bytes, sign: bytes) -> tuple[int, int]:
    """The line and column of a sign's first occurrence."""
    found = place_of(source, source.index(sign))
    return found.line, found.column


class Places(unittest.TestCase):
    """Tabs, carriage returns, UTF-8 and invalid bytes."""

    def test_lines_and_columns(self) -> None:
        rows = (
            (b"!", (1, 1)),
            (b"ab!", (1, 3)),
            (b"a\n\n b!", (3, 3)),
            (b"a\r\nb!", (2, 2)),
            (b"\t\t!", (1, 3)),
            ("é\u6587!".encode(), (1, 3)),
            (b"\xff\xfe!", (1, 3)),
            (b"\x00\r!", (1, 3)),
        )
        for source, expected in rows:
            self.assertEqual(place(source, b"!"), expected, source)

    def test_behind_the_last_byte(self) -> None:
        self.assertEqual((place_of(b"ab", 2).line, place_of(b"ab", 2).column), (1, 3))
        self.assertEqual((place_of(b"", 0).line, place_of(b"", 0).column), (1, 1))
        self.assertEqual((place_of(b"ab\n", 3).line, place_of(b"ab\n", 3).column), (2, 1))

    def test_the_caret_stands_under_its_sign(self) -> None:
        self.assertEqual(quoted(place_of(b"\tab!", 3)), ["  \tab!", "  \t  ^"])
        self.assertEqual(quoted(place_of("文!".encode(), 3)), ["  文!", "    ^"])
        self.assertEqual(quoted(place_of(b"a\r\n", 1)), ["  a", "   ^"])

    def test_signs_that_turn_or_end_a_line(self) -> None:
        for sign in "\x1b\x9b\u2028\u2029\u202e\u2066\u2069":
            self.assertEqual(quoted(place_of(f"{sign}!".encode(), len(sign.encode()))), ["  \ufffd!", "   ^"], repr(sign))
            self.assertEqual(shown(f"a{sign}b"), "a\ufffdb", repr(sign))

    def test_a_long_line_is_cut(self) -> None:
        line, caret = quoted(place_of(b"x" * 500_000 + b"!" + b"y" * 500_000, 500_000))
        self.assertEqual(line[caret.index("^")], "!")
        self.assertLess(len(line), 200)


class NearNames(unittest.TestCase):
    """Names with one change, and names with different numbers."""

    def test_one_change(self) -> None:
        for one, other in (("start", "strat"), ("myapp", "myap"), ("a", "b"), ("abc", "abcd"), ("xabc", "abc")):
            self.assertTrue(is_near(one, other) and is_near(other, one), (one, other))
        for one, other in (("same", "same"), ("start", "stort1"), ("abc", "cab"), ("", "ab")):
            self.assertFalse(is_near(one, other), (one, other))

    def test_other_numbers_are_meant(self) -> None:
        self.assertFalse(looks_misspelt("cp1@cave", "cp2@cave"))
        self.assertFalse(looks_misspelt("a@h", "b@h"))
        self.assertTrue(looks_misspelt("cp1@cave", "cp1@cvae"))
        self.assertTrue(looks_misspelt("main@h", "mian@h"))


class ShortNames(unittest.TestCase):
    """Names of nodes without a part that all share."""

    def test_what_all_share_is_left_out(self) -> None:
        for nodes, others, names, left_out in (
            (("a@h", "b@h"), (), ["a", "b"], "@h"),
            (("'m-1@10.0.0.1'", "'m-1@10.0.0.2'"), (), ["10.0.0.1", "10.0.0.2"], "m-1@"),
            (("a@h", "b@i"), (), ["a@h", "b@i"], ""),
            (("a@h", "b@h", "b@i"), (), ["a@h", "b@h", "b@i"], ""),
            (("a@h",), (), ["a@h"], ""),
            (("a", "b"), (), ["a", "b"], ""),
            (("'@h'", "a@h"), (), ["@h", "a@h"], ""),
            (("a@h", "b@h"), ("b",), ["a@h", "b@h"], ""),
            (("a@h", "nowhere@h"), (), ["a@h", "nowhere@h"], ""),
            (("'-@h'", "a@h"), (), ["-@h", "a@h"], ""),
        ):
            short = short_names(nodes, others)
            self.assertEqual((short.each(nodes), short.left_out), (names, left_out))
            self.assertEqual([node_meant(name, list(nodes)) for name in names], list(nodes))
            self.assertEqual(short.one(None), "-")
