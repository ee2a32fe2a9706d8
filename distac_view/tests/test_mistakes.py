"""Mistakes that people made, and the output for each.

`python3 test_mistakes.py --write` writes the present output to mistakes.txt, for review.
"""

import sys
import unittest

from support import MISTAKES, view

EXPECTED = MISTAKES.with_suffix(".txt")


def said_of_all() -> str:
    """The output for each mistake, after a head with the exit status; warnings are last."""
    parts = []
    for path in sorted(MISTAKES.iterdir()):
        words = ["check"] if path.suffix == ".config" else ["play", "--explain"]
        said = view(*words, str(path))
        text = (said.output + said.errors).replace(str(MISTAKES) + "/", "")
        parts.append(f"== {path.name}, status {said.status}\n{text}")
    return "\n".join(parts)


class Mistakes(unittest.TestCase):
    maxDiff = None

    def test_what_is_said(self) -> None:
        self.assertEqual(said_of_all(), EXPECTED.read_text())

    def test_each_is_told(self) -> None:
        for part in said_of_all().split("\n== "):
            is_told = ": " in part and ("^" in part or "\n" + " " * 8 in part)
            self.assertTrue(is_told or "s16_quoted" in part or "s18_indent" in part, part)


if __name__ == "__main__" and sys.argv[1:] == ["--write"]:
    EXPECTED.write_text(said_of_all())
