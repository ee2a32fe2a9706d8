"""Texts in files: the page of definitions in words, and what the tests read."""

import pathlib
from typing import Dict


def texts_in(name: str) -> Dict[str, str]:
    """The texts of a file in this folder. Four equal signs and a name precede each."""
    whole = (pathlib.Path(__file__).parent / name).read_text(encoding="utf-8")
    parts = (part.partition("\n") for part in whole.split("==== ")[1:])
    return {named: text for named, _, text in parts}
