"""Similar names, such as a misspelt name and the intended one."""

from os.path import commonprefix
from typing import Iterable


def is_near(one: str, other: str) -> bool:
    """Whether one change turns a name into the other: a character changed, added or removed, or two swapped."""
    if one == other or abs(len(one) - len(other)) > 1:
        return False
    start = len(commonprefix([one, other]))
    one, other = one[start:], other[start:]
    if len(one) == len(other):
        return one[1:] == other[1:] or (one[:2] == other[1::-1] and one[2:] == other[2:])
    return one[1:] == other or one == other[1:]


def near_to(name: str, names: Iterable[str]) -> "str | None":
    """The first of some names that is similar to a name, or differs only in capitals."""
    for other in names:
        if other != name and (is_near(name, other) or name.lower() == other.lower()):
            return other
    return None


def looks_misspelt(one: str, other: str) -> bool:
    """Whether two names differ by one changed letter. Names with different digits are meant to differ."""
    parts, others = one.strip("'").split("@"), other.strip("'").split("@")
    if len(parts) != len(others):
        return False
    changed = [(part, its) for part, its in zip(parts, others) if part != its]
    return len(changed) == 1 and differ_by_letters(*changed[0])


def differ_by_letters(one: str, other: str) -> bool:
    """Whether two names of sufficient length are similar, and don't differ in a digit."""
    if min(len(one), len(other)) < 3 or not is_near(one, other):
        return False
    start = len(commonprefix([one, other]))
    end = len(commonprefix([one[start:][::-1], other[start:][::-1]]))
    changed = one[start : len(one) - end] + other[start : len(other) - end]
    return not any(sign.isdigit() for sign in changed)
