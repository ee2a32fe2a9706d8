"""Reads mutants by the toolchain's front end, which proves nothing: whether the code with each of them compiles.

One reading of the whole program has at most one mutant for each function, as a round does. The front end names the
place of each error, so the mutants of these functions aren't readable, and the others are read again without them.
"""

import pathlib
import re
from typing import Callable, Dict, Iterator, List, Mapping, NamedTuple, Tuple

from checks.library.bodies import Code, edit_in
from checks.library.rounds import Round, is_within, round_of, rounds_of

# The output lines of the front end on the crates in this folder; none if it reads all of them.
FrontEnd = Callable[[pathlib.Path], List[str]]
ERROR = re.compile(r"(?:\S*/)?crates/(?P<crate>\w+)/(?P<file>\S+?):(?P<line>\d+):\d+: error")
MOST_SIGNS = 160


class Reading(NamedTuple):
    """The unreadable mutants of each crate with the reasons, and the number of mutants read with the others."""

    faults: Dict[Tuple[str, str], str]
    read: int


class FrontEndFailed(Exception):
    """The front end refused something other than a mutant."""


def readings(root: pathlib.Path, mutants: Mapping[str, Mapping[str, str]], front_end: FrontEnd) -> Iterator[Reading]:
    """The readings of the mutants of each crate that change bodies, in a copy of the repository."""
    codes = {crate: Code(root / "crates" / crate) for crate in mutants}
    rounds = {crate: rounds_in(codes[crate], mutants[crate]) for crate in mutants}
    for number in range(max(map(len, rounds.values()), default=0)):
        left = {crate: of_crate[number] for crate, of_crate in rounds.items() if number < len(of_crate)}
        yield reading_of(root, codes, left, front_end)


def rounds_in(code: Code, mutants: Mapping[str, str]) -> List[Round]:
    """The rounds of a crate's mutants that change bodies."""
    edits = (edit_in(name, text) for name, text in mutants.items())
    return rounds_of(code, [edit for edit in edits if edit is not None])


def reading_of(root: pathlib.Path, codes: Mapping[str, Code], rounds: Dict[str, Round], front_end: FrontEnd) -> Reading:
    """Reads one round of each crate, until only readable mutants are left in it."""
    faults: Dict[Tuple[str, str], str] = {}
    try:
        while any(one.edits for one in rounds.values()):
            for crate, one in rounds.items():
                write(root, crate, {**codes[crate].texts, **one.texts})
            said = front_end(root)
            if not said:
                break
            found = {crate: faults_in(one, crate, said) for crate, one in rounds.items()}
            if not any(found.values()):
                raise FrontEndFailed(said[0])
            faults.update({(crate, name): why for crate, of_crate in found.items() for name, why in of_crate.items()})
            rounds = {crate: without(codes[crate], one, found[crate]) for crate, one in rounds.items()}
    finally:
        for crate, code in codes.items():
            write(root, crate, code.texts)
    return Reading(faults, sum(len(one.edits) for one in rounds.values()))


def write(root: pathlib.Path, crate: str, texts: Mapping[str, str]) -> None:
    for name, text in texts.items():
        (root / "crates" / crate / name).write_text(text, encoding="utf-8")


def faults_in(one: Round, crate: str, said: List[str]) -> Dict[str, str]:
    """The first error in the function of each mutant of a round that has one."""
    faults: Dict[str, str] = {}
    for line in said:
        match = ERROR.match(line)
        if match is not None and match["crate"] == crate:
            for body, edit in one.edits.items():
                if is_within(match, body):
                    faults.setdefault(edit.name, line[match.start("file") :][:MOST_SIGNS])
    return faults


def without(code: Code, one: Round, faults: Mapping[str, str]) -> Round:
    return round_of(code, {body: edit for body, edit in one.edits.items() if edit.name not in faults})
