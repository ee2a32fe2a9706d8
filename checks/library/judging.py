"""Judges an edit of a crate from the output of a check with it, as the toolchain judges a must-fail edit."""

import pathlib
import re
from typing import Dict, Mapping, Sequence

from checks.library.bodies import changes_in
from checks.library.joint_checks import JointChecks
from checks.library.rounds import NOT_PROVED, REFUSED

BAD, MISSED = "BAD EDIT: ", "NOT REFUSED: the crate is still proved with this edit"
UNREAD = BAD + "the prover cannot read the edited text, so no contract was tried: "
STALE = BAD + "the kept work of a library could not be used"
NO_VERDICT = BAD + "it did not reach the prover; the first lines of what it said: "
BY_NAME = " (only because a proof file names what the edit took away, so this says little of the contract)"
BY_LIMIT = " (only by a limit of the prover, which gave no verdict)"
FOLDERS = ("src/", "specs/", "proofs/")
# A message at a place of a file; for an error also its reason, and its goal, if there is one.
PLACE = re.compile(r"(note: )?\S+:\d+:\d+:")
FAULT = re.compile(r"(?:\./)?(?P<file>\S+?):\d+:\d+: error: (?:(?P<goal>`[^`]*`): )?(?P<said>.*)")
QUOTED = re.compile(r"`[^`]*`")
# Messages about an unreadable text, a proof that names something removed or cites such a proof, a limit, and an
# unusable library.
NO_TEXT = re.compile(r"is not in scope|has no field|is no name|operand is missing|expected the end|cannot continue")
NAMED = re.compile(r"(\./)?proofs/.*(has no field|is not in scope|has no `|was not admitted)")
LIMIT = re.compile(r"(\./)?proofs/.*(ran out of (stack|the (steps|memory) )|outgrew the memory|stopped at the step limit)")
UNUSABLE = re.compile(r"module .Rattle-\w+-.*Run the lower steps again|rattle: error\[unusable-built-library\]")
MOST_SIGNS, MOST_OF_A_FAULT, FIRST_LINES = 160, 200, 6


class BadEdit(Exception):
    """An edit that doesn't apply."""


def verdict_on(edit: str, checks: JointChecks, is_from_nothing: bool) -> str:
    """The verdict on an edit of a crate, from nothing too if it isn't refused with earlier results."""
    try:
        texts = texts_with(edit, checks.folder)
    except (BadEdit, OSError, UnicodeDecodeError) as fault:
        return f"{BAD}{fault}"
    verdict = "" if is_from_nothing else judged(texts, *checks.check(texts))
    return verdict if verdict.startswith(REFUSED) else judged(texts, *checks.check(texts, is_from_nothing=True))


def texts_with(edit: str, folder: pathlib.Path) -> Dict[str, str]:
    """The texts of the crate's files that an edit changes, after its changes."""
    texts: Dict[str, str] = {}
    for name, change in changes_in(edit):
        if not name.startswith(FOLDERS) or ".." in name:
            raise BadEdit("a 'file:' line names no file below src/, specs/ or proofs/")
        text = texts[name] if name in texts else (folder / name).read_text(encoding="utf-8")
        count = text.count(change.old) if change.old else 0
        if count != 1:
            raise BadEdit(f"an 'old:' text is in {name} {count} times, and not once")
        texts[name] = text.replace(change.old, change.new)
    if not texts:
        raise BadEdit("it has no 'old:' and 'new:' pair")
    return texts


def judged(texts: Mapping[str, str], status: int, lines: Sequence[str]) -> str:
    """The verdict on an edit with these texts, from the status and output of its check."""
    unread = next((line for line in lines if is_unread(line, texts)), "")
    if unread:
        return UNREAD + unread[:MOST_OF_A_FAULT]
    if any(map(UNUSABLE.search, lines)):
        return STALE
    if status == 1 and lines and lines[-1].startswith(NOT_PROVED):
        return refused_by(lines)
    return MISSED if status == 0 else NO_VERDICT + " | ".join(lines[:FIRST_LINES])


def refused_by(lines: Sequence[str]) -> str:
    """The verdict on a refused edit, with the first line that gives the reason."""
    told = [line for line in lines if PLACE.match(line)]
    told = [line for line in told if ": error" in line or line.startswith("note: ")] or told
    limits = [line for line in told if LIMIT.match(line)]
    goals = [line for line in told if line not in limits and not NAMED.match(line)]
    first = next(iter(goals or limits or told), "")
    weak = "" if goals or not told else BY_LIMIT if limits else BY_NAME
    return f"{REFUSED}{weak}: {first[:MOST_SIGNS]}" if first else REFUSED


def is_unread(line: str, texts: Mapping[str, str]) -> bool:
    """Whether a line reports that a file of code or of definitions, or an edited file, can't be read."""
    match = FAULT.match(line)
    if match is None or match["file"] not in texts and not match["file"].startswith(("src/", "specs/")):
        return False
    return match["goal"] is None or NO_TEXT.search(QUOTED.sub("", match["said"])) is not None
