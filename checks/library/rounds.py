"""Groups mutants into rounds, each of which changes the bodies of different functions, and reads the verdict on each
from the check of a round.

A function's body and its proof are its own: others cite only its contract. So the output about a function's goals is
the same whichever other bodies are changed. If the check refuses a goal of a function that the round leaves alone, this
doesn't hold, and the round decides nothing about its edits.
"""

import re
from typing import Dict, List, Mapping, NamedTuple, Optional, Sequence, Set

from checks.library.bodies import Body, Code, Edit, applied, changed_lines

# Messages at a place of a file and about a function, and the last line.
AT_PLACE = re.compile(r"(?P<note>note: )?(?:\./)?(?P<file>[^\s:]+):(?P<line>\d+):\d+: (?P<said>.*)")
OF_FUNCTION = re.compile(r"fn (?P<name>\S+): (?P<said>.*)")
OPEN = ("not proved", "no proof")
NOT_PROVED = "logic=not-proved"
GOAL = "it is not proved that "
PROOFS = "proofs/"
# Messages that refuse no goal (a proof file names something removed; a limit of the prover), and those that another
# function may cause (a proof file cites something that isn't admitted or is missing).
NO_GOAL = re.compile(r"has no field|has no `|ran out of (stack|the (steps|memory) )|outgrew the memory|stopped at the step limit")
OF_OTHERS = re.compile(r"is not in scope|was not admitted")
REFUSED = "refused, as it must be"
MOST_SIGNS = 160
# The prefixes of a name in the folder of a function's proof: none, or a plus if the function calls itself.
BEFORE_NAMES = ("", "+")


class Round(NamedTuple):
    """Edits of different functions, and the file texts with all of them."""

    edits: Dict[Body, Edit]
    texts: Dict[str, str]

    def names(self) -> List[str]:
        return [edit.name for edit in self.edits.values()]


def rounds_of(code: Code, edits: Sequence[Edit]) -> List[Round]:
    """The edits, each of one function's body, in as few rounds as possible, in order."""
    rounds: List[Round] = []
    for edit in edits:
        body = code.body_of(edit)
        if body is not None and not any(is_added(one, code, body, edit) for one in rounds):
            rounds.append(round_of(code, {body: edit}))
    return rounds


def round_of(code: Code, edits: Mapping[Body, Edit]) -> Round:
    """A round of edits that apply together."""
    made = Round({}, {})
    for body, edit in edits.items():
        is_added(made, code, body, edit)
    return made


def is_added(one: Round, code: Code, body: Body, edit: Edit) -> bool:
    """Adds an edit to a round without one of its function, if it still applies and changes only this function."""
    before = one.texts.get(body.file, code.texts[body.file])
    after = applied(edit, before)
    if body in one.edits or after is None or after.count("\n") != before.count("\n"):
        return False
    if not all(body.first <= line < body.last for line, _ in changed_lines(before, after)):
        return False
    one.edits[body] = edit
    one.texts[body.file] = after
    return True


def rests_of(code: Code, one: Round, lines: Sequence[str]) -> List[Round]:
    """The checks that replace an undecided round: the round without the edits whose functions have errors, or its
    halves if none has. None if a single edit is left."""
    errors = [match for match in filter(None, map(AT_PLACE.match, lines)) if not match["note"] and is_refusal(match)]
    faulty = [body for body in one.edits if any(is_within(match, body) for match in errors)]
    edits = list(one.edits.items())
    if faulty:
        rest = {body: edit for body, edit in edits if body not in faulty}
        return [round_of(code, rest)] if rest else []
    middle = len(edits) // 2
    return [round_of(code, dict(some)) for some in (edits[:middle], edits[middle:])] if middle else []


def is_readable(status: int, lines: Sequence[str]) -> bool:
    """Whether a check read the code and finished: the crate is proved or not."""
    return status in (0, 1) and bool(lines) and lines[-1].startswith("logic=")


def refused_in(one: Round, crate: str, lines: Sequence[str]) -> Optional[Dict[str, str]]:
    """The refused edits of a round, each with the first message about a goal of its function. None if the check refused
    something else. Functions whose proofs cite something missing are left out."""
    names = {body: name_of(body, crate, lines) for body in one.edits}
    goals: Dict[Body, str] = {}
    doubted: Set[Optional[Body]] = set()
    for match in filter(None, map(AT_PLACE.match, lines)):
        body = next((body for body, name in names.items() if is_of(match, body, name)), None)
        if is_in_proof(match, OF_OTHERS):
            doubted.add(body)
        elif is_refusal(match) and not is_in_proof(match, NO_GOAL):
            if body is None:
                return None
            goals.setdefault(body, match[0])
    told = {body: line for body, line in goals.items() if names[body] and body not in doubted}
    return {one.edits[body].name: verdict_of(line, len(one.edits) - 1) for body, line in told.items()}


def is_refusal(match: "re.Match[str]") -> bool:
    return match["said"].startswith(GOAL if match["note"] else "error")


def is_in_proof(match: "re.Match[str]", words: "re.Pattern[str]") -> bool:
    """Whether a line is an error in a proof file, with these words."""
    is_error = is_refusal(match) and not match["note"]
    return is_error and match["file"].startswith(PROOFS) and words.search(match["said"]) is not None


def name_of(body: Body, crate: str, lines: Sequence[str]) -> str:
    """The name of a function that a line reports as not proved, or nothing if it reports none or several."""
    said = {match["name"]: match["said"] for match in map(OF_FUNCTION.match, lines) if match is not None}
    modules = "::".join((crate, *body.modules))
    # (a method has the modules of its type, which can differ from those of its file)
    for above in (modules, rf"{crate}(::\w+)*") if body.of else (modules,):
        for of in patterns_of(body):
            found = [name for name in said if re.fullmatch(f"{above}::{of}{body.name}", name)]
            if found:
                return found[0] if len(found) == 1 and said[found[0]].startswith(OPEN) else ""
    return ""


def patterns_of(body: Body) -> List[str]:
    """Spellings of the part between a function's modules and its name, likeliest first. In an impl of a trait it
    contains the type's parameters, the trait's name, and the trait's parameters."""
    if not body.trait:
        return [f"{body.of}::" if body.of else ""]
    return [f"{body.of}{body.trait}::", rf"{body.of}{body.trait}\w+::", rf"{body.of}\w+{body.trait}\w*::"]


def is_of(match: "re.Match[str]", body: Body, name: str) -> bool:
    """Whether the refused goal is the function's: it is in the function's lines, or in its proof files."""
    if match["note"]:
        return is_within(match, body)
    *above, last = (PROOFS.rstrip("/"), *name.split("::")[1:])
    return bool(name) and match["file"].startswith(tuple("/".join((*above, before + last, "")) for before in BEFORE_NAMES))


def is_within(match: "re.Match[str]", body: Body) -> bool:
    """Whether a place is in a function's lines."""
    return body.file == match["file"] and body.holds(int(match["line"]))


def verdict_of(line: str, others: int) -> str:
    """The verdict on an edit refused with others, from the line of its goal."""
    return f"{REFUSED}, tried with {others} other{'' if others == 1 else 's'}: {line[:MOST_SIGNS]}"
