"""Sentences on the refusals in scripts: the reason, and the remedy."""

from __future__ import annotations

import re

from distac_view.common.texts import shown
from distac_view.reading.script_file import Line
from distac_view.reading.verbs import Role, word_of

REFUSED = re.compile(r"refused (?P<number>\d+) (?P<name>\w+)\Z")
MISSING = re.compile(r"no (?P<what>message|operation) (?P<number>\d+)\Z")

SENTENCES = {
    "Off": "{node} is off: boot it before this line",
    "AlreadyOn": "{node} is up already: crash it first to boot it again",
    "DeclaredDown": "{node} was said to be down, and has heard of it: it has to crash and boot again",
    "UnknownApp": "the configuration has no application {app}",
    "UnknownNode": "the configuration has no node {about}",
    "OnSelf": "{node} is asked this about itself: name another node",
    "NotInList": "{about} isn't in the list of {app} in distributed",
    "MomentBack": "the moment {now} is before the boot of {node} or its last tick: moments of a node never go back",
    "NotLive": "{node} hasn't heard that {about} is up: share, or deliver a message, first",
    "NotStarted": "{node} has heard of no start of {app} at {about} that a stop could end",
    "NotEligible": "{node} may not have {app}: by what it has heard, it isn't permitted or isn't started there, or is drained",
    "NotRunning": "{app} runs nowhere by what {node} has heard: a tick starts it",
    "AlreadyHolder": "{app} runs at {node} already: there is nothing to do",
    "LowerPriority": "{app} runs at a node of an earlier group of its list, and isn't taken from there",
    "NotForMe": "the message is for another node than {node}, or for an earlier life of it",
    "UpToDate": "{about} has acknowledged all that {node} knows, and is owed no answer: there is nothing to tell",
    "TooManyDots": "more than 1,024 earlier lines would be replaced by this one",
    "TermsUsedUp": "{app} was claimed so often that no further claim has a number",
    "DotsUsedUp": "{node} has issued so many operations that no further one has a number: it has to crash and boot again",
    "IncarnationsUsedUp": "{node} has booted so often that no further life has a number",
    "NoMemory": "memory ran out: give the machine more",
}


def explained(line: Line, answer: str) -> str | None:
    """A sentence on a line's refusal."""
    missing = MISSING.match(answer)
    if missing:
        kind = "shipped" if missing["what"] == "message" else "issued"
        fewer = f"fewer {missing['what']}s than {missing['number']} were {kind} up to here"
        return f"{fewer}: they count from 1, and refused lines add none"
    refused = REFUSED.match(answer)
    if not refused or refused["name"] not in SENTENCES:
        return None
    return SENTENCES[refused["name"]].format(**names_in(line))


def names_in(line: Line) -> dict[str, str]:
    """The names used in sentences, as written in the line."""
    roles = {"node": Role.ACTOR, "about": Role.ABOUT, "app": Role.APP, "now": Role.MOMENT}
    found = {name: word_of(line.words, role) for name, role in roles.items()}
    return {name: shown(word or OTHERWISE[name]) for name, word in found.items()}


OTHERWISE = {"node": "the node", "about": "that node", "app": "the application", "now": "given"}
