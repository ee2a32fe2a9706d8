"""The lines of scripts: their verbs, and the roles of their words."""

from __future__ import annotations

import re
from enum import Enum

from distac_view.common.names import name_of

MOST_NUMBER = 2**62


class Role(Enum):
    """The role of a word in a line."""

    ACTOR = "NODE"
    ABOUT = "ABOUT"
    APP = "APP"
    MOMENT = "NOW"
    NUMBER = "K"
    TRUTH = "true or false"
    HEX = "HEX"


NAMES = (Role.ACTOR, Role.ABOUT, Role.APP)
NUMBERS = (Role.MOMENT, Role.NUMBER)

VERBS: dict[str, tuple[Role, ...]] = {
    "boot": (Role.ACTOR, Role.MOMENT),
    "crash": (Role.ACTOR,),
    "down": (Role.ACTOR, Role.ABOUT),
    "permit": (Role.ACTOR, Role.APP, Role.ABOUT, Role.TRUTH),
    "start": (Role.ACTOR, Role.APP, Role.ABOUT),
    "stop": (Role.ACTOR, Role.APP, Role.ABOUT),
    "drain": (Role.ACTOR, Role.ABOUT, Role.TRUTH),
    "takeover": (Role.ACTOR, Role.APP),
    "tick": (Role.ACTOR, Role.MOMENT),
    "ship": (Role.ACTOR, Role.ABOUT),
    "hear": (Role.ACTOR, Role.NUMBER),
    "hand": (Role.ACTOR, Role.NUMBER),
    "share": (),
    "page": (Role.ACTOR,),
    "state": (Role.ACTOR,),
    "same": (Role.ACTOR, Role.ACTOR),
    "bytes": (Role.NUMBER,),
    "feed": (Role.HEX,),
}
TELL = "tell"

BARE_NAME = re.compile(r"[a-z][A-Za-z0-9_@]*\Z")
QUOTED_NAME = re.compile(r"'[^'\\\x00-\x1f\x7f]*'\Z")
NUMBER = re.compile(r"(?:0|[1-9][0-9]{0,18})\Z")
HEX = re.compile(r"(?:[0-9a-f]{2})+\Z")


def usage(verb: str) -> str:
    if verb == TELL:
        return "tell NODE NODE .."
    return " ".join((verb, *(role.value for role in VERBS[verb])))


def words_of(line: str) -> list[str]:
    """The words of a line, separated only by spaces."""
    return [word for word in line.split(" ") if word]


def is_name(word: str) -> bool:
    """Whether a word is a name, quoted or not."""
    return bool((BARE_NAME.match(word) and word != "fun") or QUOTED_NAME.match(word))


def fits(role: Role, word: str) -> bool:
    if role in NAMES:
        return is_name(word)
    if role in NUMBERS:
        return bool(NUMBER.match(word)) and int(word) <= MOST_NUMBER
    return word in ("true", "false") if role is Role.TRUTH else bool(HEX.match(word))


def roles_in(words: list[str]) -> list[tuple[Role, str]]:
    """The further words of a line with their roles, as far as there are both."""
    return list(zip(VERBS.get(words[0], ()), words[1:])) if words else []


def word_of(words: list[str], role: Role) -> str | None:
    """The first word of a role, with its name spelled as `distac` spells it."""
    return next((name_of(word) if role in NAMES else word for its, word in roles_in(words) if its is role), None)
