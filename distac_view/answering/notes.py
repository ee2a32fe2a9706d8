"""Notes below an answer, and reasons for its failure."""

from dataclasses import dataclass


@dataclass(frozen=True)
class Note:
    """A sentence below an answer, with a name that later versions keep, listed in docs/json-fields.txt."""

    id: str
    text: str


@dataclass(frozen=True)
class Failure:
    """A failure that `--fail-on` names and an answer has: its word there, and a sentence."""

    what: str
    text: str
