"""The nodes and claims in the output of `distac`, as values."""

from __future__ import annotations

import re
from dataclasses import dataclass, field

from distac_view.common.names import bare_name

NAME = r"(?:'[^']*'|[a-z][A-Za-z0-9_@]*|\d+)"
HOW = rf"normal|failover from {NAME}|takeover from {NAME}"
HEAD = re.compile(rf"node (?P<node>{NAME}) (?P<inc>\d+)\Z")
LIFE = re.compile(rf"node (?P<node>{NAME}) (?P<life>up|down|unknown)(?: (?P<inc>\d+))?(?: drained)?\Z")
HELD = re.compile(
    rf"app (?P<app>{NAME}) holder (?:none|(?P<holder>{NAME}) (?P<inc>\d+) term (?P<term>\d+) (?P<how>{HOW}))"
    rf" verdict (?P<verdict>\w+)(?: (?P<at>{NAME}))?\Z"
)
MARK = re.compile(rf"(?P<node>{NAME})=(?P<mark>\w+)")
PENDING = ("start", "failover", "move", "takeover")
CLAIM = re.compile(rf"claim \d+ (?P<app>{NAME}) term (?P<term>\d+) (?P<how>{HOW})\Z")


@dataclass(frozen=True)
class Held:
    """An application on a page: its holder and term, its verdict, and the marks of its list.

    A holder is alive if the page shows its incarnation as up.
    """

    app: str
    holder: str | None
    inc: int
    term: int
    how: str
    verdict: str
    at: str | None
    marks: str
    is_alive: bool = False

    @property
    def runs_at(self) -> str | None:
        """The node that runs it: its holder if that is up, even if it is about to move; otherwise none."""
        return self.holder if self.is_alive else None

    @property
    def is_pending(self) -> bool:
        return self.verdict in PENDING

    @property
    def is_alone(self) -> bool:
        """Whether the last node that can run it runs it."""
        return self.runs_at is not None and set(self.nodes_marked("ok")) <= {self.runs_at}

    def nodes_marked(self, *marks: str) -> list[str]:
        return [node for node, mark in marks_in(self.marks) if mark in marks]


@dataclass
class Page:
    """A node's knowledge: its own life, that of each node, and each application. A node that is off has no life."""

    inc: int | None = None
    lives: dict[str, tuple[str, int]] = field(default_factory=dict)
    held: dict[str, Held] = field(default_factory=dict)

    def can_act(self, node: str) -> bool:
        """Whether the page's node runs, and hasn't heard that it is down."""
        return self.inc is not None and self.lives.get(node) == ("up", self.inc)

    @property
    def is_at_rest(self) -> bool:
        """Whether no action is pending for any application."""
        return not any(held.is_pending for held in self.held.values())


def page_of(answer: list[str]) -> Page:
    head = HEAD.match(answer[0])
    if not head:
        return Page()
    page = Page(int(head["inc"]))
    for line, following in zip(answer[1:], [*answer[2:], ""]):
        life, held = LIFE.match(line), HELD.match(line)
        if life:
            page.lives[life["node"]] = (life["life"], int(life["inc"] or 0))
        elif held:
            page.held[held["app"]] = held_of(held, following, page.lives)
    return page


def held_of(found: "re.Match[str]", marks: str, lives: dict[str, tuple[str, int]]) -> Held:
    """The application in two lines, with the lives above them."""
    inc, term = int(found["inc"] or 0), int(found["term"] or 0)
    how, list_marks = found["how"] or "", marks[len("list ") :]
    is_alive = found["holder"] is not None and lives.get(found["holder"]) == ("up", inc)
    return Held(found["app"], found["holder"], inc, term, how, found["verdict"], found["at"], list_marks, is_alive)


def marks_in(marks: str) -> list[tuple[str, str]]:
    """The nodes of an application's list with their marks."""
    return [(found["node"], found["mark"]) for found in MARK.finditer(marks)]


def bare_marks(marks: str) -> str:
    """An application's list as shown, with unquoted names."""
    return " ".join(f"{bare_name(node)}={mark}" for node, mark in marks_in(marks))
