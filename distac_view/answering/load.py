"""The load of each node under each loss of a node, or of two, and the lost applications.

A pair of nodes is played only if its two losses can affect each other. Otherwise each has the effect that it has alone:
no application that moves in one case can come to a node whose applications the other case changes.
"""

from __future__ import annotations

from dataclasses import dataclass, field
from itertools import combinations

from distac_view.answering.hangs import names_that_hang
from distac_view.answering.what_if import Question, courses_of, held_on, nowhere_at_first, sides_of
from distac_view.asking.cases import Course, Loss
from distac_view.asking.inputs import load_config
from distac_view.asking.openings import Side
from distac_view.asking.program import Distac
from distac_view.asking.snapshots import Held
from distac_view.reading.configuration import Configuration


@dataclass(frozen=True)
class Row:
    """Some nodes that are down: the load of each other node, the lost applications, and those with one node left.

    An application is lost if it ran before and runs nowhere. It has one node left if no other could run it. Also the
    applications that OTP may fail to restart.
    """

    down: list[str]
    places: dict[str, str]
    counts: dict[str, int]
    lost: list[str]
    last: list[str]
    may_hang: list[str]

    @property
    def most(self) -> int:
        """The greatest load of a node."""
        return max(self.counts.values(), default=0)

    @property
    def most_at(self) -> str | None:
        """The first node with the greatest load."""
        return next((node for node, count in self.counts.items() if count == self.most), None)


@dataclass(frozen=True)
class Load:
    """The whole answer: with no node down, with each one down, and with each pair down if requested."""

    configuration: Configuration
    side: Side
    start: Row
    singles: list[Row]
    pairs: list[Row] = field(default_factory=list)

    @property
    def nowhere(self) -> list[str]:
        """The applications that run nowhere before any loss."""
        return [held.app for held in nowhere_at_first(self.side)]

    @property
    def rows(self) -> list[Row]:
        """All rows with nodes that are down."""
        return [*self.singles, *self.pairs]


def load_of(distac: Distac, question: Question, has_pairs: bool) -> Load:
    """The answer for a configuration, by default with all nodes up and everything started."""
    side = sides_of(distac, load_config(distac, question.config), question, [])[0]
    return load_on(distac, side, has_pairs)


def load_on(distac: Distac, side: Side, has_pairs: bool) -> Load:
    """The answer for a cluster at its start."""
    start = row_by([], side, held_on(side.page, side.cluster.configuration), [])
    nodes = side.nodes
    singles = {course.loss.down[0]: course for course in courses_of(distac, side, [Loss([node], [], []) for node in nodes])}
    rows = [row_of(side, singles[node]) for node in nodes]
    pairs = pair_rows(distac, side, singles) if has_pairs else []
    return Load(side.cluster.configuration, side, start, rows, pairs)


def row_of(side: Side, course: Course) -> Row:
    """The row of a loss after which everything is done."""
    held = held_on(course.then, side.cluster.configuration)
    return row_by(course.loss.down, side, held, hanging(side, course))


def hanging(side: Side, *courses: Course) -> list[str]:
    """The applications that OTP may fail to restart in one loss, or in independent ones together."""
    return names_that_hang(courses, side.nodes, side.cluster.configuration)


def row_by(down: list[str], side: Side, held: dict[str, Held], may_hang: list[str]) -> Row:
    places = {name: each.runs_at for name, each in held.items() if each.runs_at is not None}
    counts = {node: list(places.values()).count(node) for node in side.nodes if node not in down}
    ran = [name for name, each in side.page.held.items() if each.runs_at is not None]
    lost = [name for name in ran if name not in places]
    last = [name for name in places if held[name].is_alone]
    return Row(down, places, counts, lost, last, may_hang)


def pair_rows(distac: Distac, side: Side, singles: dict[str, Course]) -> list[Row]:
    """The rows of all pairs of nodes, played or combined."""
    pairs = list(combinations(side.nodes, 2))
    touching = [pair for pair in pairs if can_touch(side, *(singles[node] for node in pair))]
    losses = [Loss(list(pair), [], []) for pair in touching]
    played = {tuple(course.loss.down): row_of(side, course) for course in courses_of(distac, side, losses)}
    return [played.get(pair) or put_together(side, *(singles[node] for node in pair)) for pair in pairs]


def can_touch(side: Side, one: Course, other: Course) -> bool:
    """Whether two losses can affect each other: the nodes that they may touch have any in common."""
    return bool(reach_of(side, one) & reach_of(side, other))


def reach_of(side: Side, course: Course) -> set[str]:
    """The node of a loss, and all nodes of the lists of applications that are about to move."""
    pending = [held.app for held in course.at_once.held.values() if held.is_pending]
    lists = [each.nodes for each in side.cluster.configuration.applications if each.name in pending]
    return {*course.loss.down, *(node for nodes in lists for node in nodes), *barred_by(side, course)}


def barred_by(side: Side, course: Course) -> set[str]:
    """The nodes of the lists of applications that no node can run once a loss is known."""
    lost = [held.app for held in course.at_once.held.values() if held.verdict == "nobody"]
    return {node for each in side.cluster.configuration.applications if each.name in lost for node in each.nodes}


def put_together(side: Side, one: Course, other: Course) -> Row:
    """The row of two independent losses: each application has the effect of its own loss, if any."""
    start, held = held_on(side.page, side.cluster.configuration), {}
    down = [*one.loss.down, *other.loss.down]
    for name in start:
        first, second = (held_on(course.then, side.cluster.configuration)[name] for course in (one, other))
        moved = first if first.runs_at != start[name].runs_at else second
        held[name] = without_marks(moved, first, second)
    return row_by(down, side, held, hanging(side, one, other))


def without_marks(moved: Held, first: Held, second: Held) -> Held:
    """An application with only those nodes as able that are able in both cases."""
    able = [node for node in first.nodes_marked("ok") if node in second.nodes_marked("ok")]
    marks = " ".join(f"{node}=ok" for node in able)
    return Held(moved.app, moved.holder, moved.inc, moved.term, moved.how, moved.verdict, moved.at, marks, moved.is_alive)
