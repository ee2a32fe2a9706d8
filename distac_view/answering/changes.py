"""The effects of a new configuration: on present places, on the loss of each node, on settings, and on notes."""

from __future__ import annotations

from dataclasses import dataclass, replace
from functools import cached_property

from distac_view.answering.caveats import notes_on
from distac_view.answering.notes import Note
from distac_view.answering.settings import LIST, TIME, Differing, differing_settings
from distac_view.answering.what_if import Fate, Question, Reply, held_on, reply_on
from distac_view.asking.failing import failing_by
from distac_view.asking.inputs import load_config
from distac_view.asking.program import Distac
from distac_view.asking.running_now import Placed, placed_by
from distac_view.common.names import Short, node_meant, short_names
from distac_view.common.problems import Problem
from distac_view.reading.configuration import Checked, Configuration
from distac_view.reading.sums import Sum, mark_now


@dataclass(frozen=True)
class Answer:
    """An application's place, now or at the end of a loss, and the milliseconds until it gets there.

    Also its longest outage, its place once the nodes are back, whether no other node could run it, and whether the
    nodes are back before its wait ends.
    """

    place: str | None
    milliseconds: int | None = None
    longest_outage: int | None = None
    back: str | None = None
    is_alone: bool = False
    waits: bool = False


@dataclass(frozen=True)
class Change:
    """An answer that another configuration changes: its application and the nodes that are down, if any."""

    app: str
    down: list[str]
    old: Answer
    new: Answer


@dataclass(frozen=True)
class Changes:
    """All changes by another configuration, and the number of answers that both have."""

    old: Reply
    new: Reply
    changes: list[Change]
    compared: int
    settings: list[Differing]

    @property
    def are_any(self) -> bool:
        """Whether the two configurations differ in any answer, note or setting, or the new one in its files."""
        return any((self.changes, self.settings, *self.apps, *self.nodes, *self.notes, self.stale))

    @cached_property
    def stale(self) -> list[Sum]:
        """The files that changed since the new configuration was gathered from them."""
        return [each for each in self.new.configuration.sums if mark_now(each.file) not in (None, each.mark)]

    @property
    def apps(self) -> tuple[list[str], list[str]]:
        """The applications that only the new or only the old configuration has."""
        return differences(self.old.configuration.names, self.new.configuration.names)

    @property
    def nodes(self) -> tuple[list[str], list[str]]:
        """The nodes that only the new or only the old configuration has."""
        return differences(self.old.configuration.nodes, self.new.configuration.nodes)

    @cached_property
    def short(self) -> Short:
        """The names of the nodes of both in tables."""
        old, new = self.old.configuration, self.new.configuration
        return short_names({*old.nodes, *new.nodes}, {*old.names, *new.names})

    @property
    def notes(self) -> tuple[list[Note], list[Note]]:
        """The notes that only the new or only the old answer has."""
        old, new = notes_on(self.old), notes_on(self.new)
        return [note for note in new if note not in old], [note for note in old if note not in new]

    @property
    def other_lists(self) -> list[str]:
        """The applications whose lists differ. If nodes with both files meet, OTP ends one of them."""
        return [each.app for each in self.settings if each.name == LIST and each.app]

    @property
    def other_times(self) -> list[str]:
        """The applications whose times differ. OTP doesn't compare them."""
        return [each.app for each in self.settings if each.name == TIME and each.app]


def differences(old: list[str], new: list[str]) -> tuple[list[str], list[str]]:
    """The parts of only the new and of only the old list."""
    return [name for name in new if name not in old], [name for name in old if name not in new]


def changes_by(distac: Distac, question: Question, path: str) -> Changes:
    if question.after:
        raise Problem("--then can't stand beside --after: a script has one configuration; --now says where applications run")
    old, new = load_config(distac, question.config), load_config(distac, path)
    return changes_between(distac, question, old, new)


def changes_between(distac: Distac, question: Question, old: Checked, new: Checked) -> Changes:
    """The changes by a configuration that was read."""
    first = reply_on(distac, old, question)
    second = reply_on(distac, new, fitting(question, old.configuration, new.configuration))
    answers, others = answers_in(first), answers_in(second)
    both = [key for key in answers if key in others]
    found = [Change(key[0], list(key[1]), answers[key], others[key]) for key in both if answers[key] != others[key]]
    return Changes(first, second, found, len(both), differing_settings(old, new))


def fitting(question: Question, old: Configuration, new: Configuration) -> Question:
    """The question for the new configuration, with only those nodes and places that it has."""
    named = (question.down, question.not_started, question.back)
    down, not_started, back = ([word for word in words if node_meant(word, new.nodes)] for words in named)
    if question.down and not down:
        raise Problem("the new configuration has none of the nodes of --down")
    placed = placed_in_both(placed_by(question.now, old), old, new) if question.now else None
    lists = {each.name: each.nodes for each in new.applications}
    failing = [each for each in failing_by(question.fails, question.temporary, old) if each.node in lists.get(each.app, [])]
    return replace(question, down=down, not_started=not_started, back=back, placed=placed, failing=failing)


def placed_in_both(placed: Placed, old: Configuration, new: Configuration) -> Placed:
    """The present places that the new configuration allows. Other applications are started everywhere."""
    lists = {each.name: each.nodes for each in new.applications}
    places = {app: node for app, node in placed.places.items() if node in lists.get(app, [])}
    fresh = [name for name in new.names if name not in places and (name not in old.names or name in placed.places)]
    return Placed(places, [node for node in new.nodes if node in placed.up or node not in old.nodes], fresh)


def answers_in(reply: Reply) -> dict[tuple[str, tuple[str, ...]], Answer]:
    """All answers of a reply, by application and by the nodes that are down."""
    found: dict[tuple[str, tuple[str, ...]], Answer] = {(name, ()): answer for name, answer in answers_now(reply).items()}
    for case in reply.cases:
        found.update({(fate.app, tuple(case.down)): answer_of(fate, reply) for fate in case.fates})
    return found


def answers_now(reply: Reply) -> dict[str, Answer]:
    """The present place of each application, or its next one if it must move."""
    held = held_on(reply.sides[0].side.page, reply.configuration)
    return {name: Answer(each.at if each.is_pending else each.runs_at, is_alone=each.is_alone) for name, each in held.items()}


def answer_of(fate: Fate, reply: Reply) -> Answer:
    """The effect of a loss on an application."""
    outage = fate.longest_outage(reply.tick_time, reply.question.takes)
    return Answer(fate.then, fate.milliseconds, outage, fate.back, fate.is_alone, fate.waits)
