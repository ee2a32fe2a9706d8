"""The effect on each application if nodes go down, and once they are back.

Each answer comes from a script that `distac sim` plays: all nodes come up, everything is started, and all comes to
rest. Then the nodes go down, another one is told, and the remaining nodes tick at each moment at which a wait ends.
"""

from __future__ import annotations

import os
from concurrent.futures import ThreadPoolExecutor
from dataclasses import dataclass, field, replace
from typing import Iterator, Sequence

from distac_view.answering.hangs import names_that_hang
from distac_view.answering.outages import USUAL_SECONDS, longest_outage, tick_time_of
from distac_view.asking.cases import Course, Loss, course_of, first_pages
from distac_view.asking.cluster import Waiter
from distac_view.asking.failing import Failed, Failing, FailingCourse, failing_by, failing_course
from distac_view.asking.inputs import load_config
from distac_view.asking.openings import Side, opened, opened_after
from distac_view.asking.program import Distac
from distac_view.asking.running_now import Placed, opened_now, placed_by
from distac_view.asking.snapshots import Held, Page, marks_in
from distac_view.common.names import node_meant, unknown_node
from distac_view.common.problems import Problem
from distac_view.common.texts import shown
from distac_view.reading.configuration import Checked, Configuration, name_order

MOST_AT_ONCE = 8


@dataclass(frozen=True)
class Question:
    """The question: the configuration, the nodes that go down together and come back, nodes where nothing is started,
    and the beginning.

    It begins after a script, with applications at their present places, or with a cluster that just came up. A restart
    takes a number of milliseconds, or longer than all waits.
    """

    config: str
    down: list[str] = field(default_factory=list)
    not_started: list[str] = field(default_factory=list)
    after: str | None = None
    back: list[str] = field(default_factory=list)
    now: list[str] = field(default_factory=list)
    placed: Placed | None = None
    takes: int | None = None
    split: list[str] = field(default_factory=list)
    fails: list[str] = field(default_factory=list)
    temporary: list[str] = field(default_factory=list)
    failing: list[Failing] | None = None


@dataclass(frozen=True)
class Fate:
    """The course of an application: its places, how and when it gets there, and its list's marks.

    It waits if its nodes are back before its time is over. Its start can have failed, or its node has ended since some
    milliseconds because another start failed.
    """

    app: str
    now: str | None
    then: str | None
    how: str
    milliseconds: int | None
    back: str | None
    marks: str
    was_stopped: bool
    waits: bool = False
    failed: Failed | None = None
    since: int | None = None

    @property
    def stays(self) -> bool:
        return self.how in ("stays", "nobody") and self.now == self.then == self.back

    @property
    def wait(self) -> int | None:
        """Its failover wait in milliseconds, if it fails over."""
        return self.milliseconds if self.how == "failover" and self.then is not None else None

    def longest_outage(self, tick_time: int, takes: int | None) -> int | None:
        """Its longest outage in milliseconds, if it fails over, or waits for its node to be back after some time."""
        if self.waits:
            return takes
        if self.wait is not None and self.since is not None:
            return self.wait - self.since
        return None if self.wait is None else longest_outage(self.wait, tick_time, takes)

    @property
    def is_alone(self) -> bool:
        """Whether the last node that can run it then has it."""
        return self.then is not None and all(node == self.then for node, mark in marks_in(self.marks) if mark == "ok")


@dataclass(frozen=True)
class Case:
    """Nodes that go down together, the course of each application, the nodes that come back, and those that wait at a
    start gate then.

    Also the applications that OTP may fail to restart, and the starts that failed.
    """

    down: list[str]
    fates: list[Fate]
    back: list[str] = field(default_factory=list)
    waiters: list[Waiter] = field(default_factory=list)
    may_hang: list[str] = field(default_factory=list)
    failed: list[Failed] = field(default_factory=list)

    @property
    def ended(self) -> list[str]:
        """The nodes that a failed start ended."""
        return list(dict.fromkeys(each.failing.node for each in self.failed if each.failing.ends))


@dataclass(frozen=True)
class Answers:
    """The answers for nodes that hear each other: their start, and a case for each loss."""

    side: Side
    cases: list[Case]


@dataclass(frozen=True)
class Reply:
    """The whole answer: for each side of a split, or for the only side."""

    configuration: Configuration
    question: Question
    sides: list[Answers]
    tick_time: int = USUAL_SECONDS
    failing: list[Failing] = field(default_factory=list)

    @property
    def cases(self) -> list[Case]:
        return [case for answers in self.sides for case in answers.cases]


def reply_to(distac: Distac, question: Question) -> Reply:
    return reply_on(distac, load_config(distac, question.config), question)


def reply_on(distac: Distac, checked: Checked, question: Question) -> Reply:
    """The answer to a question on a configuration that was read."""
    down, not_started, back = (known_nodes(words, checked.configuration) for words in (question.down, question.not_started, question.back))
    sides = sides_of(distac, checked, question, not_started)
    off = [node for node in back if question.now and node not in sides[0].nodes]
    down = sorted({*down, *off}, key=name_order)
    if any(node not in down for node in back):
        raise Problem("a node of --back has to be one of --down, or off by --now")
    if question.fails and question.takes is not None:
        raise Problem("--fails can't stand beside --takes: each loss lasts longer than all waits")
    failing = failing_by(question.fails, question.temporary, checked.configuration) if question.failing is None else question.failing
    found = []
    for side in sides:
        groups = [[node for node in down if node in side.members]] if down else [[node] for node in side.members]
        returns = [(group, [node for node in group if node in back or not back]) for group in groups if group]
        losses = [Loss(group, returning, not_started, question.takes) for group, returning in returns]
        found.append(Answers(side, [case_of(side, course) for course in courses_of(distac, side, losses, failing)]))
    return Reply(checked.configuration, question, found, tick_time_of(checked.text), failing)


def sides_of(distac: Distac, checked: Checked, question: Question, not_started: list[str]) -> list[Side]:
    if question.now:
        if question.after or not_started:
            raise Problem("--now can't stand beside --after or --not-started: it says itself what runs where")
        return [opened_now(distac, checked, question.placed or placed_by(question.now, checked.configuration))]
    if question.after:
        return opened_after(distac, checked, question.after)
    return [opened(distac, checked, not_started)]


def known_nodes(words: list[str], configuration: Configuration) -> list[str]:
    """Nodes of the command line, as the configuration spells them."""
    return sorted({known_node(word, configuration) for word in words}, key=name_order)


def known_node(word: str, configuration: Configuration) -> str:
    """A named node, as the configuration spells it."""
    name = node_meant(word, configuration.nodes)
    if name is None:
        raise Problem(f"the configuration has {shown(unknown_node(word, configuration.nodes))}")
    return name


def courses_of(distac: Distac, side: Side, losses: list[Loss], failing: Sequence[Failing] = ()) -> Iterator[Course]:
    """The courses of some cases, in which some starts fail, each reported to the progress."""
    pages = [] if failing else first_pages(distac, side.cluster, losses)
    distac.cases += len(losses)

    def played(number: int) -> Course:
        if failing:
            return failing_course(distac, side.cluster, losses[number], list(failing))
        return course_of(distac, side.cluster, losses[number], pages[number])

    with ThreadPoolExecutor(min(MOST_AT_ONCE, os.cpu_count() or 1)) as pool:
        for course in pool.map(played, range(len(losses))):
            distac.cases_done += 1
            yield course


def case_of(side: Side, course: Course) -> Case:
    now, at_once, then, back = (held_on(page, side.cluster.configuration) for page in (side.page, course.at_once, course.then, course.back))
    claims = {each.app: each.milliseconds for each in course.claims}
    fates = [fate_of(now[name], at_once[name], then[name], back[name], claims.get(name), name in course.waiting) for name in now]
    failed = course.failed if isinstance(course, FailingCourse) else []
    old = side.cluster
    waiters = [*course.cluster.ended[len(old.ended) :], *course.cluster.waiting]
    hanging = names_that_hang([course], side.nodes, old.configuration)
    return Case(course.loss.down, [with_failure(fate, failed) for fate in fates], course.loss.back, waiters, hanging, failed)


def with_failure(fate: Fate, failed: list[Failed]) -> Fate:
    """The course of an application with its first start that failed, or with the end of its node by another."""
    own = next((each for each in failed if each.failing.app == fate.app), None)
    if own is not None:
        return replace(fate, failed=own, milliseconds=fate.milliseconds if own.is_back else own.milliseconds)
    end = next((each for each in failed if each.failing.ends and each.failing.node == fate.now and not each.is_back), None)
    if end is None or fate.how != "stays":
        return fate
    return replace(fate, how="nobody" if fate.then is None else "failover", since=end.milliseconds)


def held_on(page: Page, configuration: Configuration) -> dict[str, Held]:
    """The applications on a page. Without a node that knows anything, nobody holds any."""
    return {name: page.held.get(name) or Held(name, None, 0, 0, "", "nobody", None, "") for name in configuration.names}


def nowhere_at_first(side: Side) -> list[Held]:
    """The applications that run nowhere before any node goes down."""
    return [held for held in held_on(side.page, side.cluster.configuration).values() if held.runs_at is None]


def fate_of(now: Held, at_once: Held, then: Held, back: Held, claimed: int | None, waits: bool) -> Fate:
    """The course of an application, from the pages before, directly after, later and at the end."""
    how = at_once.verdict
    if how in ("kept", "halted") or (how == "nobody" and at_once.runs_at):
        how = "stays"
    was_stopped = now.verdict == "halted"
    return Fate(now.app, now.runs_at, then.runs_at, how, claimed, back.runs_at, then.marks, was_stopped, waits)
