"""Starts that fail after a loss or a return, as with OTP 25, which tries no other node.

`distac` knows no such starts. So a round in which one is claimed is undone, and played again with the application
stopped at all nodes. If it is permanent its node goes down, and what else ran there waits from then.
"""

from __future__ import annotations

from dataclasses import dataclass, field, replace

from distac_view.asking.cases import Claimed, Course, Loss, boot_again, claims_in
from distac_view.asking.cluster import Cluster, longest_wait, share_all, take_round
from distac_view.asking.drafts import waits_of
from distac_view.asking.program import Distac
from distac_view.asking.running_now import application_of, named, parted
from distac_view.asking.snapshots import Held, Page
from distac_view.common.names import bare_name
from distac_view.common.problems import Problem
from distac_view.common.texts import shown
from distac_view.reading.configuration import Configuration
from distac_view.reading.equal_times import waited_for


@dataclass(frozen=True)
class Failing:
    """A start that fails: the application, the node, and whether it ends that node, as for a permanent application."""

    app: str
    node: str
    ends: bool


@dataclass(frozen=True)
class Failed:
    """A start that failed in a case: how the node got there, after how many milliseconds, and whether after a return.

    A start that waits for another node without end fails too: that node failed before.
    """

    failing: Failing
    how: str
    milliseconds: int
    is_back: bool
    waits_for: str | None = None


@dataclass(frozen=True)
class FailingCourse(Course):
    """The course of a case with the starts that failed."""

    failed: list[Failed] = field(default_factory=list)


def failing_by(words: list[str], temporary: list[str], configuration: Configuration) -> list[Failing]:
    """The starts named by `--fails`, and the applications by `--temporary`."""
    soft = {named("application", word, configuration.names, "--temporary") for word in temporary}
    found = []
    for word in words:
        app_word, equals, node_word = parted(word)
        if not equals:
            raise Problem(f"--fails takes APP=NODE: {shown(word)} isn't of that form")
        app = named("application", app_word, configuration.names, "--fails")
        node = named("node", node_word, configuration.nodes, "--fails")
        if node not in application_of(app, configuration).nodes:
            raise Problem(f"--fails: {shown(bare_name(node))} isn't in the list of {shown(bare_name(app))}: it never starts there")
        found.append(Failing(app, node, app not in soft))
    if soft and not found:
        raise Problem("--temporary wants --fails APP=NODE: it says what a failed start does")
    return found


def failing_course(distac: Distac, settled: Cluster, loss: Loss, failing: list[Failing]) -> FailingCourse:
    """The course of a case in which starts fail, played step by step."""
    start, begin = len(settled.story.lines), settled.story.now
    play = Play(distac, settled.copy(), failing, begin)
    play.cluster.tell_all()
    play.cluster.crash(loss.down)
    share_all(distac, play.cluster)
    play.at_once = play.cluster.page(distac)
    play.pass_moments({0, *waits_of(play.cluster, play.at_once)})
    then, then_at = play.page(), len(play.cluster.story.lines)
    if loss.back:
        play.is_back = True
        boot_again(play.cluster, loss, begin)
        play.begin = play.cluster.story.now
        play.rest_at_last()
    claims = claims_in(play.cluster, start, then_at)
    later = claims_in(play.cluster, then_at)
    return FailingCourse(loss, play.at_once, then, play.page(), claims, later, play.cluster, play.failed)


class Play:
    """A case that is played: its cluster, the moment of the loss or the return, and the starts that failed."""

    def __init__(self, distac: Distac, cluster: Cluster, failing: list[Failing], begin: int) -> None:
        self.distac = distac
        self.cluster = cluster
        self.failing = {(each.app, each.node): each for each in failing}
        self.begin = begin
        self.at_once = Page()
        self.is_back = False
        self.failed: list[Failed] = []
        self.ended: list[str] = []
        self.nowhere: dict[str, Failing] = {}

    def pass_moments(self, waits: set[int]) -> None:
        """The nodes tick at the end of each wait, also of those that begin as a node ends."""
        while waits:
            wait = min(waits)
            waits.remove(wait)
            self.cluster.story.now, before = self.begin + wait, len(self.ended)
            self.rest()
            if len(self.ended) > before:
                waits |= {wait + more for more in waits_of(self.cluster, self.cluster.page(self.distac))}

    def rest_at_last(self) -> None:
        """All waits end: at start gates, of failovers after them, and those that begin as a node ends."""
        self.rest()
        for _ in range(len(self.cluster.configuration.applications) + 2):
            self.cluster.story.now += longest_wait(self.cluster.configuration)
            self.rest()
            if self.cluster.page(self.distac).is_at_rest:
                break

    def rest(self) -> None:
        """Rounds until nothing happens in one."""
        for _ in range(len(self.cluster.configuration.applications) + 2):
            if not self.take_round():
                break

    def take_round(self) -> bool:
        """A round in which starts fail. Returns whether anything happened."""
        ending: list[str] = []
        while True:
            before = self.cluster.copy()
            has_happened = take_round(self.distac, self.cluster)
            claims = claims_in(self.cluster, len(before.story.lines))
            failed = [each for each in map(self.failed_by, claims) if each is not None]
            if not failed:
                break
            self.cluster = before
            for each in failed:
                self.fail(each)
                ending += [each.failing.node] if each.failing.ends else []
        for claim in claims:
            self.nowhere.pop(claim.app, None)
        self.end([node for node in dict.fromkeys(ending) if node in self.cluster.nodes])
        return has_happened or bool(ending)

    def end(self, nodes: list[str]) -> None:
        """Nodes go down, because a start failed there."""
        if nodes:
            self.cluster.tell_all()
            self.cluster.crash(nodes)
            share_all(self.distac, self.cluster)
            self.ended += nodes

    def failed_by(self, claim: Claimed) -> Failed | None:
        """The start that fails by a claim, if it does. A node waits for one that failed and is up, if that one is first in
        the list, or if a tuple is."""
        milliseconds = self.cluster.story.now - self.begin
        failing = self.failing.get((claim.app, claim.node))
        if failing is not None:
            return Failed(failing, claim.how, milliseconds, self.is_back)
        earlier, up = self.nowhere.get(claim.app), {node for node in self.cluster.nodes if (node, claim.app) not in self.cluster.forbidden}
        if earlier is None or earlier.node not in waited_for(application_of(claim.app, self.cluster.configuration), claim.node, up):
            return None
        return Failed(Failing(claim.app, claim.node, False), claim.how, milliseconds, self.is_back, earlier.node)

    def fail(self, failed: Failed) -> None:
        """An application is stopped at all nodes of its list that are up: it runs nowhere."""
        app = failed.failing.app
        up = [node for node in application_of(app, self.cluster.configuration).nodes if node in self.cluster.nodes]
        self.cluster.story.command(*(f"stop {self.cluster.hub} {app} {node}" for node in up))
        self.cluster.is_untold = True
        self.failed.append(failed)
        self.nowhere.setdefault(app, failed.failing)

    def page(self) -> Page:
        """The hub's page, without the applications whose starts failed."""
        page = self.cluster.page(self.distac)
        held = {name: self.without(each) if name in self.nowhere else each for name, each in page.held.items()}
        return replace(page, held=held)

    def without(self, held: Held) -> Held:
        """An application whose start failed: nobody has it, although nodes could run it."""
        marks = self.at_once.held[held.app].marks if held.app in self.at_once.held else held.marks
        return replace(held, holder=None, is_alive=False, verdict="nobody", at=None, marks=marks)
