"""Nodes go down together and come back: the others' actions, as a script that is played once for each case.

The lines of a case are written before their answers are known. The nodes that may claim anything are found on a page
after the loss was reported, and all such pages come from one play. If a node waits at its start gate, or if a case
isn't at rest after its lines, the case is played again step by step.
"""

from __future__ import annotations

from dataclasses import dataclass

from distac_view.asking.cluster import GAVE_UP, HELD_BACK, Cluster, come_to_rest, longest_wait, share_all, take_round, take_rounds
from distac_view.asking.drafts import Draft, named_on, takers_of, waits_of
from distac_view.asking.program import Distac
from distac_view.asking.script_builder import Miscounted
from distac_view.asking.sim_output import Answered
from distac_view.asking.snapshots import CLAIM, Held, Page, page_of
from distac_view.reading.configuration import Application
from distac_view.reading.equal_times import first_group

LAST_ROUNDS = 2


@dataclass(frozen=True)
class Loss:
    """Nodes that go down together, those that come back, where nothing is started then, and after how many
    milliseconds.

    Without such a number they come back once all waits are over.
    """

    down: list[str]
    back: list[str]
    not_started: list[str]
    takes: int | None = None

    def outlasts(self, wait: int) -> bool:
        """Whether an application's wait ends before they are back."""
        return self.takes is None or wait < self.takes

    def leaves(self, held: Held, timeouts: dict[str, int]) -> bool:
        """Whether nothing happens to an application before they are back, because it waits longer."""
        return not held.is_pending or (held.verdict == "failover" and not self.outlasts(timeouts[held.app]))


@dataclass(frozen=True)
class Claimed:
    """A claim: its application, node and kind, and the milliseconds since the loss or the return."""

    app: str
    node: str
    how: str
    milliseconds: int


@dataclass(frozen=True)
class Course:
    """The course of a case: the pages at once, later, and once nodes are back, the claims until then, and those after
    it.

    The cluster is the final one.
    """

    loss: Loss
    at_once: Page
    then: Page
    back: Page
    claims: list[Claimed]
    claims_back: list[Claimed]
    cluster: Cluster

    @property
    def waiting(self) -> list[str]:
        """The applications that still wait when nodes are back, if that is after some milliseconds."""
        return [] if self.loss.takes is None else [held.app for held in self.then.held.values() if held.verdict == "failover"]


def first_pages(distac: Distac, cluster: Cluster, losses: list[Loss]) -> list[Page]:
    """The page directly after each case's loss, if a node is left.

    A node that is told of a loss, and tells nobody, knows what all would know, so one play covers as many cases as
    there are nodes.
    """
    found: dict[int, Page] = {}
    open_ones = {number: loss for number, loss in enumerate(losses) if set(cluster.nodes) - set(loss.down)}
    while open_ones:
        told, tellers = cluster.copy(), tellers_of(cluster, open_ones)
        if told.is_untold:
            told.tell(tellers.values())
        story = told.story
        for number, node in tellers.items():
            story.command(*(f"down {node} {other}" for other in losses[number].down))
        each = story.play(distac, *(f"page {node}" for node in tellers.values()))
        found.update({number: page_of(one.answer) for number, one in zip(tellers, each)})
        open_ones = {number: loss for number, loss in open_ones.items() if number not in found}
    return [found.get(number, Page()) for number in range(len(losses))]


def tellers_of(cluster: Cluster, losses: dict[int, Loss]) -> dict[int, str]:
    """A node for each case, as far as there are enough: none that is down in it, and each for only one case."""
    free, found = list(cluster.nodes), {}
    for number, loss in losses.items():
        node = next((node for node in free if node not in loss.down), None)
        if node is not None:
            found[number] = node
            free.remove(node)
        if not free:
            break
    return found


def course_of(distac: Distac, settled: Cluster, loss: Loss, at_once: Page) -> Course:
    """The course of a case. One that is at rest at once needs no play, if nobody comes back."""
    if at_once.held and at_once.is_at_rest and not loss.back:
        return Course(loss, at_once, at_once, at_once, [], [], settled)
    if not set(settled.nodes) - set(loss.down):
        return careful_course(distac, settled, loss)
    try:
        quick = quick_course(distac, settled, loss, at_once, False) or quick_course(distac, settled, loss, at_once, True)
    except Miscounted:
        quick = None
    return quick or careful_course(distac, settled, loss)


def quick_course(distac: Distac, settled: Cluster, loss: Loss, at_once: Page, is_wide: bool) -> Course | None:
    """The course of a case, if one play suffices. By default only nodes that a page names for a claim take part."""
    cluster, start, begin = settled.copy(), len(settled.story.lines), settled.story.now
    left = [node for node in cluster.nodes if node not in loss.down]
    if cluster.is_untold:
        cluster.tell(left[:1])
    cluster.crash(loss.down)
    draft = Draft(cluster, settled.story.issued)
    draft.write_wait(at_once, takers_of(cluster, at_once) if is_wide else named_on(cluster, at_once), loss.outlasts)
    then_at = cluster.story.look(cluster.hub)
    if loss.back:
        boot_again(cluster, loss, begin)
        takers, moments = takers_of(cluster, at_once, *loss.back), [cluster.story.now, *later_moments(cluster, at_once, loss, begin)]
        last = moments[-1] + longest_wait(cluster.configuration)
        draft.write_rounds(takers if is_wide else loss.back, [*moments, *[last] * LAST_ROUNDS] if is_wide else moments[:1])
    back_at = cluster.story.look(cluster.hub)
    cluster.story.play(distac)
    then, back = (page_of(cluster.story.answers[place].answer) for place in (then_at, back_at))
    held_up = any(one.first in (GAVE_UP, HELD_BACK) for one in cluster.story.answers[start:])
    is_left = all(loss.leaves(held, cluster.configuration.timeouts) for held in then.held.values())
    if held_up or not draft.is_whole() or not is_left or not back.is_at_rest:
        return None
    claims = claims_in(cluster, start, then_at)
    return Course(loss, at_once, then, back, claims, claims_in(cluster, then_at + 1), cluster)


def careful_course(distac: Distac, settled: Cluster, loss: Loss) -> Course:
    """The course of a case, played step by step with all nodes."""
    cluster, start, begin = settled.copy(), len(settled.story.lines), settled.story.now
    cluster.tell_all()
    cluster.crash(loss.down)
    share_all(distac, cluster)
    at_once = cluster.page(distac)
    wait_out(distac, cluster, at_once, loss)
    then, then_at = cluster.page(distac), len(cluster.story.lines)
    if loss.back:
        boot_again(cluster, loss, begin)
        for moment in later_moments(cluster, at_once, loss, begin):
            take_round(distac, cluster)
            cluster.story.now = moment
        come_to_rest(distac, cluster)
    claims = claims_in(cluster, start, then_at)
    return Course(loss, at_once, then, cluster.page(distac), claims, claims_in(cluster, then_at), cluster)


def wait_out(distac: Distac, cluster: Cluster, at_once: Page, loss: Loss) -> None:
    """The remaining nodes tick at once, and whenever a wait ends before nodes are back."""
    begin, waits = cluster.story.now, [wait for wait in waits_of(cluster, at_once) if loss.outlasts(wait)]
    for moment in [begin, *(begin + wait for wait in sorted(waits))]:
        cluster.story.now = moment
        take_round(distac, cluster)
    if waits:
        take_rounds(distac, cluster)


def later_moments(cluster: Cluster, at_once: Page, loss: Loss, begin: int) -> list[int]:
    """The moments at which waits end that returning nodes interrupted: they count from the loss."""
    return sorted({begin + wait for wait in waits_of(cluster, at_once) if not loss.outlasts(wait)})


def boot_again(cluster: Cluster, loss: Loss, begin: int) -> None:
    """Nodes come up again, after their time or once all waits are over, and everything is started there."""
    cluster.story.now = cluster.story.now + 1 if loss.takes is None else begin + loss.takes
    cluster.unused = [each.name for each in cluster.configuration.applications if each.name in cluster.unused and waits_on(each, cluster, loss)]
    cluster.boot(loss.back, loss.not_started)


def waits_on(application: Application, cluster: Cluster, loss: Loss) -> bool:
    """Whether nodes that come back wait for others to start an application that runs nowhere, as in OTP: for all nodes
    of its list if a tuple comes first, and else for the first one."""
    up = {node for node in (*cluster.nodes, *loss.back) if (node, application.name) not in cluster.forbidden}
    group = first_group(application, up)
    awaited = up.intersection(application.nodes if len(group) > 1 else group)
    return not awaited <= set(loss.back).difference(loss.not_started)


def claims_in(cluster: Cluster, start: int, end: int | None = None) -> list[Claimed]:
    """The claims of some lines, with moments counted from the first line."""
    story = cluster.story
    each = list(zip(story.moments[start:end], story.answers[start:end]))
    return [claimed(one, line, moment - each[0][0]) for moment, one in each for line in one.answer[1:] if is_claim(one, line)]


def is_claim(one: Answered, line: str) -> bool:
    """Whether a further line of an answer is a claim."""
    return one.line.verb == "tick" and line.startswith("claim ")


def claimed(one: Answered, line: str, milliseconds: int) -> Claimed:
    found = CLAIM.match(line)
    return Claimed(found["app"], one.actor, found["how"].split(" ")[0], milliseconds) if found else Claimed("", one.actor, "", milliseconds)
