"""The effect of a split on each application, and its place once the split is healed.

All sides are played in one script: each declares all other nodes down, and waits. Then all share their states, and the
page names the holder of each application. The final places, after all nodes have booted again, are computed from there.
"""

from __future__ import annotations

from dataclasses import dataclass, replace

from distac_view.answering.outages import tick_time_of
from distac_view.answering.what_if import Case, Question, case_of, held_on, known_nodes, sides_of
from distac_view.asking.cases import Course, Loss, claims_in, wait_out
from distac_view.asking.cluster import Cluster, come_to_rest, share_all
from distac_view.asking.inputs import load_config
from distac_view.asking.openings import Side
from distac_view.asking.program import Distac
from distac_view.asking.running_now import Placed, opened_now
from distac_view.asking.snapshots import Held, Page, page_of
from distac_view.common.names import bare_name
from distac_view.common.problems import Problem
from distac_view.common.texts import shown
from distac_view.reading.configuration import Checked, Configuration, name_order

BETWEEN = "/"


@dataclass(frozen=True)
class Part:
    """A side of a split: its nodes that were up, and the effect on each application there."""

    nodes: list[str]
    case: Case


@dataclass(frozen=True)
class Healed:
    """An application after a split: where its copies are, the greatest claim, and its place after all boots."""

    app: str
    copies: list[str]
    kept: "str | None"
    term: "int | None"
    back: "str | None"


@dataclass(frozen=True)
class SplitReply:
    """The answer on a split: its beginning, its sides, the healed applications, and net_ticktime."""

    configuration: Configuration
    question: Question
    side: Side
    parts: list[Part]
    healed: list[Healed]
    tick_time: int

    @property
    def twice(self) -> list[Healed]:
        """The applications that run more than once during the split."""
        return [each for each in self.healed if len(each.copies) > 1]


def split_reply(distac: Distac, question: Question) -> SplitReply:
    checked = load_config(distac, question.config)
    groups = groups_of(question.split, checked.configuration)
    side = sides_of(distac, checked, question, known_nodes(question.not_started, checked.configuration))[0]
    whole, parts = side.cluster.copy(), []
    whole.tell_all()
    for group in groups:
        up = [node for node in group if node in side.nodes]
        if up:
            parts.append(Part(up, case_of(side, course_of_part(distac, whole, up))))
    healed = healed_by(distac, checked, side, parts, held_when_healed(distac, whole))
    return SplitReply(checked.configuration, question, side, [with_back(part, healed) for part in parts], healed, tick_time_of(checked.text))


def groups_of(words: list[str], configuration: Configuration) -> list[list[str]]:
    """The sides named on the command line, separated by slashes. Unnamed nodes form one more side."""
    bars = [-1, *(place for place, word in enumerate(words) if word == BETWEEN), len(words)]
    named = [known_nodes(words[start + 1 : end], configuration) for start, end in zip(bars, bars[1:])]
    every = [node for group in named for node in group]
    twice = next((node for node in every if every.count(node) > 1), None)
    if twice is not None:
        raise Problem(f"--split names {shown(bare_name(twice))} twice: a node is on one side")
    groups = [group for group in (*named, [node for node in configuration.nodes if node not in every]) if group]
    if len(groups) < 2:
        raise Problem("--split wants two sides at least: NODE NODE .. / NODE NODE .., and nodes that none names are one more")
    return groups


def course_of_part(distac: Distac, whole: Cluster, group: list[str]) -> Course:
    """The course of a side, in the script of all sides: it begins with the split."""
    others = [node for node in whole.nodes if node not in group]
    begin, start = whole.story.now, len(whole.story.lines)
    cluster = replace(whole, nodes=sorted(group, key=name_order), ended=[], waiting=[])
    cluster.say_down(others)
    share_all(distac, cluster)
    at_once, loss = cluster.page(distac), Loss(others, [], [])
    wait_out(distac, cluster, at_once, loss)
    share_all(distac, cluster)
    then = cluster.page(distac)
    whole.story = cluster.story
    whole.story.now = begin
    return Course(loss, at_once, then, then, claims_in(cluster, start), [], cluster)


def held_when_healed(distac: Distac, whole: Cluster) -> dict[str, Held]:
    """The holder of each application once all hear each other. A second share spreads the news of the first."""
    whole.story.add_uncounted("share", "share")
    page = page_of(whole.story.play(distac, f"page {whole.hub}")[0].answer) if whole.nodes else Page()
    return held_on(page, whole.configuration)


def healed_by(distac: Distac, checked: Checked, side: Side, parts: list[Part], held: dict[str, Held]) -> list[Healed]:
    """Each application after the split. Its final place is computed from its greatest claim, with all nodes up."""
    places = {app: each.holder for app, each in held.items() if each.holder is not None}
    fresh = [app for app in held if app not in places and app not in side.cluster.unused]
    start = opened_now(distac, checked, Placed(places, side.nodes, fresh))
    come_to_rest(distac, start.cluster)
    back = held_on(start.cluster.page(distac), checked.configuration)
    found = []
    for app, each in held.items():
        at = [fate.then for part in parts for fate in part.case.fates if fate.app == app and fate.then is not None]
        found.append(Healed(app, at, each.holder, each.term or None, back[app].runs_at))
    return found


def with_back(part: Part, healed: list[Healed]) -> Part:
    """A side whose final places are those after the split is healed."""
    back = {each.app: each.back for each in healed}
    return Part(part.nodes, replace(part.case, fates=[replace(fate, back=back[fate.app]) for fate in part.case.fates]))
