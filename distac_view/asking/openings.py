"""The beginning of a question: a cluster that just came up, the end of a script, or applications at their present
places."""

from __future__ import annotations

from dataclasses import dataclass, field

from distac_view.asking.cluster import GAVE_UP, HELD_BACK, Cluster, come_to_rest, share_all, take_round
from distac_view.asking.inputs import answers_of, load_script
from distac_view.asking.program import Distac
from distac_view.asking.script_builder import ISSUED, Miscounted, Story
from distac_view.asking.snapshots import Page, page_of
from distac_view.common.problems import Problem
from distac_view.common.texts import bytes_of, shown
from distac_view.reading.configuration import Application, Checked, name_order
from distac_view.reading.forbidden import forbidden_in
from distac_view.reading.script_file import separator_in
from distac_view.reading.verbs import MOST_NUMBER, Role, word_of

LATEST = MOST_NUMBER - 2**40


@dataclass(frozen=True)
class Side:
    """Nodes that hear each other at the beginning: their cluster, their page, and the nodes that the question covers.

    Besides nodes that can act these are the ones that are off or declared down: they would come back to this side.
    Nobody named the place of some applications.
    """

    cluster: Cluster
    page: Page
    members: list[str]
    said_down: list[str] = field(default_factory=list)
    unsaid: list[str] = field(default_factory=list)

    @property
    def is_guessed(self) -> bool:
        """Whether an application has no named place, so that the load of a tuple's nodes decides."""
        applications = self.cluster.configuration.applications
        return len(applications) > 1 and any(self.is_chosen(each) for each in applications if each.name in self.unsaid)

    def is_chosen(self, application: Application) -> bool:
        """Whether a node of a tuple runs an application."""
        held = self.page.held.get(application.name)
        return held is not None and any(held.runs_at in group and len(group) > 1 for group in application.groups)

    @property
    def nodes(self) -> list[str]:
        """The nodes that can act."""
        return self.cluster.nodes


def new_story(checked: Checked) -> Story:
    """An empty script of a configuration."""
    configuration = checked.configuration
    for name in (*configuration.nodes, *configuration.names):
        if " " in name:
            raise Problem(f"the name {shown(name)} has a space, and no script can name it: it can't be played")
    return Story(checked.text if separator_in(checked.text) is None else bytes_of(checked.canonical + "\n"), configuration)


def opened(distac: Distac, checked: Checked, not_started: list[str]) -> Side:
    """All nodes came up, everything was started except at some nodes, in the order of the file, and all is at rest."""
    cluster = Cluster(new_story(checked), [], forbidden=forbidden_in(checked))
    nodes = checked.configuration.nodes
    batches = batches_of(checked.configuration.applications)
    unseen = None
    if len(batches) > 1:
        cluster.boot(nodes, nodes)
        unseen = started_unseen(distac, cluster, batches, not_started)
        cluster = unseen or started_in_turn(distac, cluster, batches, not_started)
    else:
        cluster.boot(nodes, not_started)
    come_to_rest(distac, cluster, unseen is not None)
    return Side(cluster, cluster.page(distac), nodes, unsaid=checked.configuration.names)


def batches_of(applications: list[Application]) -> list[list[Application]]:
    """Applications in file order, each that chooses a node by load after those that are started before."""
    batches: list[list[Application]] = []
    for each in applications:
        if not batches or any(len(group) > 1 for group in each.groups):
            batches.append([])
        batches[-1].append(each)
    return batches


def started_unseen(distac: Distac, booted: Cluster, batches: list[list[Application]], not_started: list[str]) -> Cluster | None:
    """Batches are started in one play, if each is claimed as predicted: at once, by nodes that are told of it."""
    cluster, start = booted.copy(), len(booted.story.lines)
    story = cluster.story
    handed: set[int] = set()
    cluster.tell_all()
    cluster.tick(cluster.nodes)
    for batch in batches:
        places = places_of(cluster, batch, not_started)
        if places:
            cluster.start_at(places)
            takers = sorted({node for _, node in places}, key=name_order)
            cluster.tell(takers)
            cluster.tick(takers)
            permitted = [each.name for each in batch if each.is_permitted]
            claimed = {name for name, node in places if name in permitted and (node, name) not in cluster.forbidden}
            numbers = range(story.issued + 1, story.issued + 1 + len(claimed))
            story.add(*(f"hand {cluster.hub} {number}" for number in numbers))
            story.issued += len(claimed)
            handed.update(numbers)
    try:
        story.play(distac)
    except Miscounted:
        return None
    claims = {int(found["number"]) for one in story.answers[start:] if one.line.verb == "tick" for found in map(ISSUED.match, one.answer) if found}
    is_held_up = any(one.first in (GAVE_UP, HELD_BACK) for one in story.answers[start:])
    return None if is_held_up or claims != handed else cluster


def started_in_turn(distac: Distac, cluster: Cluster, batches: list[list[Application]], not_started: list[str]) -> Cluster:
    """Batches are started one after another, each once the claims of those before it are known."""
    take_round(distac, cluster)
    for batch in batches:
        places = places_of(cluster, batch, not_started)
        if places:
            cluster.start_at(places)
            take_round(distac, cluster)
    return cluster


def places_of(cluster: Cluster, batch: list[Application], not_started: list[str]) -> list[tuple[str, str]]:
    """The applications of a batch, each with the nodes of its list where it is started."""
    return [(each.name, node) for each in batch for node in each.nodes if node in cluster.nodes and node not in not_started]


def opened_after(distac: Distac, checked: Checked, path: str) -> list[Side]:
    """The sides of a cluster after a script, each at rest. Only one, if no node is cut off from another."""
    story = story_after(distac, checked, path)
    nodes = checked.configuration.nodes
    pages = {one.actor: page_of(one.answer) for one in story.play(distac, *(f"page {node}" for node in nodes))}
    groups = groups_of({node: page for node, page in pages.items() if page.can_act(node)}) or [[]]
    others = [node for node in nodes if not any(node in group for group in groups)]
    sides: list[Side] = []
    for group in groups:
        cluster = Cluster(story.copy(), group, forbidden=forbidden_in(checked))
        share_all(distac, cluster)
        unsaid = [held.app for held in cluster.page(distac).held.values() if held.holder is None]
        come_to_rest(distac, cluster)
        sides.append(side_of(distac, cluster, group, [] if sides else others, pages, unsaid))
    return sides


def side_of(distac: Distac, cluster: Cluster, group: list[str], others: list[str], pages: dict[str, Page], unsaid: list[str]) -> Side:
    """A side: its cluster, the nodes that it began with, those of no side, and applications without a holder."""
    members = [node for node in cluster.configuration.nodes if node in group or node in others]
    said_down = [node for node in others if pages[node].inc is not None]
    return Side(cluster, cluster.page(distac), members, said_down, unsaid)


def groups_of(pages: dict[str, Page]) -> list[list[str]]:
    """The nodes that can act, grouped so that no node declares another one of its group down."""
    groups: list[list[str]] = []
    for node in pages:
        group = next((group for group in groups if not any(are_parted(pages, node, other) for other in group)), None)
        if group is None:
            groups.append([node])
        else:
            group.append(node)
    return groups


def are_parted(pages: dict[str, Page], one: str, other: str) -> bool:
    """Whether one of two nodes declares the other one's present life down."""
    return any(pages[by].lives.get(of) == ("down", pages[of].inc) for by, of in ((one, other), (other, one)))


def story_after(distac: Distac, checked: Checked, path: str) -> Story:
    """The lines of a script of the same configuration, up to its last moment."""
    loaded = load_script(distac, path)
    if distac.check(loaded.script.config).lines != [checked.canonical]:
        raise Problem(f"{path} has another configuration: the script of --after has to begin with the same one")
    events = [one.line for one in answers_of(distac, loaded) if one.line.is_event]
    story = new_story(checked)
    story.add_uncounted(*(line.text for line in events))
    story.now = max((int(word_of(line.words, Role.MOMENT) or 0) for line in events), default=0)
    if story.now > LATEST:
        raise Problem(f"{path} ends at the moment {story.now}, and there is no room for later ones")
    return story
