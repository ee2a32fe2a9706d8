"""Nodes that hear each other, in a generated script: they tick, one of them hears of all claims, and tells the others.

A share among sixty-four nodes is 4,032 messages. Here the first node, the hub, is told everything and tells the others,
who then know as much as after a share.
"""

from __future__ import annotations

from dataclasses import dataclass, field, replace
from typing import Iterable

from distac_view.asking.program import Distac
from distac_view.asking.script_builder import ISSUED, SHIPPED, Story
from distac_view.asking.snapshots import Page, page_of
from distac_view.reading.configuration import Configuration, name_order

GAVE_UP, HELD_BACK = "gave up", "held"


@dataclass(frozen=True)
class Waiter:
    """A node at its start gate: the mandatory and optional nodes that it waits for, and whether it gave up."""

    node: str
    mandatory: list[str]
    optional: list[str]
    gave_up: bool


@dataclass
class Cluster:
    """Nodes that are up, can act and hear each other, and the script so far. The first one is the hub.

    It is untold if the hub has news that it hasn't told all others. Also the nodes that gave up at their start gate,
    those that still wait there, the applications that are never started, and those that nodes forbid to themselves as
    they boot.
    """

    story: Story
    nodes: list[str]
    is_untold: bool = False
    ended: list[Waiter] = field(default_factory=list)
    waiting: list[Waiter] = field(default_factory=list)
    unused: list[str] = field(default_factory=list)
    forbidden: list[tuple[str, str]] = field(default_factory=list)

    def copy(self) -> Cluster:
        """A copy that can continue separately."""
        return replace(self, story=self.story.copy(), nodes=list(self.nodes), ended=list(self.ended), waiting=list(self.waiting))

    @property
    def hub(self) -> str:
        """The node that is told everything and tells all others."""
        return self.nodes[0]

    @property
    def configuration(self) -> Configuration:
        return self.story.configuration

    def boot(self, nodes: list[str], not_started: Iterable[str]) -> None:
        """Nodes come up, start all that they may run, except at some nodes, and tell the hub, which was up before."""
        first = self.nodes[0] if self.nodes else nodes[0]
        for node in nodes:
            self.story.command(f"boot {node} {self.story.now}")
            self.story.command(*(f"permit {node} {app} {node} false" for by, app in self.forbidden if by == node))
            if node not in not_started:
                names = [each.name for each in self.configuration.applications if node in each.nodes and each.name not in self.unused]
                self.story.command(*(f"start {node} {name} {node}" for name in names))
            if node != first:
                self.story.tell(node, first)
        self.nodes = [first, *sorted({*self.nodes, *nodes} - {first}, key=name_order)]
        self.is_untold = True

    def start_at(self, places: Iterable[tuple[str, str]]) -> None:
        """The hub starts applications at nodes."""
        self.story.command(*(f"start {self.hub} {name} {node}" for name, node in places))
        self.is_untold = True

    def crash(self, nodes: list[str]) -> None:
        """Nodes go down, and the first remaining one is told."""
        self.story.add(*(f"crash {node}" for node in nodes))
        self.nodes = [node for node in self.nodes if node not in nodes]
        if self.nodes:
            self.say_down(nodes)

    def say_down(self, nodes: Iterable[str]) -> None:
        """The hub is told that nodes are down."""
        self.story.command(*(f"down {self.hub} {node}" for node in nodes))
        self.is_untold = True

    def tell(self, nodes: Iterable[str]) -> None:
        """The hub tells some nodes its state. It must have news since it told them last."""
        for node in nodes:
            if node != self.hub:
                self.story.tell(self.hub, node)

    def tell_all(self) -> None:
        """The hub tells all nodes its state, unless they already know it."""
        if self.is_untold:
            self.tell(self.nodes)
        self.is_untold = False

    def tick(self, nodes: Iterable[str]) -> None:
        self.story.add(*(f"tick {node} {self.story.now}" for node in nodes))

    def page(self, distac: Distac) -> Page:
        """The hub's page, which is empty if there is no node."""
        if not self.nodes:
            return Page()
        return page_of(self.story.play(distac, f"page {self.hub}")[0].answer)

    def waiter(self, node: str, gave_up: bool) -> Waiter:
        """The nodes that a node waits for: the sync nodes outside those that hear each other."""
        return Waiter(node, self.away(self.configuration.mandatory), self.away(self.configuration.optional), gave_up)

    def away(self, nodes: Iterable[str]) -> list[str]:
        """Those of some nodes outside the ones that hear each other."""
        return [node for node in nodes if node not in self.nodes]


def longest_wait(configuration: Configuration) -> int:
    """The milliseconds after which all waits of failovers and starting nodes are over."""
    sync = configuration.sync_timeout or "0"
    return max([0 if sync == "infinity" else int(sync), *(each.timeout for each in configuration.applications)])


def take_round(distac: Distac, cluster: Cluster) -> bool:
    """All nodes hear the news and tick. Returns whether there were claims, or nodes that gave up."""
    cluster.tell_all()
    story, start = cluster.story, len(cluster.story.lines)
    cluster.tick(cluster.nodes)
    story.play(distac)
    ticks = story.answers[start:]
    ended = [one.actor for one in ticks if one.first == GAVE_UP]
    cluster.waiting = [cluster.waiter(one.actor, False) for one in ticks if one.first == HELD_BACK]
    cluster.ended += [cluster.waiter(node, True) for node in ended]
    claims = [found["number"] for one in ticks for found in map(ISSUED.match, one.answer) if found]
    cluster.nodes = [node for node in cluster.nodes if node not in ended]
    if cluster.nodes and (claims or ended):
        story.add(*(f"hand {cluster.hub} {number}" for number in claims))
        cluster.say_down(ended)
    return bool(claims or ended)


def take_rounds(distac: Distac, cluster: Cluster) -> None:
    """Rounds until nothing happens in one, at most two more than there are applications. That last one is undone.

    It isn't undone if a node waits at its start gate, because a tick may have opened it.
    """
    for _ in range(len(cluster.configuration.applications) + 2):
        before = cluster.copy()
        has_happened = take_round(distac, cluster)
        if not has_happened and not before.waiting and not cluster.waiting:
            cluster.story, cluster.is_untold = before.story, before.is_untold
        if not has_happened:
            return


def come_to_rest(distac: Distac, cluster: Cluster, has_claimed: bool = False) -> None:
    """All waits end, and the cluster comes to rest. If a node gives up meanwhile, the others wait once more, and so do
    failovers after a start gate, because a node counts them from there. If nodes have just claimed all, no wait begins
    now, and the round in which waits begin is left out."""
    ended = -1
    while ended != len(cluster.ended):
        ended = len(cluster.ended)
        if not has_claimed:
            take_round(distac, cluster)
        has_claimed = False
        for _ in range(2 if cluster.waiting else 1):
            cluster.story.now += longest_wait(cluster.configuration)
            take_rounds(distac, cluster)


def share_all(distac: Distac, cluster: Cluster) -> None:
    """All nodes tell each other their states, whatever they told before.

    A ship may be refused here, and a node that booted again may be known by its earlier life, so playing shows which
    ships are heard.
    """
    if not cluster.nodes:
        return
    others = [node for node in cluster.nodes if node != cluster.hub]
    for _ in range(2):
        ship_all(distac, cluster.story, [(node, cluster.hub) for node in others])
        ship_all(distac, cluster.story, [(cluster.hub, node) for node in others])
    cluster.is_untold = False


def ship_all(distac: Distac, story: Story, pairs: list[tuple[str, str]]) -> None:
    """Nodes ship to others, and each message is heard."""
    start = len(story.lines)
    story.add_uncounted(*(f"ship {sender} {hearer}" for sender, hearer in pairs))
    story.play(distac)
    for one, (_, hearer) in zip(story.answers[start:], pairs):
        found = SHIPPED.match(one.first)
        if found:
            story.add(f"hear {hearer} {found['number']}")
