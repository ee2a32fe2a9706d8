"""Rounds of a case that are written before they are played, with fewer nodes and messages than a full round.

After the play each round is checked: each node that was named for a claim must have ticked.
"""

from __future__ import annotations

from dataclasses import dataclass, field
from typing import Callable

from distac_view.asking.cluster import Cluster
from distac_view.asking.snapshots import Page, page_of


@dataclass
class Draft:
    """The rounds of a case: the last operation that all nodes know, and the positions of the hub's pages.

    Each page comes with the nodes that tick next.
    """

    cluster: Cluster
    known: int
    looks: list[tuple[int, list[str]]] = field(default_factory=list)

    def write_wait(self, at_once: Page, nodes: list[str], is_over: Callable[[int], bool]) -> None:
        """Nodes tick at once, and at each moment at which a wait ends in time: in one round per application."""
        waits, begin, is_new = waits_of(self.cluster, at_once), self.cluster.story.now, True
        for wait in [0, *sorted(filter(is_over, waits))] if waits else []:
            self.cluster.story.now = begin + wait
            self.write_round(nodes, is_new, len(waits))
            is_new = wait > 0 or 0 in waits

    def write_rounds(self, nodes: list[str], moments: list[int]) -> None:
        """Rounds of some nodes after others came back, one at each of some moments."""
        for moment in moments:
            self.cluster.story.now = moment
            self.write_round(nodes, True, len(self.cluster.configuration.applications))

    def write_round(self, nodes: list[str], is_new: bool, most: int) -> None:
        """Some nodes hear any news and tick. The hub is handed each operation that may have been issued."""
        story = self.cluster.story
        if is_new:
            self.cluster.tell(nodes)
        self.looks.append((story.look(self.cluster.hub), nodes))
        self.cluster.tick(nodes)
        story.issued += most
        story.add(*(f"hand {self.cluster.hub} {number}" for number in range(self.known + 1, story.issued + 1)))
        self.cluster.is_untold = True

    def is_whole(self) -> bool:
        """Whether each node that was named for a claim ticked, according to the knowledge before each round."""
        pages = ((page_of(self.cluster.story.answers[place].answer), nodes) for place, nodes in self.looks)
        return all(held.at in nodes for page, nodes in pages for held in page.held.values() if held.is_pending)


def waits_of(cluster: Cluster, at_once: Page) -> list[int]:
    """For each application with a pending action, the time until it is due."""
    timeouts = cluster.configuration.timeouts
    pending = [held for held in at_once.held.values() if held.is_pending]
    return [timeouts[held.app] if held.verdict == "failover" and held.at != held.holder else 0 for held in pending]


def named_on(cluster: Cluster, page: Page) -> list[str]:
    """The nodes named for a claim on a page."""
    found = {held.at for held in page.held.values() if held.is_pending}
    return [node for node in cluster.nodes if node in found]


def takers_of(cluster: Cluster, page: Page, *returning: str) -> list[str]:
    """The nodes that may claim something, by marks of pending applications and by the lists of nodes that return."""
    found = set(returning)
    for held in page.held.values():
        if held.is_pending:
            found.update(held.nodes_marked("ok"))
    for each in cluster.configuration.applications:
        if any(node in each.nodes for node in returning):
            found.update(each.nodes)
    return [node for node in cluster.nodes if node in found]
