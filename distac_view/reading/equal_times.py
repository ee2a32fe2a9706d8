"""Applications that OTP's own controller may fail to restart: those with equal waits, if their nodes wait for each
other.

If a node goes down, OTP restarts its applications one after another, at each node that has started them at once. The
node that restarts the first one tells the others only when it is free. If it turns to the next one at once, it may wait
for those others: for their loads if it has a tuple before it, or for the one that restarts it. Meanwhile they wait for
its message, so all of them hang. If the times differ by more than the first application takes to start, the node is
free between the two.
"""

from __future__ import annotations

from dataclasses import dataclass
from itertools import combinations
from typing import Iterable

from distac_view.reading.configuration import Application, Configuration

CURE = "give each its own time, further apart than a start takes: 100 ms or more"
FOREVER = 4_294_967_295


@dataclass(frozen=True)
class Pair:
    """Two applications that may hang after a node goes down, in file order, and the first such node in name order."""

    one: Application
    other: Application
    node: str


def pairs_that_hang(configuration: Configuration) -> list[Pair]:
    """The pairs of applications that may run at one node together and hang if it goes down."""
    found = []
    for one, other in combinations([each for each in configuration.applications if each.is_permitted], 2):
        node = next((node for node in configuration.nodes if hang_without(one, other, node, configuration)), None)
        if node is not None:
            found.append(Pair(one, other, node))
    return found


def hang_without(one: Application, other: Application, node: str, configuration: Configuration) -> bool:
    """Whether two applications that run at a node may hang after it goes down. The nodes before it in a list are down
    already, because otherwise the applications wouldn't be at this one."""
    if node not in one.nodes or node not in other.nodes:
        return False
    return hang_together(one, other, set(configuration.nodes) - {node} - before(one, node) - before(other, node))


def before(application: Application, node: str) -> set[str]:
    """The nodes of the groups before that of a node."""
    place = next(place for place, group in enumerate(application.groups) if node in group)
    return {each for group in application.groups[:place] for each in group}


def pairs_among(lost: Iterable[Application], left: Iterable[str]) -> list[tuple[Application, Application]]:
    """Of the applications that fail over because nodes went down together, the pairs that may hang."""
    nodes = list(left)
    return [(one, other) for one, other in combinations(lost, 2) if hang_together(one, other, nodes)]


def hang_together(one: Application, other: Application, left: Iterable[str]) -> bool:
    """Whether two applications that fail over at once may hang in either order. Waits of weeks don't count."""
    if one.timeout != other.timeout or one.timeout == FOREVER:
        return False
    return hang_in_turn(one, other, set(left)) or hang_in_turn(other, one, set(left))


def hang_in_turn(first: Application, second: Application, left: set[str]) -> bool:
    """Whether one that restarted the first application waits, for the second one, for another node. All others wait for
    its message: those of the list, and those outside it, if they have started the application too."""
    return any(waited_for(second, node, left) for node in first_group(first, left).intersection(left))


def waited_for(application: Application, node: str, left: set[str]) -> set[str]:
    """The nodes waited for before a restart: all of a list with a tuple first, else the first one."""
    group = first_group(application, left)
    is_asking = len(group) > 1 and node in application.nodes
    return left.intersection(application.nodes if is_asking else group).difference([node])


def first_group(application: Application, left: set[str]) -> set[str]:
    """The first group of an application's list with a node left."""
    return next((set(group) for group in application.groups if left.intersection(group)), set())
