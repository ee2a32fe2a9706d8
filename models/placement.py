"""The placement of each application, from the meaning of a set of operations."""

from __future__ import annotations

from dataclasses import dataclass

from check import Config
from meaning import Claim, Key, Meaning, Origin

START, FAILOVER, MOVE, TAKEOVER = "start", "failover", "move", "takeover"
KEPT, HALTED, NOBODY = "kept", "halted", "nobody"


@dataclass(frozen=True)
class Verdict:
    """The decision for an application, and its node. `nobody` has none."""

    what: str
    node: int | None = None


def is_permitted(config: Config, meaning: Meaning, key: Key) -> bool:
    """Whether an application is permitted at a node: among the standing permits, false wins."""
    standing = meaning.permits.get(key)
    return all(standing.values()) if standing else config.apps[key.app].permission


def is_drained(meaning: Meaning, about: Origin) -> bool:
    """Whether an incarnation of a node is out of placement: among the standing drains, true wins."""
    return any(meaning.drains.get(about, {}).values())


def is_allowed(config: Config, meaning: Meaning, key: Key) -> bool:
    """Whether an application is permitted at a node that isn't drained."""
    return is_permitted(config, meaning, key) and not is_drained(meaning, Origin(key.node, key.inc))


def is_wished(meaning: Meaning, key: Key) -> bool:
    """Whether a start wish stands."""
    return bool(meaning.starts.get(key))


def is_eligible(config: Config, meaning: Meaning, app: int, node: int) -> bool:
    inc = meaning.live(node)
    if inc is None or config.apps[app].group_of(node) is None:
        return False
    key = Key(app, node, inc)
    return is_allowed(config, meaning, key) and is_wished(meaning, key)


def holder(meaning: Meaning, app: int) -> Origin | None:
    """The origin of the greatest claim."""
    claim = meaning.claims.get(app)
    return None if claim is None else claim.origin


def running_node(config: Config, meaning: Meaning, app: int) -> int | None:
    origin = holder(meaning, app)
    if origin is None or meaning.live(origin.node) != origin.inc:
        return None
    return origin.node if is_eligible(config, meaning, app, origin.node) else None


def load(config: Config, meaning: Meaning, app: int, node: int) -> int:
    """The number of other applications that a node runs."""
    others = [other for other in range(len(config.apps)) if other != app]
    return sum(running_node(config, meaning, other) == node for other in others)


def eligible_of_group(config: Config, meaning: Meaning, app: int, group: int) -> list[int]:
    return [node for node in config.apps[app].groups[group] if is_eligible(config, meaning, app, node)]


def first(config: Config, meaning: Meaning, app: int) -> int | None:
    """The eligible node of the earliest group with one: the least load, then the least name."""
    for group in range(len(config.apps[app].groups)):
        nodes = eligible_of_group(config, meaning, app, group)
        if nodes:
            return min(nodes, key=lambda node: (load(config, meaning, app, node), node))
    return None


def to_first(what: str, config: Config, meaning: Meaning, app: int) -> Verdict:
    """A verdict with the first node, or nobody."""
    node = first(config, meaning, app)
    return Verdict(NOBODY) if node is None else Verdict(what, node)


def verdict(config: Config, meaning: Meaning, app: int) -> Verdict:
    """The decision for an application: the first case that holds."""
    origin = holder(meaning, app)
    if origin is None:
        return to_first(START, config, meaning, app)
    if meaning.live(origin.node) != origin.inc:
        return to_first(FAILOVER, config, meaning, app)
    key = Key(app, origin.node, origin.inc)
    if not is_wished(meaning, key):
        return Verdict(HALTED, origin.node)
    if not is_allowed(config, meaning, key):
        return to_first(MOVE, config, meaning, app)
    own_group = config.apps[app].group_of(origin.node)
    earlier = range(own_group) if own_group is not None else range(0)
    if any(eligible_of_group(config, meaning, app, group) for group in earlier):
        return to_first(TAKEOVER, config, meaning, app)
    return Verdict(KEPT, origin.node)


def candidate(config: Config, meaning: Meaning, app: int) -> int | None:
    """The node that should claim an application."""
    found = verdict(config, meaning, app)
    return found.node if found.what in (START, FAILOVER, MOVE, TAKEOVER) else None


def lost_claim(meaning: Meaning, app: int) -> Claim | None:
    """The greatest claim if its incarnation isn't live."""
    claim = meaning.claims.get(app)
    return claim if claim is not None and meaning.live(claim.node) != claim.inc else None
