"""Operations, and the meaning of a set of operations. Nothing is joined here: each part is computed from the whole
set."""

from __future__ import annotations

from collections.abc import Iterable
from dataclasses import dataclass, field
from typing import NamedTuple, Union

NORMAL, FAILOVER, TAKEOVER = 1, 2, 3


class Origin(NamedTuple):
    """An incarnation of a node."""

    node: int
    inc: int


class Dot(NamedTuple):
    """The name of an operation: its issuer, and its number among the issuer's operations."""

    node: int
    inc: int
    n: int

    @property
    def origin(self) -> Origin:
        return Origin(self.node, self.inc)


class Key(NamedTuple):
    """The subject of a permission or a start wish."""

    app: int
    node: int
    inc: int


class Life(NamedTuple):
    """A node's life. At the same incarnation up is below down."""

    inc: int
    is_down: bool


class Claim(NamedTuple):
    """A claim with its origin, in the order of claims. A `source` of -1 means none."""

    term: int
    node: int
    inc: int
    how: int
    source: int

    @property
    def origin(self) -> Origin:
        return Origin(self.node, self.inc)


@dataclass(frozen=True)
class Up:
    """A node comes up."""


@dataclass(frozen=True)
class Down:
    """An incarnation of a node is down."""

    node: int
    inc: int


@dataclass(frozen=True)
class Permit:
    """A permission, which replaces others."""

    key: Key
    value: bool
    over: tuple[Dot, ...]


@dataclass(frozen=True)
class Start:
    """A start wish, which replaces others."""

    key: Key
    over: tuple[Dot, ...]


@dataclass(frozen=True)
class Stop:
    """The end of some start wishes."""

    key: Key
    over: tuple[Dot, ...]


@dataclass(frozen=True)
class ClaimAct:
    """Its issuer claims an application."""

    app: int
    term: int
    how: int
    source: int


@dataclass(frozen=True)
class Drain:
    """An incarnation of a node is drained or not, which replaces others."""

    about: Origin
    value: bool
    over: tuple[Dot, ...]


Act = Union[Up, Down, Permit, Start, Stop, ClaimAct, Drain]


@dataclass(frozen=True)
class Operation:
    dot: Dot
    act: Act

    @property
    def over(self) -> tuple[Dot, ...]:
        return self.act.over if isinstance(self.act, (Permit, Start, Stop, Drain)) else ()


@dataclass
class Meaning:
    """The meaning of a set of operations, in seven parts."""

    heard: set[Dot] = field(default_factory=set)
    known: set[Dot] = field(default_factory=set)
    permits: dict[Key, dict[Dot, bool]] = field(default_factory=dict)
    starts: dict[Key, set[Dot]] = field(default_factory=dict)
    lives: dict[int, Life] = field(default_factory=dict)
    claims: dict[int, Claim] = field(default_factory=dict)
    drains: dict[Origin, dict[Dot, bool]] = field(default_factory=dict)

    def live(self, node: int) -> int | None:
        life = self.lives.get(node)
        return None if life is None or life.is_down else life.inc

    def standing_permits(self, key: Key) -> tuple[Dot, ...]:
        return tuple(sorted(self.permits.get(key, ())))

    def standing_starts(self, key: Key) -> tuple[Dot, ...]:
        return tuple(sorted(self.starts.get(key, ())))

    def standing_drains(self, about: Origin) -> tuple[Dot, ...]:
        """The standing drains of a node's incarnation."""
        return tuple(sorted(self.drains.get(about, ())))


def meaning_of(operations: Iterable[Operation]) -> Meaning:
    listed = list(operations)
    found = Meaning()
    found.heard = {operation.dot for operation in listed}
    replaced = {dot for operation in listed for dot in operation.over}
    found.known = found.heard | replaced
    for operation in listed:
        if operation.dot not in replaced:
            add_standing(found, operation)
        add_life(found, operation)
        add_claim(found, operation)
    return found


def add_standing(found: Meaning, operation: Operation) -> None:
    """Adds a permit, start or drain that nothing replaces."""
    act = operation.act
    if isinstance(act, Permit):
        found.permits.setdefault(act.key, {})[operation.dot] = act.value
    elif isinstance(act, Start):
        found.starts.setdefault(act.key, set()).add(operation.dot)
    elif isinstance(act, Drain):
        found.drains.setdefault(act.about, {})[operation.dot] = act.value


def add_life(found: Meaning, operation: Operation) -> None:
    if isinstance(operation.act, Up):
        node, life = operation.dot.node, Life(operation.dot.inc, False)
    elif isinstance(operation.act, Down):
        node, life = operation.act.node, Life(operation.act.inc, True)
    else:
        return
    found.lives[node] = max(found.lives.get(node, life), life)


def add_claim(found: Meaning, operation: Operation) -> None:
    """Adds a claim if it is the greatest of its application."""
    act = operation.act
    if isinstance(act, ClaimAct):
        claim = Claim(act.term, operation.dot.node, operation.dot.inc, act.how, act.source)
        found.claims[act.app] = max(found.claims.get(act.app, claim), claim)
