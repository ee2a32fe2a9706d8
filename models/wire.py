"""The bytes of states, messages and single operations, written and read.

There are two versions. The second has drains, and incarnations of eight bytes instead of four.
"""

from __future__ import annotations

from collections.abc import Callable, Iterator
from dataclasses import dataclass
from typing import Dict, List, Tuple, TypeVar, Union

from check import Config, Fault
from meaning import NORMAL, Act, Claim, ClaimAct, Dot, Down, Drain, Key, Life, Meaning, Operation, Origin, Permit, Start
from meaning import Stop, Up

MOST_NUMBER, MOST_BYTES, MOST_OVER = 2**62, 4_194_304, 1_024
MAGIC, FIRST, SECOND = b"DAC", 1, 2
INC_SIZES = {FIRST: 4, SECOND: 8}
MOST_INCS = {FIRST: 2**32 - 1, SECOND: MOST_NUMBER}
WHOLE, INTERVAL, NOTHING, SINGLE = 1, 2, 3, 4
ACT_CODES = {Up: 1, Down: 2, Permit: 3, Start: 4, Stop: 5, ClaimAct: 6, Drain: 7}
LAST_ACTS = {FIRST: ACT_CODES[ClaimAct], SECOND: ACT_CODES[Drain]}

PACKET_FAULTS = (
    "TooLong BadMagic BadVersion OtherConfig Short BadNumber BadOrder BadName NotInList NotKnown Trailing"
).split()


class WireFault(Fault):
    """The first fault of the bytes of a packet, or of a state."""

    word = "wire fault"
    kinds = PACKET_FAULTS


# For each origin the length of its unbroken run of dots from the first, and the further counters in order.
Rows = Dict[Origin, Tuple[int, List[int]]]


def rows_of(dots: set[Dot]) -> Rows:
    counters: dict[Origin, list[int]] = {}
    for dot in sorted(dots):
        counters.setdefault(dot.origin, []).append(dot.n)
    return {origin: row_of(counters[origin]) for origin in counters}


def row_of(counters: list[int]) -> tuple[int, list[int]]:
    """The written form of one origin's dots, from its counters in order."""
    unbroken = 0
    while unbroken < len(counters) and counters[unbroken] == unbroken + 1:
        unbroken += 1
    return unbroken, counters[unbroken:]


@dataclass(frozen=True)
class SpelledState:
    """A state with sets of dots in their written form."""

    heard: Rows
    known: Rows
    permits: dict[Key, dict[Dot, bool]]
    starts: dict[Key, set[Dot]]
    lives: dict[int, Life]
    claims: dict[int, Claim]
    drains: dict[Origin, dict[Dot, bool]]

    @classmethod
    def of(cls, state: Meaning) -> SpelledState:
        heard, known = rows_of(state.heard), rows_of(state.known)
        return cls(heard, known, state.permits, state.starts, state.lives, state.claims, state.drains)


@dataclass(frozen=True)
class Header:
    """The fields of a message before its body. `only` is 0 for any incarnation."""

    kind: int
    sender: Origin
    to: int
    only: int
    up_to: int
    ack: tuple[Origin, int] | None


@dataclass(frozen=True)
class Message(Header):
    """A message. Nothing has no body."""

    body: SpelledState | None


Packet = Union[Message, Operation]


# Writing


def u(size: int, number: int) -> bytes:
    return number.to_bytes(size, "big")


class Writer:
    """Writes a version of the bytes, without whatever that version can't express."""

    def __init__(self, version: int = SECOND) -> None:
        self.version = version

    def inc(self, inc: int) -> bytes:
        """An incarnation, or its lowest bits."""
        size = INC_SIZES[self.version]
        return u(size, inc % 256**size)

    def origin(self, origin: Origin) -> bytes:
        """An incarnation of a node."""
        return u(1, origin.node) + self.inc(origin.inc)

    def dot(self, dot: Dot) -> bytes:
        return self.origin(dot.origin) + u(8, dot.n)

    def key(self, key: Key) -> bytes:
        return u(2, key.app) + u(1, key.node) + self.inc(key.inc)

    def context(self, rows: Rows) -> bytes:
        """A set of dots."""
        return u(2, len(rows)) + b"".join(self.row(origin, *rows[origin]) for origin in sorted(rows))

    def row(self, origin: Origin, unbroken: int, further: list[int]) -> bytes:
        return self.origin(origin) + u(8, unbroken) + u(4, len(further)) + b"".join(u(8, n) for n in further)

    def votes(self, about: bytes, values: dict[Dot, bool]) -> bytes:
        """The values at a key, or at a node's incarnation."""
        return about + u(4, len(values)) + b"".join(self.dot(dot) + u(1, values[dot]) for dot in sorted(values))

    def starts(self, key: Key, dots: set[Dot]) -> bytes:
        return self.key(key) + u(4, len(dots)) + b"".join(map(self.dot, sorted(dots)))

    def life(self, node: int, life: Life) -> bytes:
        return u(1, node) + self.inc(life.inc) + u(1, life.is_down)

    def claim(self, app: int, claim: Claim) -> bytes:
        """The greatest claim of an application."""
        return u(2, app) + u(8, claim.term) + self.origin(claim.origin) + u(1, claim.how) + u(1, claim.source + 1)

    def state(self, state: SpelledState) -> bytes:
        parts = [self.context(state.heard), self.context(state.known), u(4, len(state.permits))]
        parts += [self.votes(self.key(key), state.permits[key]) for key in sorted(state.permits)]
        parts.append(u(4, len(state.starts)))
        parts += [self.starts(key, state.starts[key]) for key in sorted(state.starts)]
        parts.append(u(1, len(state.lives)))
        parts += [self.life(node, state.lives[node]) for node in sorted(state.lives)]
        parts.append(u(2, len(state.claims)))
        parts += [self.claim(app, state.claims[app]) for app in sorted(state.claims)]
        if self.version >= SECOND:
            parts.append(u(4, len(state.drains)))
            parts += [self.votes(self.origin(about), state.drains[about]) for about in sorted(state.drains)]
        return b"".join(parts)

    def head(self, config: Config, kind: int) -> bytes:
        return MAGIC + u(1, self.version) + u(8, config.mark) + u(1, kind)

    def message(self, config: Config, message: Message) -> bytes:
        ack = b"\0" if message.ack is None else b"\1" + self.origin(message.ack[0]) + u(8, message.ack[1])
        found = self.head(config, message.kind) + self.origin(message.sender) + u(1, message.to)
        found += self.inc(message.only) + u(8, message.up_to) + ack
        return found if message.body is None else found + self.state(message.body)

    def operation(self, config: Config, operation: Operation) -> bytes:
        act = operation.act
        found = self.head(config, SINGLE) + self.dot(operation.dot) + u(1, ACT_CODES[type(act)])
        if isinstance(act, Up):
            return found
        if isinstance(act, Down):
            return found + u(1, act.node) + self.inc(act.inc)
        if isinstance(act, ClaimAct):
            return found + u(2, act.app) + u(8, act.term) + u(1, act.how) + u(1, act.source + 1)
        about = self.origin(act.about) if isinstance(act, Drain) else self.key(act.key)
        value = u(1, act.value) if isinstance(act, (Permit, Drain)) else b""
        return found + about + value + u(2, len(act.over)) + b"".join(map(self.dot, act.over))


def state_bytes(state: Meaning, version: int = SECOND) -> bytes:
    return Writer(version).state(SpelledState.of(state))


def packet_bytes(config: Config, packet: Packet, version: int = SECOND) -> bytes:
    """A message or a single operation."""
    writer = Writer(version)
    found = writer.operation(config, packet) if isinstance(packet, Operation) else writer.message(config, packet)
    if len(found) > MOST_BYTES:
        raise WireFault("TooLong", MOST_BYTES)
    return found


# Reading

# What stands in ascending order.
K = TypeVar("K", int, Dot, Key, Origin)


class Fields:
    """Reads the fields of a version in turn. Positions count from the very first byte."""

    def __init__(self, config: Config, data: bytes, at: int, version: int) -> None:
        self.config = config
        self.data = data
        self.at = at
        self.version = version

    def number(self, size: int, least: int, most: int, otherwise: str = "BadNumber") -> int:
        """A number of so many bytes within a range, or else a fault of this kind."""
        if self.at + size > len(self.data):
            raise WireFault("Short", self.at)
        found = int.from_bytes(self.data[self.at : self.at + size], "big")
        if not least <= found <= most:
            raise WireFault(otherwise, self.at)
        self.at += size
        return found

    def count(self, size: int) -> int:
        """The number of items that follow."""
        return self.number(size, 0, 256**size - 1)

    def name(self, size: int, past: int) -> int:
        """A node or an application as a number below a count."""
        return self.number(size, 0, past - 1, "BadName")

    def node(self) -> int:
        return self.name(1, len(self.config.nodes))

    def app(self) -> int:
        return self.name(2, len(self.config.apps))

    def inc(self) -> int:
        return self.number(INC_SIZES[self.version], 1, MOST_INCS[self.version])

    def only(self, kind: int) -> int:
        """The incarnation that a message is for. One with a whole state is for any."""
        return self.number(INC_SIZES[self.version], 0, 0) if kind == WHOLE else self.inc()

    def truth(self) -> bool:
        return bool(self.number(1, 0, 1))

    def origin(self) -> Origin:
        """An incarnation of a node."""
        return Origin(self.node(), self.inc())

    def dot(self) -> Dot:
        origin = self.origin()
        return Dot(origin.node, origin.inc, self.number(8, 1, MOST_NUMBER))

    def listed(self, app: int, node: int, at: int) -> None:
        """Refuses a node outside the application's list."""
        if self.config.apps[app].group_of(node) is None:
            raise WireFault("NotInList", at)

    def key(self) -> Key:
        at = self.at
        key = Key(self.app(), self.node(), self.inc())
        self.listed(key.app, key.node, at)
        return key

    def how_and_source(self) -> tuple[int, int]:
        """How an application is claimed, and from which node."""
        how = self.number(1, 1, 3)
        source = self.name(1, len(self.config.nodes) + 1)
        if (source == 0) != (how == NORMAL):
            raise WireFault("BadNumber", self.at - 1)
        return how, source - 1

    def ascending(self, count: int, read: Callable[[], K], last: K | None = None) -> Iterator[K]:
        """So many items, each above the one before it. What belongs to an item is read before the next one."""
        for _ in range(count):
            at = self.at
            item = read()
            if last is not None and not last < item:
                raise WireFault("BadOrder", at)
            last = item
            yield item

    def end(self) -> None:
        if self.at < len(self.data):
            raise WireFault("Trailing", self.at)


def read_context(fields: Fields) -> Rows:
    """The written form of a set of dots: for each origin the length of its unbroken run, and its further counters."""
    rows: Rows = {}
    for origin in fields.ascending(fields.count(2), fields.origin):
        unbroken = fields.number(8, 0, MOST_NUMBER)
        count = fields.number(4, 0 if unbroken else 1, 2**32 - 1)
        further = fields.ascending(count, lambda: fields.number(8, 1, MOST_NUMBER), unbroken + 1)
        rows[origin] = (unbroken, list(further))
    return rows


def has_dot(rows: Rows, dot: Dot) -> bool:
    """Whether a spelled set has a dot."""
    unbroken, further = rows.get(dot.origin, (0, []))
    return dot.n <= unbroken or dot.n in set(further)


def is_within(rows: Rows, others: Rows) -> bool:
    """Whether all dots of one set are in another, without listing unbroken runs."""
    for origin, (unbroken, further) in rows.items():
        other_unbroken, other_further = others.get(origin, (0, []))
        has = set(other_further)
        gap = range(other_unbroken + 1, unbroken + 1)
        if len(gap) > len(has) or any(n not in has for n in gap):
            return False
        if any(n > other_unbroken and n not in has for n in further):
            return False
    return True


def read_stores(fields: Fields, read: Callable[[], K], known: Rows, has_value: bool) -> dict[K, dict[Dot, bool]]:
    """The store of each key, or of each node's incarnation: permits or drains with their values, or starts."""
    return {about: read_standing(fields, known, has_value) for about in fields.ascending(fields.count(4), read)}


def read_standing(fields: Fields, known: Rows, has_value: bool) -> dict[Dot, bool]:
    """The standing dots of one key, or of one incarnation."""
    standing: dict[Dot, bool] = {}
    for dot in fields.ascending(fields.number(4, 1, 2**32 - 1), fields.dot):
        if not has_dot(known, dot):
            raise WireFault("NotKnown", fields.at - len(Writer(fields.version).dot(dot)))
        standing[dot] = fields.truth() if has_value else True
    return standing


def read_claims(fields: Fields) -> dict[int, Claim]:
    claims: dict[int, Claim] = {}
    for _ in range(fields.count(2)):
        at = fields.at
        app = fields.app()
        term = fields.number(8, 1, MOST_NUMBER)
        origin = fields.origin()
        how, source = fields.how_and_source()
        fields.listed(app, origin.node, at)
        if claims and app <= max(claims):
            raise WireFault("BadOrder", at)
        claims[app] = Claim(term, origin.node, origin.inc, how, source)
    return claims


def read_parts(fields: Fields) -> SpelledState:
    """A state, whatever follows it."""
    heard = read_context(fields)
    known = read_context(fields)
    if not is_within(heard, known):
        raise WireFault("NotKnown", fields.at)
    permits = read_stores(fields, fields.key, known, True)
    starts = {key: set(dots) for key, dots in read_stores(fields, fields.key, known, False).items()}
    lives = {node: Life(fields.inc(), fields.truth()) for node in fields.ascending(fields.count(1), fields.node)}
    claims = read_claims(fields)
    drains = read_stores(fields, fields.origin, known, True) if fields.version >= SECOND else {}
    return SpelledState(heard, known, permits, starts, lives, claims, drains)


def read_state(config: Config, data: bytes, version: int = SECOND) -> SpelledState:
    """The state of some bytes, or their first fault."""
    fields = Fields(config, data, 0, version)
    state = read_parts(fields)
    fields.end()
    return state


def read_over(fields: Fields) -> tuple[Dot, ...]:
    return tuple(fields.ascending(fields.count(2), fields.dot))


def read_act(fields: Fields, dot: Dot) -> Act:
    """The effect of an operation."""
    code = fields.number(1, 1, LAST_ACTS[fields.version])
    if code == ACT_CODES[Up]:
        return Up()
    if code == ACT_CODES[Down]:
        return Down(fields.node(), fields.inc())
    if code == ACT_CODES[ClaimAct]:
        return read_claim(fields, dot)
    if code == ACT_CODES[Drain]:
        return Drain(fields.origin(), fields.truth(), read_over(fields))
    key = fields.key()
    if code == ACT_CODES[Permit]:
        return Permit(key, fields.truth(), read_over(fields))
    return Start(key, read_over(fields)) if code == ACT_CODES[Start] else Stop(key, read_over(fields))


def read_claim(fields: Fields, dot: Dot) -> ClaimAct:
    at = fields.at
    app, term = fields.app(), fields.number(8, 1, MOST_NUMBER)
    how, source = fields.how_and_source()
    fields.listed(app, dot.node, at)
    return ClaimAct(app, term, how, source)


def is_operation(operation: Operation) -> bool:
    """Whether a dot and an act make an operation."""
    dot, act = operation.dot, operation.act
    is_on_self = isinstance(act, Down) and act.node == dot.node
    fits = (dot.n == 1) == isinstance(act, Up)
    return fits and not is_on_self and dot not in operation.over and len(operation.over) <= MOST_OVER


def read_operation(fields: Fields) -> Operation:
    at = fields.at
    dot = fields.dot()
    operation = Operation(dot, read_act(fields, dot))
    if not is_operation(operation):
        raise WireFault("BadNumber", at)
    return operation


def read_message(fields: Fields, kind: int) -> Message:
    sender, to, only = fields.origin(), fields.node(), fields.only(kind)
    up_to = fields.number(8, 0, MOST_NUMBER)
    ack = (fields.origin(), fields.number(8, 0, MOST_NUMBER)) if fields.truth() else None
    return Message(kind, sender, to, only, up_to, ack, None if kind == NOTHING else read_parts(fields))


def read_packet(config: Config, data: bytes) -> Packet:
    """The packet of some bytes of either version, or their first fault."""
    if len(data) > MOST_BYTES:
        raise WireFault("TooLong", MOST_BYTES)
    if data[:3] != MAGIC:
        raise WireFault("BadMagic", 0)
    if data[3:4] not in (u(1, FIRST), u(1, SECOND)):
        raise WireFault("BadVersion", 3)
    fields = Fields(config, data, 4, data[3])
    if fields.count(8) != config.mark:
        raise WireFault("OtherConfig", 4)
    kind = fields.number(1, WHOLE, SINGLE)
    found: Packet = read_operation(fields) if kind == SINGLE else read_message(fields, kind)
    fields.end()
    return found
