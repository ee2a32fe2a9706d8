"""All nodes, and the operations and messages issued. Each node has the set of operations that it heard.

A set of operations is a number: bit k stands for operation k + 1. No script is long enough to use up incarnations,
terms, counters or numbers of deltas, so their refusals are missing here.
"""

from __future__ import annotations

from contextlib import suppress
from dataclasses import dataclass, field

import placement
from check import Config
from meaning import FAILOVER, NORMAL, TAKEOVER, Act, Claim, ClaimAct, Dot, Down, Drain, Key, Meaning, Operation, Origin
from meaning import Permit, Start, Stop, Up, meaning_of
from wire import INTERVAL, MOST_OVER, NOTHING, WHOLE, Header, Message, SpelledState

MOST_DELTAS, MOST_CACHED = 256, 64

REFUSALS = (
    "Off AlreadyOn DeclaredDown UnknownApp UnknownNode OnSelf NotInList MomentBack NotLive NotStarted NotEligible NotRunning "
    "AlreadyHolder LowerPriority NotForMe UpToDate TooManyDots"
).split()


class Refused(Exception):
    """An event is refused, without effect."""

    def __init__(self, why: str) -> None:
        super().__init__(why)
        self.why = why

    def line(self) -> bytes:
        """The program's line for it."""
        return f"refused {REFUSALS.index(self.why) + 1} {self.why}".encode()


class NoSuch(Exception):
    """A number without a message or an operation: the word for it, and the number."""


def refuse(why: str, holds: bool) -> None:
    """Refuses if the cause holds."""
    if holds:
        raise Refused(why)


@dataclass(frozen=True)
class Shipped(Header):
    """A shipped message, its body as a set of operations."""

    body: int


@dataclass
class Running:
    """A running node: the set heard, the delta log, the peer table, and its moments and notes."""

    inc: int
    booted: int
    now: int
    heard: int = 0
    log: list[int] = field(default_factory=list)
    trimmed: int = 0
    acks: dict[Origin, int] = field(default_factory=dict)
    got: dict[int, tuple[int, int]] = field(default_factory=dict)
    owed: set[int] = field(default_factory=set)
    is_open: bool = False
    notes: list[tuple[int, dict[int, Claim]]] = field(default_factory=list)

    @property
    def count(self) -> int:
        """How many entries the log has."""
        return len(self.log)

    @property
    def base(self) -> int:
        """The first entry where an interval can begin."""
        return max(0, self.count - MOST_DELTAS, self.trimmed)

    def add(self, operations: int) -> bool:
        """Adds a set of operations, and returns whether the node hadn't heard all of it."""
        if operations & ~self.heard == 0:
            return False
        self.heard |= operations
        self.log.append(operations)
        return True

    def interval(self, start: int) -> int:
        """The union of the entries from a number on."""
        union = 0
        for entry in self.log[start:]:
            union |= entry
        return union

    def noted_moment(self, app: int, claim: Claim) -> int | None:
        """The moment since which each note has found its claim lost, if the last one has."""
        moment = None
        for now, lost in reversed(self.notes):
            if lost.get(app) != claim:
                break
            moment = now
        return moment


@dataclass
class Node:
    """A node: the number of its last incarnation, and its state if it runs."""

    last: int = 0
    running: Running | None = None


class World:
    """All nodes under a configuration."""

    def __init__(self, config: Config) -> None:
        self.config = config
        self.nodes = [Node() for _ in config.nodes]
        self.operations: list[Operation] = []
        self.messages: list[Shipped] = []
        self.cached: dict[int, Meaning] = {}

    # What is known

    def meaning(self, operations: int) -> Meaning:
        if operations not in self.cached:
            if len(self.cached) >= MOST_CACHED:
                self.cached.clear()
            members = [operation for at, operation in enumerate(self.operations) if operations >> at & 1]
            self.cached[operations] = meaning_of(members)
        return self.cached[operations]

    def state(self, node: int) -> Meaning:
        return self.meaning(self.running(node).heard)

    def running(self, node: int) -> Running:
        """A node, which must run."""
        running = self.nodes[node].running
        if running is None:
            raise Refused("Off")
        return running

    def is_on(self, node: int) -> bool:
        return self.nodes[node].running is not None

    def message(self, number: int) -> Message:
        """The message of a number, with its body in written form."""
        shipped = self.shipped(number)
        body = None if shipped.kind == NOTHING else SpelledState.of(self.meaning(shipped.body))
        return Message(shipped.kind, shipped.sender, shipped.to, shipped.only, shipped.up_to, shipped.ack, body)

    def shipped(self, number: int) -> Shipped:
        if not 1 <= number <= len(self.messages):
            raise NoSuch(b"message", number)
        return self.messages[number - 1]

    def issue(self, node: int, act: Act) -> int:
        """Issues an operation at a running node, and returns its number."""
        running = self.running(node)
        own = [dot.n for dot in self.state(node).known if dot[:2] == (node, running.inc)]
        self.operations.append(Operation(Dot(node, running.inc, max(own, default=0) + 1), act))
        running.add(1 << len(self.operations) - 1)
        return len(self.operations)

    # Boots and crashes

    def boot(self, node: int, now: int) -> int:
        """A node comes up. Returns the number of its operation."""
        refuse("AlreadyOn", self.is_on(node))
        self.nodes[node].last += 1
        self.nodes[node].running = Running(self.nodes[node].last, now, now)
        return self.issue(node, Up())

    def crash(self, node: int) -> None:
        """A node goes down and loses everything except the number of its incarnation."""
        self.running(node)
        self.nodes[node].running = None

    # Commands

    def active(self, node: int) -> Running:
        """A node, which must run and not have heard that it is down."""
        running = self.running(node)
        refuse("DeclaredDown", self.state(node).live(node) != running.inc)
        return running

    def down(self, node: int, about: int) -> int:
        self.active(node)
        refuse("UnknownNode", about >= len(self.nodes))
        refuse("OnSelf", about == node)
        return self.issue(node, Down(about, self.live_inc(node, about)))

    def live_inc(self, node: int, about: int) -> int:
        """A node's live incarnation, known to another one, which must exist."""
        inc = self.state(node).live(about)
        if inc is None:
            raise Refused("NotLive")
        return inc

    def key(self, node: int, app: int, about: int) -> Key:
        """The key of an application at the live incarnation of a node."""
        self.active(node)
        refuse("UnknownApp", app >= len(self.config.apps))
        refuse("UnknownNode", about >= len(self.nodes))
        refuse("NotInList", self.config.apps[app].group_of(about) is None)
        return Key(app, about, self.live_inc(node, about))

    def permit(self, node: int, app: int, about: int, value: bool) -> int:
        """A permission, which replaces all that stand at the key."""
        key = self.key(node, app, about)
        over = self.state(node).standing_permits(key)
        refuse("TooManyDots", len(over) > MOST_OVER)
        return self.issue(node, Permit(key, value, over))

    def start(self, node: int, app: int, about: int, is_stop: bool = False) -> int:
        """A start wish, which replaces all that stand at the key, or their end."""
        key = self.key(node, app, about)
        over = self.state(node).standing_starts(key)
        refuse("NotStarted", is_stop and not over)
        refuse("TooManyDots", len(over) > MOST_OVER)
        return self.issue(node, Stop(key, over) if is_stop else Start(key, over))

    def stop(self, node: int, app: int, about: int) -> int:
        """The end of all start wishes that stand at the key."""
        return self.start(node, app, about, is_stop=True)

    def drain(self, node: int, about: int, value: bool) -> int:
        """A drain or its end, which replaces all that stand at the node's live incarnation."""
        self.active(node)
        refuse("UnknownNode", about >= len(self.nodes))
        origin = Origin(about, self.live_inc(node, about))
        over = self.state(node).standing_drains(origin)
        refuse("TooManyDots", len(over) > MOST_OVER)
        return self.issue(node, Drain(origin, value, over))

    def takeover(self, node: int, app: int) -> int:
        """The node takes an application over from its holder."""
        self.active(node)
        refuse("UnknownApp", app >= len(self.config.apps))
        state, listed = self.state(node), self.config.apps[app]
        own_group = listed.group_of(node)
        if own_group is None:
            raise Refused("NotInList")
        refuse("NotEligible", not placement.is_eligible(self.config, state, app, node))
        source = placement.running_node(self.config, state, app)
        if source is None:
            raise Refused("NotRunning")
        refuse("AlreadyHolder", source == node)
        other_group = listed.group_of(source)
        refuse("LowerPriority", other_group is not None and own_group > other_group)
        return self.issue(node, ClaimAct(app, self.next_term(state, app), TAKEOVER, source))

    def next_term(self, state: Meaning, app: int) -> int:
        return state.claims[app].term + 1 if app in state.claims else 1

    # Ticks

    def tick(self, node: int, now: int) -> list[int] | str:
        """A node ticks. Returns the numbers of its claims, or `held`, or `gave up`."""
        running = self.active(node)
        refuse("MomentBack", now < running.now)
        running.now = now
        opening = "opened" if running.is_open else self.opening(running, node)
        if opening == "gave up":
            self.nodes[node].running = None
        if opening != "opened":
            return opening
        running.is_open = True
        self.note(running)
        issued = [self.claim(node, app) for app in range(len(self.config.apps))]
        return [number for number in issued if number is not None]

    def opening(self, running: Running, node: int) -> str:
        """The start gate's decision."""
        config, state = self.config, self.state(node)
        live = {other for other in range(len(self.nodes)) if state.live(other) is not None}
        if config.sync_timeout is None or config.mandatory | config.optional <= live:
            return "opened"
        if config.sync_timeout == "infinity" or running.now - running.booted < int(config.sync_timeout):
            return "held"
        return "opened" if config.mandatory <= live else "gave up"

    def note(self, running: Running) -> None:
        """Notes the moment, and the lost claim of each application that has one."""
        state = self.meaning(running.heard)
        found = {app: placement.lost_claim(state, app) for app in range(len(self.config.apps))}
        running.notes.append((running.now, {app: claim for app, claim in found.items() if claim is not None}))

    def claim(self, node: int, app: int) -> int | None:
        """Claims an application if the node should have it. Returns the operation's number if so."""
        running, state = self.running(node), self.state(node)
        found = placement.verdict(self.config, state, app)
        if placement.candidate(self.config, state, app) != node or not self.is_due(running, state, app, found):
            return None
        how, source = NORMAL, -1
        if found.what in (placement.FAILOVER, placement.TAKEOVER):
            how = FAILOVER if found.what == placement.FAILOVER else TAKEOVER
            source = state.claims[app].node
        return self.issue(node, ClaimAct(app, self.next_term(state, app), how, source))

    def is_due(self, running: Running, state: Meaning, app: int, found: placement.Verdict) -> bool:
        """Whether a verdict is due: a failover waits, unless it is to the application's last node."""
        if found.what != placement.FAILOVER:
            return True
        claim = state.claims[app]
        since = running.noted_moment(app, claim)
        return found.node == claim.node or (since is not None and running.now >= since + self.config.apps[app].timeout)

    # Messages

    def ship(self, node: int, to: int) -> int:
        """Ships everything the other node hasn't acknowledged. Returns the message's number."""
        running = self.running(node)
        refuse("UnknownNode", to >= len(self.nodes))
        refuse("OnSelf", to == node)
        life = self.state(node).lives.get(to)
        start = running.acks.get(Origin(to, life.inc)) if life is not None else None
        kind, only, body = WHOLE, 0, running.heard
        if life is not None and start is not None and start >= running.base:
            kind, only, body = INTERVAL, life.inc, running.interval(start)
            if start == running.count:
                kind = NOTHING
        refuse("UpToDate", kind == NOTHING and to not in running.owed)
        got = running.got.get(to)
        ack = None if got is None else (Origin(to, got[0]), got[1])
        self.messages.append(Shipped(kind, Origin(node, running.inc), to, only, running.count, ack, body))
        running.owed.discard(to)
        return len(self.messages)

    def hear(self, node: int, number: int) -> bool:
        """Delivers a message to a node. Returns whether it brings something new."""
        message = self.shipped(number)
        running = self.running(node)
        refuse("OnSelf", message.sender.node == node)
        refuse("NotForMe", message.to != node or message.only not in (0, running.inc))
        count = running.count
        is_new = running.add(message.body)
        if message.kind != NOTHING:
            self.get(running, message)
        if message.ack is not None and message.ack[0] == (node, running.inc) and message.ack[1] <= count:
            running.acks[message.sender] = max(running.acks.get(message.sender, 0), message.ack[1])
        self.trim(running, node)
        return is_new

    def get(self, running: Running, message: Shipped) -> None:
        """Notes a sender's position in its log, and that a reply is due."""
        peer = message.sender.node
        running.owed.add(peer)
        running.got[peer] = max(running.got.get(peer, (0, 0)), (message.sender.inc, message.up_to))

    def trim(self, running: Running, node: int) -> None:
        """Drops the entries that all other nodes have acknowledged."""
        lives = self.meaning(running.heard).lives
        others = [other for other in range(len(self.nodes)) if other != node]
        if not others or any(other not in lives for other in others):
            return
        acked = [running.acks.get(Origin(other, lives[other].inc)) for other in others]
        numbers = [number for number in acked if number is not None]
        if len(numbers) == len(others):
            running.trimmed = max(running.trimmed, min(numbers))

    def hand(self, node: int, number: int) -> bool:
        """Delivers a single operation to a node. Returns whether it is new."""
        if not 1 <= number <= len(self.operations):
            raise NoSuch(b"operation", number)
        return self.running(node).add(1 << number - 1)

    def share(self) -> int:
        """Each running node ships to every other, all is delivered at once, and the number of messages is returned."""
        on = [node for node in range(len(self.nodes)) if self.is_on(node)]
        shipped = 0
        for node in on:
            for to in on:
                if to != node:
                    shipped += self.ship_and_hear(node, to)
        return shipped

    def ship_and_hear(self, node: int, to: int) -> bool:
        """Ships to a node and delivers there, unless refused. Returns whether something was shipped."""
        try:
            number = self.ship(node, to)
        except Refused:
            return False
        with suppress(Refused):
            self.hear(to, number)
        return True
