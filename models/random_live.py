#!/usr/bin/env python3
"""Random inputs of `distac live` whose output doesn't depend on the order of the threads, and faults of live scripts.

An answer is deterministic if it depends only on what was known when the phase began, and on earlier lines of its
caller. So a script satisfies these conditions:

- At the beginning of a phase all running nodes know the same, and can get lines. There is one exception: if the last
  running node booted again in a phase, others may have shipped to its earlier incarnation. Then a phase follows in
  which running nodes are only read.
- No other caller reads or changes the things that a line changes in its phase: whether a node runs, its life, its
  moments, whether it is drained, the permissions and start wishes of an application at a node, and the claims of an
  application.
- A node that boots in a phase only gets lines about itself there. At most one node goes down and boots again in a
  phase.
- A node goes down in a phase only before it has issued anything there, by a crash or because it gives up. If nodes
  boot, some node runs all the time, unless none ran at first. Otherwise known operations could be lost.
- In a phase with ticks at most one caller issues anything, and if lives change, no other node ticks. Every other node
  that ticks is the candidate for no application, however much it has heard of that caller's operations.

`--shuffles` tests whether that suffices, by playing each script in many orders of its threads.

Usage: python3 random_live.py SEED NUMBER
       python3 random_live.py SEED COUNT --shuffles N

The first form prints the input of a number. The second plays the inputs of all numbers below COUNT, each in N orders,
and prints the first one whose output varies.
"""

from __future__ import annotations

import argparse
import sys
from collections import defaultdict
from collections.abc import Sequence
from dataclasses import dataclass, field
from random import Random
from typing import NamedTuple, Tuple

import placement
from check import Config, read_config, spelled
from live import CALLER, CALLER_SHAPES, MOST_NODES, READ, Asked, LiveReader, Run, Thread, asked_in, run_live
from random_scripts import ODD_WORDS, PlayingMaker, decorated, odd_input, some_config, weighted, with_fault
from simulator import ACTOR, APP, NODE, NUMBER, TRUTH, VERB, ScriptFault, read_lines
from streams import printed, written
from world import World

Who = Tuple[int, int]

CROWD = weighted("permit 6 start 7 stop 3 drain 5 read 3 takeover 4 down 1 boot 2 odd 1")
GOING = weighted("crash 4 down 5 boot 4 start 3 permit 2 stop 1 drain 3 read 1 takeover 1")
LONE = weighted("tick 9 start 4 permit 3 stop 1 drain 4 takeover 4 read 1 down 1")

ODD_LIVE_WORDS = (*ODD_WORDS, *b"0 1 4 5 01 1' read phase feed ship hear page share 12345678901234567890123".split())
ODD_OF_KIND = {
    CALLER: b"0 5 01 x 1' 12345678901234567890123".split(),
    VERB: b"phase feed ship page read tick 'boot'".split(),
    ACTOR: b"zz@h zz@h 'Zz' A".split(),
    NODE: b"zz@h A 'A 1".split(),
    APP: b"zz A 'A 1".split(),
    NUMBER: b"01 -1 x 4611686018427387904 4611686018427387905".split(),
    TRUTH: b"'true' True 1".split(),
}


# The lines that a phase allows


class Thing(NamedTuple):
    """Something that lines read and change: of a node, or of an application at a node. Claims belong to no node."""

    what: str
    node: int | None
    app: int | None = None


@dataclass
class Touch:
    """The things that a line reads, and those that it changes."""

    reads: set[Thing] = field(default_factory=set)
    writes: set[Thing] = field(default_factory=set)


@dataclass
class OpenPhase:
    """A phase under construction: its lines by caller, its feeds, and their effects.

    `running` are the nodes that ran at first and still run. `stages` are the operations known at first, and then after
    each line of the only caller that issues something. A phase is closed after a node that must claim nothing has
    ticked; nothing more is issued in it.
    """

    stages: list[int]
    running: set[int] = field(default_factory=set)
    said: dict[Who, list[bytes]] = field(default_factory=dict)
    feeds: list[bytes] = field(default_factory=list)
    readers: defaultdict[Thing, set[Who]] = field(default_factory=lambda: defaultdict(set))
    writers: defaultdict[Thing, set[Who]] = field(default_factory=lambda: defaultdict(set))
    young: set[int] = field(default_factory=set)
    crashed: set[int] = field(default_factory=set)
    issuers: set[Who] = field(default_factory=set)
    claimer: Who | None = None
    is_closed: bool = False

    def is_free(self, who: Who, touch: Touch) -> bool:
        """Whether a line races no line of another caller."""
        touched = [self.writers[thing] for thing in touch.reads | touch.writes]
        touched += [self.readers[thing] for thing in touch.writes]
        return all(callers <= {who} for callers in touched)

    def add(self, who: Who, line: bytes, touch: Touch) -> None:
        self.said.setdefault(who, []).append(line)
        for thing in touch.reads:
            self.readers[thing].add(who)
        for thing in touch.writes:
            self.writers[thing].add(who)

    def may_issue(self, who: Who) -> bool:
        """Whether a caller may issue something in addition to the ticks so far."""
        return not self.is_closed and self.claimer in (None, who)

    def may_claim(self, who: Who) -> bool:
        """Whether a caller's ticks may claim: no other caller issued anything."""
        return self.may_issue(who) and self.issuers <= {who}

    def has_issued(self, node: int) -> bool:
        return any(issuer == node for issuer, _ in self.issuers)

    def may_go(self, node: int) -> bool:
        """Whether a node may go down: others also have its operations and the known ones."""
        return not self.has_issued(node) and (not self.young or self.running != {node})

    def may_come(self) -> bool:
        """Whether a node may boot: a node that runs all the time has everything known at first."""
        return bool(self.running) or not self.crashed

    def lines(self, random: Random) -> list[bytes]:
        """The lines in an order that preserves that of each caller, and that of the feeds."""
        return merged(random, [*self.said.values(), self.feeds])


def merged(random: Random, rows: Sequence[Sequence[bytes]]) -> list[bytes]:
    """The lines of all rows in an order that preserves that of each."""
    left = {at: iter(row) for at, row in enumerate(rows)}
    order = [at for at, row in enumerate(rows) for _ in row]
    random.shuffle(order)
    return [next(left[at]) for at in order]


class LiveMaker(PlayingMaker):
    """Makes a script phase by phase, with the model playing along. A line that violates a condition is left out."""

    def __init__(self, random: Random, config: Config) -> None:
        super().__init__(random, config)
        self.run = Run(config)
        self.reader = LiveReader(config)
        self.is_settled = True
        self.open = OpenPhase([])

    @property
    def world(self) -> World:
        return self.run.world

    # The conditions

    def touch(self, asked: Asked) -> Touch | None:
        """The things that a line touches, or nothing if this phase doesn't allow it."""
        node = asked.node
        if asked.word == READ:
            return Touch()
        if asked.word != b"boot" and not self.world.is_on(node):
            return Touch({Thing("on", node)})
        if not self.is_settled:
            return None
        if asked.word == b"crash":
            return Touch(set(), {Thing("on", node), Thing("moment", node)}) if self.open.may_go(node) else None
        if asked.word == b"tick":
            return self.touch_of_tick(asked)
        if not self.open.may_issue((node, asked.caller)):
            return None
        return self.touch_of_boot(node) if asked.word == b"boot" else self.touch_of_command(asked)

    def touch_of_boot(self, node: int) -> Touch | None:
        is_second_restart = node in self.open.crashed and self.open.crashed & self.open.young
        if is_second_restart or not self.open.may_come():
            return None
        return Touch(set(), {Thing("on", node), Thing("life", node), Thing("moment", node)})

    def touch_of_command(self, asked: Asked) -> Touch | None:
        node = asked.node
        if asked.word == b"takeover":
            found = self.touch_of_takeover(int(asked.values[1]))
        elif asked.word == b"down":
            is_other = asked.values[1] not in (node, len(self.config.nodes))
            found = Touch(set(), {Thing("life", int(asked.values[1]))} if is_other else set())
        elif asked.word == b"drain":
            found = self.touch_of_drain(int(asked.values[1]))
        else:
            found = self.touch_of_wish(asked.word, int(asked.values[1]), int(asked.values[2]))
        if node in self.open.young and any(thing.node != node for thing in found.reads | found.writes):
            return None
        found.reads |= {Thing("on", node), Thing("life", node)}
        return found

    def touch_of_takeover(self, app: int) -> Touch:
        """The things that a takeover touches, besides its own node."""
        if app == len(self.config.apps):
            return Touch()
        nodes = self.config.apps[app].nodes()
        of_keys = {Thing(what, node, app) for node in nodes for what in ("permit", "start")}
        of_nodes = {Thing(what, node) for node in nodes for what in ("life", "drain")}
        return Touch(of_keys | of_nodes, {Thing("claims", None, app)})

    def touch_of_drain(self, about: int) -> Touch:
        """The things that a drain touches, besides its own node."""
        if about == len(self.config.nodes):
            return Touch()
        return Touch({Thing("life", about)}, {Thing("drain", about)})

    def touch_of_wish(self, word: bytes, app: int, about: int) -> Touch:
        """The things that a permission, a start or a stop touches, besides its own node."""
        if app == len(self.config.apps) or self.config.apps[app].group_of(about) is None:
            return Touch()
        return Touch({Thing("life", about)}, {Thing("permit" if word == b"permit" else "start", about, app)})

    def touch_of_tick(self, asked: Asked) -> Touch | None:
        """The things that a tick at a running node touches."""
        node = asked.node
        found = Touch({Thing("life", other) for other in range(len(self.config.nodes))}, {Thing("moment", node)})
        found.reads.add(Thing("on", node))
        if node in self.open.young and len(self.config.nodes) > 1:
            return None
        if self.gives_up(node, int(asked.values[1])):
            found.writes.add(Thing("on", node))
            if not self.open.may_go(node):
                return None
        if self.open.may_claim((node, asked.caller)):
            found.writes |= {Thing("claims", None, app) for app in range(len(self.config.apps))}
            return found
        return found if self.is_idle(node) else None

    def gives_up(self, node: int, now: int) -> bool:
        """Whether a tick makes a node give up."""
        running = self.world.running(node)
        if running.is_open or now < running.now or self.world.state(node).live(node) != running.inc:
            return False
        before, running.now = running.now, now
        opening = self.world.opening(running, node)
        running.now = before
        return opening == "gave up"

    def is_idle(self, node: int) -> bool:
        """Whether the node claims nothing, whatever it has heard of the only caller that issues something."""
        states = [self.world.meaning(heard) for heard in self.open.stages]
        apps = range(len(self.config.apps))
        candidates = {placement.candidate(self.config, state, app) for state in states for app in apps}
        return len(self.open.issuers) <= 1 and node not in candidates

    # Lines

    def say(self, who: Who, verb: bytes, *words: bytes) -> bool:
        """Adds a line of a node's caller, unless a condition forbids it, and returns whether it does."""
        node, caller = who
        line = b" ".join((b"%d" % caller, verb, self.name_of(node), *words))
        asked = asked_in(self.reader.read(line, 1))
        touch = self.touch(asked)
        if touch is None or not self.open.is_free(who, touch):
            return False
        self.open.add(who, line, touch)
        if verb == b"tick" and self.world.is_on(node):
            self.note_tick(who)
        self.play(who, asked)
        return True

    def note_tick(self, who: Who) -> None:
        """Notes whose ticks may claim, or that nothing more is issued."""
        if self.open.may_claim(who):
            self.open.claimer = who
        else:
            self.open.is_closed = True

    def play(self, who: Who, asked: Asked) -> None:
        """Plays a line, and notes its effects."""
        was_on, count = self.world.is_on(asked.node), len(self.world.operations)
        self.run.answer(asked)
        if was_on and not self.world.is_on(asked.node):
            self.open.crashed.add(asked.node)
            self.open.running.discard(asked.node)
        if len(self.world.operations) > count:
            self.open.issuers.add(who)
            self.open.stages.append(self.world.running(asked.node).heard)
        if asked.word == b"boot" and not was_on:
            self.open.young.add(asked.node)

    def end(self) -> None:
        """Ends a phase: its lines are written, and every operation is heard."""
        self.run.phase([])
        self.lines += [*self.open.lines(self.random), b"phase"]
        on = self.on()
        self.is_settled = not on or on[-1] not in self.open.young or self.world.nodes[on[-1]].last == 1
        heard = {self.world.running(node).heard for node in on}
        if self.is_settled and len(heard) > 1:
            raise AssertionError("running nodes know different things")
        self.open = OpenPhase([*heard][:1], set(on))
        if not self.is_settled:
            self.rest()

    # Lines of a kind

    def who(self, node: int) -> Who:
        return node, self.random.choice((1, 1, 1, 2, 2, 3, 4))

    def usual(self) -> Who:
        return self.who(self.usual_node())

    def line(self, who: Who, verb: str) -> None:
        self.say(who, verb.encode(), *self.words(verb))

    def any_line(self, profile: dict[str, int]) -> None:
        """A line of a profile, of any caller."""
        verb, off = self.verb(profile), self.off()
        if verb == "boot" and off and self.random.random() < 0.9:
            self.come(self.random.choice(off))
        elif verb == "odd":
            self.line(self.who(self.random.choice(self.nodes)), self.random.choice(("tick", "crash", "down", "boot")))
        else:
            self.line(self.usual(), verb)

    def come(self, node: int) -> None:
        """A node boots, and usually starts all that it may run."""
        who = self.who(node)
        if self.say(who, b"boot", self.moment()):
            for app in self.starts(node, 0.6):
                self.say(who, b"start", app, self.name_of(node))

    # Phases

    def arrive(self) -> None:
        """Nodes boot."""
        for node in self.off():
            if self.random.random() < 0.85:
                self.come(node)
        self.end()

    def crowd(self) -> None:
        """Many callers have lines."""
        profile = self.random.choice((CROWD, CROWD, GOING))
        for _ in range(self.random.choice((2, 5, 10, 20))):
            self.any_line(profile)
        self.end()

    def candidates(self) -> list[int]:
        """The running nodes that should claim something."""
        on = self.on()
        if not on:
            return []
        state = self.world.state(on[0])
        found = {placement.candidate(self.config, state, app) for app in range(len(self.config.apps))}
        return [node for node in on if node in found]

    def claimer(self) -> Who:
        """A caller of a node that should claim something, usually."""
        candidates = self.candidates()
        chosen = candidates and self.random.random() < 0.85
        return self.who(self.random.choice(candidates) if chosen else self.usual_node())

    def tick(self, who: Who) -> None:
        """A tick alone in its phase."""
        self.line(who, "tick")
        self.end()

    def lone(self) -> None:
        """One caller has many lines, usually ticks. Other nodes only tick."""
        who = self.claimer()
        self.line(who, "tick")
        for _ in range(self.random.choice((0, 0, 1, 4, 8))):
            self.line(who, self.verb(LONE))
        for node in self.on():
            if self.random.random() < 0.5:
                self.line(self.who(node), "tick")
        if self.random.random() < 0.15:
            self.line(self.usual(), self.random.choice(("crash", "read")))
        self.end()

    def some_holder(self) -> int:
        """A node, usually one that runs an application."""
        return self.holder() if self.random.random() < 0.8 else self.usual_node()

    def few(self, *counts: int) -> None:
        """So many lines of many callers, which end a phase."""
        for _ in range(self.random.choice(counts)):
            self.any_line(CROWD)
        self.end()

    def loss(self) -> None:
        """A node goes down, usually a holder. The others learn of it and tick, or it comes back, or both."""
        node = self.some_holder()
        self.line(self.who(node), "crash")
        self.few(0, 0, 3, 6)
        others = [other for other in self.on() if other != node]
        if others and self.random.random() < 0.7:
            self.say(self.who(self.random.choice(others)), b"down", self.name_of(node))
            self.end()
            for other in self.random.choices(others, k=self.random.choice((1, 2, 3, 4))):
                self.tick(self.who(other))
        if self.random.random() < 0.6:
            self.come_back(node)

    def drained(self) -> None:
        """A node is drained, usually one that runs an application. Others take over or tick, and the drain may end."""
        node = self.some_holder()
        self.say(self.usual(), b"drain", self.name_of(node), b"true")
        self.few(0, 0, 3)
        if self.random.random() < 0.5:
            self.line(self.usual(), "takeover")
            self.end()
        for _ in range(self.random.choice((1, 2, 3))):
            self.tick(self.claimer())
        if self.random.random() < 0.4:
            self.say(self.usual(), b"drain", self.name_of(node), b"false")
        elif self.random.random() < 0.5:
            self.line(self.who(node), "crash")
        self.end()

    def come_back(self, node: int) -> None:
        """A node comes back, and its next lines are about others that it had forgotten."""
        if not self.world.is_on(node):
            self.come(node)
            self.end()
        for _ in range(self.random.choice((0, 1, 3))):
            self.line(self.who(node), self.random.choice(("start", "permit", "stop", "drain", "takeover", "down")))
        self.end()

    def rest(self) -> None:
        """Running nodes are only read."""
        for _ in range(self.random.choice((0, 1, 3))):
            self.line(self.who(self.random.choice(self.nodes)), self.random.choice(("read", "read", "tick", "start", "crash")))
        self.end()

    def story(self) -> None:
        self.arrive()
        for _ in range(self.random.choice((0, 1, 3, 6, 9))):
            if self.random.random() < 0.15:
                self.open.feeds.append(self.feed_line(self.world))
            crowds, losses = (self.crowd, self.crowd, self.arrive), (self.loss, self.loss, self.drained, self.drained)
            self.random.choice((*crowds, self.lone, self.lone, self.lone, *losses))()


# Whole inputs


def live_config(random: Random, seed: int, number: int) -> bytes:
    """A configuration to run. Few have too many nodes, and then not by much."""
    nodes = range(MOST_NODES + 1, 17) if random.random() < 0.1 else range(1, MOST_NODES + 1)
    return some_config(random, seed, number, lambda config: len(config.nodes) in nodes)


def odd_line(random: Random, config: Config) -> bytes:
    """A line with an odd word or two, or with a word too few or too many."""
    if random.random() < 0.15:
        return b"feed" + random.choice((b"", b" 0", b" 0g", b" 0A", b" '00'", b" 00 00"))
    verb = random.choice([*CALLER_SHAPES])
    kinds = (CALLER, VERB, *CALLER_SHAPES[verb])
    usual = {CALLER: b"2", VERB: verb, APP: spelled(config.apps[0].name), NUMBER: b"7", TRUTH: b"true"}
    words = [usual.get(kind, spelled(config.nodes[-1])) for kind in kinds]
    for at in random.sample(range(len(words)), random.choice((0, 1, 1, 2))):
        words[at] = random.choice(ODD_OF_KIND[kinds[at]])
    if random.random() < 0.15:
        at = random.randrange(len(words) + 1)
        words[at : at + 1] = [b"7"] * random.choice((0, 2))
    return b" ".join(words)


def with_odd_line(random: Random, lines: list[bytes], config: Config) -> list[bytes]:
    at = random.randint(0, len(lines))
    return [*lines[:at], odd_line(random, config), *lines[at:]]


def is_faulty(config: Config, lines: list[bytes]) -> bool:
    try:
        read_lines(LiveReader(config), b"\n".join(lines))
    except ScriptFault:
        return True
    return False


def random_live(seed: int, number: int) -> bytes:
    random = Random(f"live {seed} {number}")
    text = live_config(random, seed, number)
    config = read_config(text)
    maker = LiveMaker(random, config)
    maker.story()
    lines = maker.lines[:-1]
    roll = random.random()
    if roll < 0.14 and lines:
        is_changed = roll < 0.07
        changed = with_fault(random, lines, ODD_LIVE_WORDS) if is_changed else with_odd_line(random, lines, config)
        lines = changed if is_faulty(config, changed) else lines
    script = decorated(random, lines)
    return odd_input(random, text, script) if roll > 0.98 else text + b"--\n" + script


# Orders


class Paces:
    """Chooses among threads, some of which are much quicker than others."""

    def __init__(self, random: Random) -> None:
        self.random = random
        self.paces: dict[Thread, float] = {}

    def __call__(self, threads: list[Thread]) -> Thread:
        weights = [self.paces.setdefault(thread, self.random.choice((0.001, 0.1, 1.0, 30.0))) for thread in threads]
        return self.random.choices(threads, weights)[0]


def outputs(source: bytes, orders: int, seed: int) -> set[bytes]:
    """The outputs for an input in some orders of its threads."""
    shuffles = [run_live(source, Paces(Random(f"order {seed} {order}"))) for order in range(orders)]
    return {output for output, _ in (run_live(source), *shuffles)}


def show_outputs(source: bytes, found: set[bytes]) -> None:
    """Prints an input and two of its outputs."""
    print(source.decode(errors="backslashreplace"))
    for output in sorted(found)[:2]:
        print("an output:")
        print(output.decode(errors="backslashreplace"))


def play_shuffled(seed: int, count: int, orders: int) -> int:
    """Plays many inputs in many orders each, and counts those whose output varies."""
    changing = 0
    for number in range(count):
        source = random_live(seed, number)
        found = outputs(source, orders, number)
        if len(found) > 1 and not changing:
            print(f"live {number}, whose output isn't always the same:")
            show_outputs(source, found)
        changing += len(found) > 1
    print(f"{count} live scripts in {orders} orders each, {changing} with more than one output")
    return changing


def main() -> int:
    """Prints an input, or plays many in many orders."""
    parser = argparse.ArgumentParser(description="Random inputs of `distac live`.")
    parser.add_argument("seed", type=int)
    parser.add_argument("number", type=int, help="which input, or how many with --shuffles")
    parser.add_argument("--shuffles", type=int, default=0, help="in how many orders of its threads each is played")
    words = parser.parse_args()
    if words.shuffles:
        return 1 if play_shuffled(words.seed, words.number, words.shuffles) else 0
    return written("random_live.py", random_live(words.seed, words.number), 0)


if __name__ == "__main__":
    sys.exit(printed("random_live.py", main))
