"""`what-if` on random configurations, compared with a separate computation by the models.

Nothing is printed or read here: worlds of the models are copied, and the models' functions return their nodes'
knowledge.
"""

from __future__ import annotations

import copy
import unittest
from collections.abc import Iterable
from random import Random
from typing import Optional, Tuple

from support import distac
import placement
from check import Config, read_config
from random_clusters import random_groups
from world import Refused, World
from distac_view.answering.what_if import Question, reply_on
from distac_view.asking.inputs import check_config

COUNT = 500
PENDING = (placement.START, placement.FAILOVER, placement.MOVE, placement.TAKEOVER)
NODES = ("a@h", "b@h", "c@h", "d@h")
# the present place of an application, the next one, how it moves, after how many milliseconds, and the final place
Fate = Tuple[Optional[int], Optional[int], str, Optional[int], Optional[int]]


def random_config(random: Random) -> str:
    """A configuration of up to four nodes and five applications."""
    nodes = NODES[: random.randint(1, 4)]
    names = ["app%d" % number for number in range(random.randint(1, 5))]
    entries = ",".join(random_entry(random, name, nodes) for name in names)
    barred = ",".join("{%s,false}" % name for name in names if random.random() < 0.1)
    parts = ["{distributed,[%s]}" % entries, "{permissions,[%s]}" % barred]
    if random.random() < 0.4:
        parts.append("{sync_nodes_mandatory,[%s]}" % ",".join(random.sample(nodes, random.randint(0, len(nodes)))))
        parts.append("{sync_nodes_optional,[%s]}" % ",".join(random.sample(nodes, random.randint(0, len(nodes)))))
        parts.append("{sync_nodes_timeout,%s}" % random.choice(("0", "100", "7000", "infinity")))
    return "[{kernel,[%s]}].\n" % ",".join(parts)


def random_entry(random: Random, name: str, nodes: tuple[str, ...]) -> str:
    """An application with some of the nodes in random groups."""
    items = [group[0] if len(group) == 1 else "{%s}" % ",".join(group) for group in random_groups(random, list(nodes))]
    return "{%s,%d,[%s]}" % (name, random.choice((0, 0, 1, 100, 3000, 5000)), ",".join(items))


class Oracle:
    """The course of each application, by worlds of the models."""

    def __init__(self, config: Config, not_started: set[int]) -> None:
        self.config = config
        self.not_started = not_started
        self.apps = range(len(config.apps))
        self.longest = max([app.timeout for app in config.apps] + [config.sync_timeout if isinstance(config.sync_timeout, int) else 0])

    def opened(self) -> World:
        """All nodes are up, everything is started, one application after another, and all is at rest."""
        world = World(self.config)
        for node in range(len(self.config.nodes)):
            world.boot(node, 0)
        world.share()
        self.ticks(world, 0, 1)
        for app in self.apps:
            self.start(world, range(len(self.config.nodes)), [app])
            self.ticks(world, 0, 1)
        self.rest(world, 0)
        return world

    def start(self, world: World, nodes: Iterable[int], apps: Iterable[int]) -> None:
        """Some applications are started at some nodes."""
        for node in nodes:
            for app in apps:
                if node not in self.not_started and self.config.apps[app].group_of(node) is not None:
                    world.start(node, app, node)
        world.share()

    def ticks(self, world: World, now: int, rounds: int) -> None:
        """So many rounds at a moment."""
        for _ in range(rounds):
            for node in range(len(self.config.nodes)):
                try:
                    world.tick(node, now)
                except Refused:
                    continue
            world.share()

    def rest(self, world: World, now: int) -> None:
        """All comes to rest, long after all waits."""
        self.ticks(world, now, 1)
        self.ticks(world, now + 2 * self.longest + 1, len(self.apps) + 2)

    def verdicts(self, world: World) -> list[placement.Verdict]:
        """The verdict of each application, as the first running node sees it."""
        node = next((node for node in range(len(self.config.nodes)) if world.is_on(node)), None)
        if node is None:
            return [placement.Verdict(placement.NOBODY) for _ in self.apps]
        return [placement.verdict(self.config, world.state(node), app) for app in self.apps]

    def terms(self, world: World) -> list[int]:
        """The term of each application's greatest claim that a running node knows."""
        found = []
        for app in self.apps:
            states = [world.state(node) for node in range(len(self.config.nodes)) if world.is_on(node)]
            found.append(max((state.claims[app].term for state in states if app in state.claims), default=0))
        return found

    def places(self, world: World) -> list[int | None]:
        """The resting node of each application."""
        return [found.node if found.what in (placement.KEPT, placement.HALTED) else None for found in self.verdicts(world)]

    def fates(self, down: list[int], takes: int | None) -> list[Fate]:
        """Of each application: its place, the next one, how, after how long, and once nodes are back, the final one."""
        last = self.longest if takes is None else min(self.longest, takes - 1)
        world = self.opened()
        begin = 10 * self.longest + 10
        now = self.places(world)
        for node in down:
            world.crash(node)
        left = [node for node in range(len(self.config.nodes)) if node not in down]
        for node in down:
            if left:
                world.down(left[0], node)
        world.share()
        at_once = self.verdicts(world)
        after = [self.first_claim(world, app, begin, last) for app in self.apps]
        self.wait(world, begin, last)
        then = self.places(world)
        later = begin + (self.longest + 1 if takes is None else takes)
        for node in down:
            world.boot(node, later)
        world.share()
        self.start(world, down, self.apps)
        self.rest(world, later)
        hows = ["stays" if found.what in (placement.KEPT, placement.HALTED) else found.what for found in at_once]
        return list(zip(now, then, hows, after, self.places(world)))

    def wait(self, world: World, begin: int, milliseconds: int) -> None:
        """The remaining nodes tick at each moment, up to some milliseconds, at which a wait may end."""
        for moment in sorted({0, milliseconds, *(app.timeout for app in self.config.apps if app.timeout <= milliseconds)}):
            self.ticks(world, begin + moment, len(self.apps) + 1)

    def first_claim(self, world: World, app: int, begin: int, last: int) -> int | None:
        """The least milliseconds, up to a limit, after which an application is claimed, found by trying."""
        moments = {moment for each in self.config.apps for moment in (0, max(0, each.timeout - 1), each.timeout) if moment <= last}
        for milliseconds in sorted(moments):
            world.cached.clear()
            trial = copy.deepcopy(world)
            self.wait(trial, begin, milliseconds)
            if self.terms(trial)[app] != self.terms(world)[app]:
                return milliseconds
        return None


class WhatIf(unittest.TestCase):
    def test_random_configurations(self) -> None:
        for number in range(COUNT):
            random = Random(f"what if {number}")
            text = random_config(random)
            config = read_config(text.encode())
            nodes = [name.decode() for name in config.nodes]
            down = random.sample(nodes, 1 if random.random() < 0.7 else random.randint(1, len(nodes)))
            not_started = [node for node in nodes if random.random() < 0.1]
            takes = random.choice((None, None, 1, 50, 3000, 4000))
            with self.subTest(number=number, text=text, down=down, not_started=not_started, takes=takes):
                self.compare(config, text, down, not_started, takes)

    def compare(self, config: Config, text: str, down: list[str], not_started: list[str], takes: int | None) -> None:
        """Compares the two answers to a question."""
        names = [name.decode() for name in config.nodes]
        oracle = Oracle(config, {names.index(node) for node in not_started})
        fates = oracle.fates(sorted(names.index(node) for node in down), takes)
        named: dict[int | None, str | None] = {None: None}
        named.update(enumerate(names))
        expected = [(named[now], named[then], how, after, named[back]) for now, then, how, after, back in fates]
        reply = reply_on(distac(), check_config(distac(), "x", text.encode()), Question("x", down, not_started, takes=takes))
        answered = [(fate.now, fate.then, fate.how, fate.milliseconds, fate.back) for fate in reply.cases[0].fates]
        self.assertEqual(answered, expected)
