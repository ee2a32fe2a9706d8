#!/usr/bin/env python3
"""Random inputs of `distac sim` that are long: many ticks that change nothing, many reboots, or maps of many keys.

They are made without the model, which would take seconds to play such a script. So operations are counted here, and
only lines that are never refused are counted as operations.

Usage: python3 random_long.py KIND SEED NUMBER

Prints the input of a number. KIND is still, reboots or keys.
"""

from __future__ import annotations

import sys
from collections.abc import Callable, Sequence
from random import Random
from typing import Tuple

from check import read_config
from meaning import Dot, Key, Origin
from random_scripts import decorated
from streams import print_input
from wire import SECOND, WHOLE, Message, Writer, packet_bytes, u

Pair = Tuple[int, int]

MOST_APPS, MOST_NODES = 64, 17
MOST_KEYS = MOST_APPS * MOST_NODES
# Counts of keys near those at which a map gains a block, and the most.
EDGES = (1, 2, 11, 12, 13, 22, 23, 24, 25, 46, 47, 144, 145, 276, 277, 528, 529, 1_087, 1_088)
ORDERS = ("rising", "falling", "mixed")
# Applications' waits for a lost node. Those with equal waits are claimed at one tick.
WAITS = ((0,), (5,), (40,), (5, 5, 5, 50), (0, 7, 100))
WAITING = b",{sync_nodes_%s,[n00@h,n01@h]},{sync_nodes_timeout,30}"
GATES = (b"", b"", WAITING % b"optional", WAITING % b"mandatory")


def names(letter: bytes, count: int, end: bytes = b"") -> list[bytes]:
    return [b"%s%02d%s" % (letter, number, end) for number in range(count)]


def in_order(random: Random, pairs: Sequence[Pair]) -> list[Pair]:
    order = random.choice(ORDERS)
    return random.sample(pairs, len(pairs)) if order == "mixed" else sorted(pairs, reverse=order == "falling")


class LongMaker:
    """Makes a script of nodes n00@h, n01@h .. and applications a00, a01 .., whose names don't matter."""

    def __init__(self, random: Random, nodes: int, apps: int) -> None:
        self.random = random
        self.nodes = names(b"n", nodes, b"@h")
        self.apps = names(b"a", apps)
        self.lines: list[bytes] = []
        self.off: set[bytes] = set()
        self.operations = 0
        self.now = 0

    def config(self, lists: Sequence[bytes], gate: bytes = b"") -> bytes:
        """A configuration with a list of nodes for each application, maybe with a wait."""
        entries = b",".join(b"{%s,%s}" % it for it in zip(self.apps, lists))
        return b"[{kernel,[{distributed,[%s]}%s]}].\n" % (entries, gate)

    def some_list(self, waits: Sequence[int], least: int) -> bytes:
        """A wait, and at least so many nodes: some alone, the others in one group."""
        chosen = self.random.sample(self.nodes, self.random.randint(least, len(self.nodes)))
        alone = self.random.randint(0, len(chosen) - 1)
        groups = [*chosen[:alone], b"{%s}" % b",".join(chosen[alone:])]
        return b"%d,[%s]" % (self.random.choice(waits), b",".join(groups))

    def add(self, *words: bytes, issues: bool = False) -> None:
        """Adds a line, which may be known to issue an operation."""
        self.lines.append(b" ".join(words))
        self.operations += issues

    def boot(self, node: bytes) -> None:
        """A node that is off comes up."""
        self.add(b"boot", node, b"%d" % self.now, issues=True)
        self.off.discard(node)

    def crash(self, node: bytes) -> None:
        self.add(b"crash", node)
        self.off.add(node)

    def running(self) -> list[bytes]:
        """The running nodes, of which there is at least one."""
        return [node for node in self.nodes if node not in self.off]

    def boot_all(self) -> None:
        """All nodes come up and share it."""
        for node in self.nodes:
            self.boot(node)
        self.add(b"share")

    def show(self) -> None:
        """Pages and states of all nodes, or of two if there are many."""
        for node in self.nodes if len(self.nodes) < 6 else self.nodes[:2]:
            self.add(b"page", node)
            self.add(b"state", node)
        self.add(b"same", self.nodes[0], self.nodes[-1])

    # Ticks at which nothing changes

    def open(self) -> None:
        """All nodes start and claim all that they may."""
        self.boot_all()
        for node in self.nodes:
            for app in self.apps:
                if self.random.random() < 0.9:
                    self.add(b"start", node, app, node)
        self.add(b"share")
        for node in self.nodes:
            self.add(b"tick", node, b"%d" % self.now)
            self.add(b"share")

    def happen(self) -> None:
        """An event after which applications may be placed anew, now or after their waits."""
        one, other = self.random.choice(self.running()), self.random.choice(self.nodes)
        truth = self.random.choice((b"true", b"false"))
        roll = self.random.random()
        if other in self.off and roll < 0.6:
            self.boot(other)
            for app in self.apps:
                self.add(b"start", other, app, other)
        elif other != one and roll < 0.7:
            if other not in self.off:
                self.crash(other)
            self.add(b"down", one, other)
        elif roll < 0.9:
            self.add(b"drain", one, other, truth)
        else:
            self.add(b"permit", one, self.random.choice(self.apps), other, truth)
        if self.random.random() < 0.5:
            self.add(b"share")

    def stand_still(self, node: bytes, count: int) -> None:
        """So many ticks of one node, which hears nothing meanwhile."""
        for _ in range(count):
            self.now += self.random.choice((0, 0, 1, 1, 2, 3))
            self.add(b"tick", node, b"%d" % self.now)
            if self.random.random() < 0.03:
                other = self.random.choice(self.nodes)
                self.add(*self.random.choice(((b"page", node), (b"ship", node, other), (b"same", node, other), (b"share",))))


def still(random: Random) -> bytes:
    """An event, and then many ticks that change nothing. Waits end among them, some of several applications at once."""
    maker = LongMaker(random, random.randint(2, 5), random.randint(2, 12))
    text = maker.config([maker.some_list(random.choice(WAITS), 2) for _ in maker.apps], random.choice(GATES))
    maker.open()
    for _ in range(random.choice((2, 4, 8))):
        maker.happen()
        nodes, count = maker.running(), random.choice((20, 50, 100))
        for node in random.sample(nodes, random.choice((1, len(nodes)))):
            maker.stand_still(node, count)
    maker.add(b"share")
    maker.show()
    return text + b"--\n" + decorated(random, maker.lines)


# Reboots


def reboot(maker: LongMaker, node: bytes) -> None:
    """A node boots again, and usually the first one hears of it."""
    first = maker.nodes[0]
    maker.now += maker.random.choice((0, 1, 5))
    maker.crash(node)
    maker.boot(node)
    number = b"%d" % maker.operations
    roll = maker.random.random()
    if roll < 0.1:
        maker.add(b"start", node, maker.random.choice(maker.apps), node, issues=True)
    if node != first and roll < 0.8:
        maker.add(b"hand", first, number)
        if maker.random.random() < 0.05:
            maker.add(b"down", first, node, issues=True)


def reboots(random: Random) -> bytes:
    """One node hears of hundreds or thousands of incarnations of the others, and sometimes all share it."""
    maker = LongMaker(random, random.randint(2, 4), random.randint(1, 3))
    text = maker.config([maker.some_list((0, 5), len(maker.nodes)) for _ in maker.apps])
    maker.boot_all()
    for _ in range(random.choice((300, 1_000, 3_000))):
        reboot(maker, random.choice(maker.nodes[1:]) if random.random() < 0.998 else maker.nodes[0])
        if random.random() < 0.02:
            maker.add(b"share")
    maker.add(b"share")
    for node in maker.nodes:
        maker.add(b"tick", node, b"%d" % maker.now)
    maker.add(b"share")
    maker.show()
    return text + b"--\n" + decorated(random, maker.lines)


# Maps of many keys


class Keys:
    """Permissions or start wishes of many keys, given at one node or at two that then exchange them."""

    def __init__(self, random: Random, count: int) -> None:
        self.random = random
        self.is_again = count > 3 and random.random() < 0.3
        pairs = count // 2 if self.is_again else count
        width = random.choice([width for width in (1, 2, 5, MOST_NODES) if pairs <= width * MOST_APPS])
        self.maker = LongMaker(random, max(width, 2), -(-pairs // width))
        self.pairs = [(number // width, number % width) for number in range(pairs)]
        self.verb = random.choice((b"permit", b"start"))
        self.givers = self.maker.nodes[: random.choice((1, 2))]

    def give(self, verb: bytes, pairs: Sequence[Pair]) -> None:
        for app, node in pairs:
            truth = [self.random.choice((b"true", b"false"))] if verb == b"permit" else []
            words = (self.random.choice(self.givers), self.maker.apps[app], self.maker.nodes[node])
            self.maker.add(verb, *words, *truth, issues=True)

    def boot_again(self) -> None:
        """All nodes except those that give boot again, so that their keys are of another incarnation."""
        for node in self.maker.nodes[len(self.givers) :]:
            self.maker.crash(node)
            self.maker.boot(node)
            for giver in self.givers:
                self.maker.add(b"hand", giver, b"%d" % self.maker.operations)

    def play(self) -> None:
        """Keys arrive in one order, are given again or removed in another one, and are shared and shown."""
        self.maker.boot_all()
        self.give(self.verb, in_order(self.random, self.pairs))
        if self.is_again:
            self.boot_again()
            self.give(self.verb, in_order(self.random, self.pairs))
        self.maker.add(b"share")
        self.maker.show()
        some = self.random.sample(self.pairs, self.random.randint(0, len(self.pairs)))
        self.give(b"stop" if self.verb == b"start" else self.verb, in_order(self.random, some))
        self.maker.add(b"share")
        self.maker.show()


def forged_keys(random: Random, text: bytes, pairs: Sequence[Pair]) -> bytes:
    """A message whose state has a permission or a start wish at each pair, in this order."""
    writer, sender = Writer(SECOND), Origin(0, 1)
    head = Message(WHOLE, sender, 1, 0, 1, None, None)
    known = writer.context({sender: (len(pairs), [])})
    values = random.choice(((b"\0", b"\1"), (b"",)))
    dots = [u(4, 1) + writer.dot(Dot(0, 1, number)) + random.choice(values) for number in range(1, len(pairs) + 1)]
    stores = u(4, len(pairs)) + b"".join(writer.key(Key(*pair, 1)) + dot for pair, dot in zip(pairs, dots))
    parts = [stores, u(4, 0)] if len(values) == 2 else [u(4, 0), stores]
    return packet_bytes(read_config(text), head, SECOND) + b"".join([known, known, *parts, u(1, 0), u(2, 0), u(4, 0)])


def swapped(random: Random, pairs: Sequence[Pair]) -> list[Pair]:
    """The pairs in order, or with two of them swapped, or one of them repeated."""
    found = sorted(pairs)
    at, to = random.randrange(len(found)), random.randrange(len(found))
    roll = random.random()
    if roll < 0.4:
        found[at], found[to] = found[to], found[at]
    elif roll < 0.6:
        found.insert(to, found[at])
    return found


def keys(random: Random) -> bytes:
    """Maps of one to 1,088 keys, given in each order, and messages with as many."""
    made = Keys(random, random.choice(EDGES) if random.random() < 0.5 else random.randint(1, MOST_KEYS))
    every = b"[%s]" % b",".join(made.maker.nodes)
    text = made.maker.config([random.choice((every, b"[{%s}]" % every[1:-1])) for _ in made.maker.apps])
    made.play()
    for pairs in (in_order(random, made.pairs), swapped(random, made.pairs)):
        made.maker.add(b"feed", forged_keys(random, text, pairs).hex().encode())
    return text + b"--\n" + decorated(random, made.maker.lines)


MAKERS: dict[str, Callable[[Random], bytes]] = {"still": still, "reboots": reboots, "keys": keys}


def random_long(kind: str, seed: int, number: int) -> bytes:
    return MAKERS[kind](Random(f"{kind} {seed} {number}"))


if __name__ == "__main__":
    sys.exit(print_input("random_long.py", random_long, MAKERS))
