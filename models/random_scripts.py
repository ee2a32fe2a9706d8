#!/usr/bin/env python3
"""Random inputs of `distac sim`: scripts that reach every verb and refusal, and faults of scripts and of bytes.

A script is made line after line, and the model plays along, so that the next line can be one that does something. The same
seed and number give the same input.

Usage: python3 random_scripts.py SEED NUMBER
"""

from __future__ import annotations

import sys
from collections.abc import Callable, Iterator, Sequence
from random import Random

from check import MOST_INPUT, Config, ConfigFault, read_config, spelled
from random_packets import changed_bytes, random_packet
from random_texts import random_text
from simulator import LineReader, Player
from streams import print_input
from world import World

CONFIGS = (
    b"[{kernel,[{distributed,[{myapp,5000,[cp1@cave,{cp2@cave,cp3@cave}]}]},"
    b"{sync_nodes_mandatory,[cp2@cave,cp3@cave]},{sync_nodes_timeout,5000}]}].\n",
    b"[{kernel,[{distributed,[{a,5000,[c1@h,{c2@h,c3@h}]},{b,[c2@h]}]}]}].\n",
    b"[{kernel,[{distributed,[{a,[c1@h,{c2@h,c3@h}]}]}]}].\n",
    b"[{kernel,[{distributed,[{a,10,[{x,y,z}]},{b,[{x,y},z]},{c,[z,{y,x}]},{d,0,[y,x]}]},{permissions,[{c,false}]}]}].\n",
    b"[{kernel,[{distributed,[{a,[x,y,z]},{b,[{z,y}]}]},{sync_nodes_mandatory,[x]},{sync_nodes_optional,[y,'W w']},"
    b"{sync_nodes_timeout,100}]}].\n",
    b"[{kernel,[{distributed,[{a,7,[x,{y,z}]},{'B',[y,x]}]},{sync_nodes_optional,[x,y]},"
    b"{sync_nodes_timeout,infinity}]}].\n",
    b"[{kernel,[{distributed,[{a,[x]}]}]}].\n",
    b"[{kernel,[{distributed,[{a,[{x,y}]},{b,[{x,y}]},{c,[{x,y}]},{d,[y,x]},{e,3,[x,y]}]}]}].\n",
)


def weighted(text: str) -> dict[str, int]:
    """Verbs with their weights, from a text that lists them in turn."""
    words = text.split()
    return {verb: int(weight) for verb, weight in zip(words[::2], words[1::2])}


CALM = weighted("share 10 tick 16 start 6 stop 2 permit 3 drain 4 crash 1 boot 1 down 2 takeover 4 page 2")
LETTERS = weighted("ship 14 hear 18 start 4 permit 3 drain 2 boot 1 crash 1 tick 4 bytes 2 down 1 same 1")
HANDS = weighted("hand 16 start 6 stop 4 permit 6 drain 6 page 3 state 2 ship 3 hear 3 boot 1 tick 1")
FEEDS = weighted("feed 16 start 3 permit 3 drain 3 tick 2 ship 3 bytes 3 share 1")
PAUSES = weighted("tick 24 crash 2 down 2 boot 1 share 8 start 4 stop 1 permit 2 drain 2 page 2 takeover 1")
BURST = weighted("permit 4 drain 2 start 4")
DRAINS = weighted("drain 16 tick 12 share 8 start 3 permit 1 stop 1 takeover 4 crash 1 boot 1 hand 2 page 3 state 1")
ALL = dict.fromkeys(
    "boot crash down permit start stop drain takeover tick ship hear hand share page state same bytes feed".split(), 1
)
PROFILES = (CALM, CALM, LETTERS, LETTERS, HANDS, FEEDS, FEEDS, PAUSES, PAUSES, DRAINS, ALL)

FEW_NODES = 8
PACKETS = 500

ODD_WORDS = (
    *b"'true' True 01 -1 4611686018427387904 4611686018427387905 99999999999999999999999 1x fun 'fun' Zz ' '' 'a'b'".split(),
    *(b"'\\'", b"a\t", b"zz@h", b"\r", b"%", b"0A", b"abc", b"0g", b"boot", b"'boot'", b"live", b"c1@h", b"true"),
    *(b"\xc3\xa9", b"'\xc3\xa9'"),
)


class Maker:
    """Makes lines under a configuration, with words chosen at random. A name with a space can't be one of them."""

    # The steps from moment to moment, and how far one can fall back behind the last one.
    STEPS: tuple[int, ...] = (0, 0, 1, 3, 7, 10, 100, 999, 1000, 4999, 5000)
    BACKS: tuple[int, ...] = (0,) * 46 + (1, 1, 100, 100)

    def __init__(self, random: Random, config: Config) -> None:
        self.random = random
        self.config = config
        self.nodes = [node for node, name in enumerate(config.nodes) if b" " not in name]
        self.apps = [app for app in config.apps if b" " not in app.name]
        self.lines: list[bytes] = []
        self.now = 0

    def name_of(self, node: int) -> bytes:
        return spelled(self.config.nodes[node])

    def usual_node(self) -> int:
        return self.random.choice(self.nodes)

    def about(self, listed: Sequence[int] = ()) -> bytes:
        """The node that a line is about: usually one of these, rarely an unknown one."""
        roll = self.random.random()
        if roll < 0.03:
            return self.random.choice((b"zz@h", b"'Zz'"))
        return self.name_of(self.random.choice(listed if listed and roll < 0.9 else self.nodes))

    def pair(self) -> tuple[bytes, bytes]:
        """An application, rarely an unknown one, and a node, usually of its list."""
        if not self.apps or self.random.random() < 0.02:
            return b"zz", self.about()
        app = self.random.choice(self.apps)
        return spelled(app.name), self.about([node for node in app.nodes() if node in self.nodes])

    def truth(self) -> bytes:
        """A truth value, usually the one that stops something."""
        return self.random.choice((b"true", b"true", b"false"))

    def moment(self) -> bytes:
        """A moment, usually later than the previous one."""
        self.now += self.random.choice(self.STEPS)
        return b"%d" % max(0, self.now - self.random.choice(self.BACKS))

    def words(self, verb: str) -> Sequence[bytes]:
        """The words of a line after its node."""
        if verb == "permit":
            return (*self.pair(), self.truth())
        if verb in ("start", "stop"):
            return self.pair()
        if verb == "takeover":
            return self.pair()[:1]
        if verb == "drain":
            return self.about([self.usual_node()]), self.truth()
        if verb == "down":
            return (self.about(),)
        return (self.moment(),) if verb in ("boot", "tick") else ()

    def starts(self, node: int, rate: float) -> Iterator[bytes]:
        """The applications that a node may run, each at this rate."""
        for app in self.apps:
            if app.group_of(node) is not None and self.random.random() < rate:
                yield spelled(app.name)

    def verb(self, profile: dict[str, int]) -> str:
        return self.random.choices(list(profile), list(profile.values()))[0]

    def feed_line(self, world: World) -> bytes:
        """A line with the bytes of a packet, usually with a small change."""
        data = random_packet(self.random, world)
        for _ in range(self.random.choice((0, 0, 1, 1, 1, 2))):
            data = changed_bytes(self.random, data)
        return b"feed " + (data or b"D").hex().encode()


class PlayingMaker(Maker):
    """Makes lines that do something, because a model plays along."""

    @property
    def world(self) -> World:
        raise NotImplementedError

    def on(self) -> list[int]:
        """The nodes that run."""
        return [node for node in self.nodes if self.world.is_on(node)]

    def off(self) -> list[int]:
        return [node for node in self.nodes if not self.world.is_on(node)]

    def usual_node(self) -> int:
        """A node, usually a running one."""
        on = self.on()
        return self.random.choice(on if on and self.random.random() < 0.94 else self.nodes)

    def words(self, verb: str) -> Sequence[bytes]:
        """The words of a line after its node. Reports are usually true."""
        off = self.off() if verb == "down" else []
        return (self.about(off),) if off and self.random.random() < 0.8 else super().words(verb)

    def holder(self) -> int:
        """A running node that holds an application according to the first one, or a usual node."""
        on = self.on()
        claims = [claim for node in on[:1] for claim in self.world.state(node).claims.values()]
        holders = sorted({claim.node for claim in claims}.intersection(on))
        return self.random.choice(holders) if holders else self.usual_node()


class ScriptMaker(PlayingMaker):
    """Makes a script, with the model playing along."""

    def __init__(self, random: Random, config: Config) -> None:
        super().__init__(random, config)
        self.player = Player(config)
        self.reader = LineReader(config)

    @property
    def world(self) -> World:
        return self.player.world

    def add(self, *words: bytes) -> None:
        """Adds a line and plays it."""
        line = b" ".join(words)
        self.lines.append(line)
        self.player.play(self.reader.read(line, 1))

    # Lines

    def node(self) -> bytes:
        """A node, usually a running one."""
        return self.name_of(self.usual_node())

    def line(self, verb: str) -> None:
        if verb in ("boot", "crash", "hear"):
            {"boot": self.boot, "crash": self.crash, "hear": self.hear}[verb]()
        elif verb == "feed":
            self.add(*self.feed_line(self.world).split())
        elif verb in ("share", "bytes"):
            self.add(verb.encode(), *self.words(verb))
        else:
            self.add(verb.encode(), self.node(), *self.words(verb))

    def words(self, verb: str) -> Sequence[bytes]:
        """The words of a line after its node."""
        if verb in ("hand", "bytes"):
            count = len(self.world.operations) if verb == "hand" else len(self.world.messages)
            return (self.number_near(count),)
        if verb == "ship":
            return (self.about(),)
        return (self.node(),) if verb == "same" else super().words(verb)

    def boot(self) -> None:
        """A boot, usually of a node that is off."""
        off = self.off() if self.random.random() < 0.9 else []
        self.add(b"boot", self.name_of(self.random.choice(off or self.nodes)), self.moment())

    def revive(self) -> None:
        """A node that is off comes up, usually with start wishes for all that it may run."""
        off = self.off()
        if not off:
            return
        node = self.random.choice(off)
        self.add(b"boot", self.name_of(node), self.moment())
        if self.random.random() < 0.6:
            self.start_all(node, 0.9)
        if self.random.random() < 0.5:
            self.add(b"share")

    def start_all(self, node: int, rate: float) -> None:
        for app in self.starts(node, rate):
            self.add(b"start", self.name_of(node) if self.world.is_on(node) else self.node(), app, self.name_of(node))

    def crash(self) -> None:
        """A crash, sometimes followed by its report."""
        node = self.node()
        self.add(b"crash", node)
        if self.random.random() < 0.5:
            self.add(b"down", self.node(), node)

    def number_near(self, count: int) -> bytes:
        """A number up to a count, usually near it."""
        roll = self.random.random()
        if count == 0 or roll < 0.02:
            return b"%d" % self.random.choice((0, count + 1, 2**62))
        return b"%d" % self.random.randint(max(1, count - 5) if roll < 0.7 else 1, count)

    def hear(self) -> None:
        """A delivery, usually to the message's receiver."""
        number = self.number_near(len(self.world.messages))
        node = self.name_of(self.random.choice(self.nodes))
        if 1 <= int(number) <= len(self.world.messages) and self.random.random() < 0.92:
            node = self.name_of(self.world.shipped(int(number)).to)
        self.add(b"hear", node, number)

    # Whole scripts

    def open(self) -> None:
        """Nodes come up, and usually start and share all that they may."""
        for node in self.nodes:
            if self.random.random() < 0.85:
                self.add(b"boot", self.name_of(node), b"%d" % self.now)
        if self.random.random() < 0.5:
            self.add(b"share")
        for node in self.nodes:
            self.start_all(node, 0.8)
        if self.random.random() < 0.7:
            self.add(b"share")

    def some(self, profile: dict[str, int], count: int) -> None:
        for _ in range(count):
            if self.random.random() < 0.25 * len(self.off()) / len(self.nodes):
                self.revive()
            self.line(self.verb(profile))

    def close(self) -> None:
        """Shows everything."""
        for node in self.nodes:
            self.add(b"page", self.name_of(node))
            self.add(b"state", self.name_of(node))
        self.add(b"bytes", b"%d" % len(self.world.messages))

    def tick_all(self) -> None:
        """All nodes tick, and all is shared: once if there are many nodes."""
        for node in self.nodes:
            self.add(b"tick", self.name_of(node), self.moment())
            if len(self.nodes) <= FEW_NODES or node == self.nodes[-1]:
                self.add(b"share")

    def burst(self, count: int) -> None:
        """Many commands at one node, which then drops its oldest deltas."""
        node = self.node()
        for _ in range(count):
            verb = self.verb(BURST)
            self.add(verb.encode(), node, *self.words(verb))

    def deliver(self, *path: bytes) -> None:
        """A message from each of these nodes to the next one."""
        for sender, receiver in zip(path, path[1:]):
            self.add(b"ship", sender, receiver)
            self.add(b"hear", receiver, b"%d" % len(self.world.messages))

    def exchange(self, count: int) -> None:
        """Ships and deliveries, some of them lost, doubled or late."""
        for _ in range(count):
            self.line("ship")
            for _ in range(self.random.choice((0, 1, 1, 1, 2))):
                self.line("hear")


def usual(maker: ScriptMaker) -> None:
    """A script of one profile, or of several in turn."""
    maker.open()
    for _ in range(maker.random.choice((1, 1, 2, 3))):
        maker.some(maker.random.choice(PROFILES), maker.random.choice((5, 20, 40)))
    maker.close()


def dropped_fronts(maker: ScriptMaker) -> None:
    """Acknowledgements, then about as many deltas as are kept or more, and ships again."""
    maker.open()
    maker.exchange(8)
    for _ in range(maker.random.choice((1, 2))):
        maker.burst(maker.random.choice((120, 245, 255, 256, 257, 270)))
        maker.exchange(6)
        maker.some(LETTERS, 10)
    maker.close()


def standing_dots(maker: ScriptMaker) -> None:
    """Some standing starts of one key, or drains of one node, each of another incarnation."""
    standing(maker, maker.random.choice((3, 20, 50)))


def very_many_standing_dots(maker: ScriptMaker) -> None:
    """As many standing starts or drains as can be replaced, or one more. Such a script takes the program long."""
    standing(maker, maker.random.choice((1023, 1024, 1025, 1026)))


def standing(maker: ScriptMaker, count: int) -> None:
    """So many standing starts of one key, or drains of one node, and a line that replaces them."""
    first, other = maker.name_of(maker.nodes[0]), maker.name_of(maker.nodes[-1])
    apps = [spelled(app.name) for app in maker.apps if app.group_of(maker.nodes[0]) is not None]
    if not apps or first == other:
        usual(maker)
        return
    is_drain = maker.random.random() < 0.5

    def say(node: bytes, verb: bytes) -> None:
        maker.add(*((b"drain", node, first, maker.truth()) if is_drain else (verb, node, apps[0], first)))

    maker.add(b"boot", first, b"0")
    said = []
    for _ in range(count):
        maker.add(b"boot", other, b"0")
        maker.add(b"hand", other, b"1")
        say(other, b"start")
        said.append(len(maker.world.operations))
        maker.add(b"crash", other)
    for number in said:
        maker.add(b"hand", first, b"%d" % number)
    maker.add(b"page", first)
    say(first, maker.random.choice((b"start", b"stop")))
    maker.add(b"page", first)


def edge_of_buffer(maker: ScriptMaker) -> None:
    """An acknowledgement, then as many deltas as are kept, or one more or less, and a ship."""
    words = [(spelled(app.name), node) for app in maker.apps for node in app.nodes() if node in maker.nodes]
    if not words or len(maker.nodes) == 1:
        usual(maker)
        return
    app, node = maker.random.choice(words)
    first, other = maker.name_of(node), maker.name_of(maker.nodes[maker.nodes.index(node) - 1])
    for name in (first, other):
        maker.add(b"boot", name, b"0")
    command = maker.random.choice(((b"permit", first, app, first), (b"drain", first, other)))
    maker.deliver(first, other, first, other, first)
    for _ in range(maker.random.choice((254, 255, 256, 257, 258))):
        maker.add(*command, maker.truth())
    maker.deliver(first, other)
    maker.add(b"same", first, other)


def disputes(maker: ScriptMaker) -> None:
    """Permits, starts and drains of one key and its node, at several nodes without exchange, and then a share."""
    maker.open()
    maker.add(b"share")
    for _ in range(maker.random.randint(2, 6)):
        app, about = maker.pair()
        for node in maker.nodes:
            verb = maker.random.choice((b"permit", b"permit", b"start", b"stop", b"drain", b"drain"))
            words = {b"permit": (app, about, maker.truth()), b"drain": (about, maker.truth())}
            maker.add(verb, maker.name_of(node), *words.get(verb, (app, about)))
        maker.add(b"share")
        maker.line("page")
        maker.some(CALM, 4)
    maker.close()


def rebooted_holders(maker: ScriptMaker) -> None:
    """Applications of tuples are claimed, some holders boot again, and the others are placed anew."""
    maker.open()
    for _ in range(maker.random.randint(1, 4)):
        maker.tick_all()
        node = maker.random.choice(maker.nodes)
        maker.add(b"crash", maker.name_of(node))
        maker.add(b"boot", maker.name_of(node), maker.moment())
        maker.start_all(node, 0.6)
        maker.add(b"share")
        for other in maker.nodes:
            maker.add(b"page", maker.name_of(other))
    maker.close()


def drained_holders(maker: ScriptMaker) -> None:
    """Applications are claimed, some holders are drained, undrained or booted again, and all is placed anew."""
    maker.open()
    for _ in range(maker.random.randint(1, 4)):
        maker.tick_all()
        holder = maker.name_of(maker.holder())
        maker.add(b"drain", maker.node(), holder, b"true")
        if maker.random.random() < 0.3:
            maker.add(b"drain", maker.node(), holder, b"false")
        maker.add(b"share")
        for _ in range(maker.random.choice((0, 1, 2))):
            maker.line("takeover")
        maker.line("page")
        maker.tick_all()
        roll = maker.random.random()
        if roll < 0.4:
            maker.add(b"drain", maker.node(), holder, b"false")
        else:
            maker.add(b"crash", holder)
            maker.add(*((b"boot", holder, maker.moment()) if roll < 0.7 else (b"down", maker.node(), holder)))
            maker.add(b"share")
        maker.line("start")
        maker.add(b"share")
        maker.line("page")
    maker.close()


def quiet(maker: ScriptMaker) -> None:
    """Two nodes exchange all until nothing is left to ship, then go on."""
    maker.open()
    for _ in range(maker.random.randint(2, 6)):
        maker.add(b"share")
    maker.some(CALM, 10)
    maker.exchange(10)
    maker.some(LETTERS, 30)
    maker.close()


# Around the script


def decorated(random: Random, lines: list[bytes]) -> bytes:
    """The lines as a script, some with more spaces, some with comments or empty lines between them."""
    found: list[bytes] = []
    for line in lines:
        roll = random.random()
        if roll < 0.02:
            line = b" " + line.replace(b" ", b"  ") + b" "
        elif roll < 0.04:
            found.append(random.choice((b"", b"% note", b"%")))
        found.append(line)
    return b"\n".join(found) + random.choice((b"", b"\n", b"\n\n"))


def near_word(random: Random, word: bytes) -> bytes:
    """A word similar to the given one."""
    return random.choice((b"0" + word, b"'%s'" % word, word + b"0", word.upper(), word[:-1] or b"+", b"+" + word, word + b"'"))


def with_fault(random: Random, lines: list[bytes], odd_words: tuple[bytes, ...] = ODD_WORDS) -> list[bytes]:
    """The lines, usually with a fault in one."""
    at = random.randrange(len(lines))
    words = lines[at].split(b" ")
    place = random.randrange(len(words) + 1)
    roll = random.randrange(6)
    if roll >= 4:
        words[-1] = near_word(random, words[-1])
    elif roll == 0:
        words = words[:place] + words[place + 1 :]
    elif roll == 1:
        words.insert(place, random.choice(odd_words))
    elif roll == 2:
        words[place : place + 1] = [random.choice(odd_words)]
    else:
        words = [random.choice(odd_words) if random.random() < 0.5 else word for word in words]
    return [*lines[:at], b" ".join(words) or b" ", *lines[at + 1 :]]


def odd_input(random: Random, text: bytes, script: bytes) -> bytes:
    """An input with a fault outside the script, or nearly."""
    mark = random.choice((b"", b"-- \n", b"--\r\n", b" --\n", b"---\n", b"--", b"--\n--\n", b"--\n\n--\n"))
    choices: tuple[Callable[[], bytes], ...] = (
        lambda: text + mark + script,
        lambda: script,
        lambda: b"--\n" + script,
        lambda: text + b"--",
        lambda: text[: random.randrange(len(text))] + b"\n--\n" + script,
        lambda: text.rstrip(b"\n") + b"--\n" + script,
        lambda: text + b"--\n" + script + b"\n%" + b" " * (MOST_INPUT - len(text) - len(script) - 5 + random.randint(-1, 2)),
    )
    return random.choice(choices)()


def some_config(random: Random, seed: int, number: int, is_chosen: Callable[[Config], bool]) -> bytes:
    """A configuration to play with: one of those above, or any small valid one that is chosen."""
    for other in range(40 if random.random() < 0.3 else 0):
        text = random_text(seed, -1 - number * 40 - other)
        try:
            config = read_config(text)
        except ConfigFault:
            continue
        is_small = len(text) < 4_000 and len(config.apps) < 12 and b"--" not in text
        if is_small and any(b" " not in name for name in config.nodes) and is_chosen(config):
            return text + b"\n"
    return random.choice(CONFIGS)


KINDS: tuple[tuple[Callable[[ScriptMaker], None], int], ...] = (
    (usual, 5_495),
    (quiet, 800),
    (dropped_fronts, 300),
    (standing_dots, 300),
    (edge_of_buffer, 400),
    (disputes, 900),
    (rebooted_holders, 900),
    (drained_holders, 900),
    (very_many_standing_dots, 5),
)


def random_script(seed: int, number: int) -> bytes:
    random = Random(f"script {seed} {number}")
    text = some_config(random, seed, number, lambda _: True)
    maker = ScriptMaker(random, read_config(text))
    kinds, weights = zip(*KINDS)
    random.choices(kinds, weights)[0](maker)
    lines = maker.lines
    roll = random.random()
    if roll < 0.12 and lines:
        lines = with_fault(random, lines)
    script = decorated(random, lines)
    return odd_input(random, text, script) if roll > 0.98 else text + b"--\n" + script


def random_packets(seed: int, number: int) -> bytes:
    """A script that feeds PACKETS packets, after a world has grown as their source."""
    random = Random(f"packets {seed} {number}")
    text = random.choice(CONFIGS)
    maker = ScriptMaker(random, read_config(text))
    maker.open()
    maker.some(random.choice((CALM, LETTERS, HANDS, DRAINS)), random.choice((5, 20, 40)))
    return text + b"--\n" + b"\n".join(maker.lines + [maker.feed_line(maker.world) for _ in range(PACKETS)])


if __name__ == "__main__":
    sys.exit(print_input("random_scripts.py", random_script))
