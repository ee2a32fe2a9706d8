#!/usr/bin/env python3
"""Random inputs of `distac live` whose answers depend on the order of the threads.

Several callers of one node and of several nodes give commands in one phase, and boot and crash the same nodes. The
output of such a run isn't deterministic; racing.py lists the properties that it must have. Each script ends with two
phases without lines. In the first one each node hears of the last boots; in the second one it also hears messages that
were bound to an earlier incarnation before. So at the end each running node has heard all that any of them knows.

Usage: python3 random_racing.py SEED NUMBER

Prints the input of a number.
"""

import sys
from random import Random

from check import read_config
from live import MOST_NODES
from random_live import merged
from random_scripts import Maker, decorated, some_config, weighted
from streams import print_input
from world import World

MOST_LINES = 6
CROWD = weighted("permit 6 start 8 stop 4 drain 5 takeover 7 tick 6 read 5 down 1")
GOING = weighted("crash 4 boot 6 down 2 start 5 permit 2 stop 1 drain 2 takeover 2 tick 3 read 4")
CLAIMS = weighted("tick 9 takeover 8 start 5 stop 3 permit 3 drain 4 read 2")
PROFILES = (CROWD, CROWD, CLAIMS, CLAIMS, GOING)


class RacingMaker(Maker):
    """Makes a script phase by phase. No line is left out because of another."""

    # A moment is near the last one, so that one caller's line can come too late after another's.
    STEPS = (0, 0, 1, 10, 1000, 5000)
    BACKS = (0, 0, 0, 1, 10, 1000)

    def line(self, caller: int, node: int, verb: str) -> bytes:
        return b" ".join((b"%d" % caller, verb.encode(), self.name_of(node), *self.words(verb)))

    def arrive(self) -> None:
        """All nodes boot, usually with starts of all that they may run."""
        for node in self.nodes:
            self.lines.append(self.line(1, node, "boot"))
            for app in self.starts(node, 0.7):
                name = self.name_of(node)
                self.lines.append(b"%d start %s %s %s" % (self.random.choice((1, 1, 2)), name, app, name))

    def race(self) -> None:
        """Some callers of each node have lines at once."""
        profile = self.random.choice(PROFILES)
        most = self.random.choice((1, 2, MOST_LINES))
        said = []
        for node in self.random.sample(self.nodes, self.random.randint(1, len(self.nodes))):
            for caller in self.random.sample((1, 2, 3, 4), self.random.choice((1, 2, 3, 4))):
                count = self.random.randint(1, most)
                said.append([self.line(caller, node, self.verb(profile)) for _ in range(count)])
        self.lines += merged(self.random, said)
        if self.random.random() < 0.15:
            self.lines.append(self.feed_line(World(self.config)))

    def story(self) -> None:
        """Some phases that race, and two without lines."""
        self.arrive()
        for _ in range(self.random.choice((1, 2, 4, 8))):
            self.lines.append(b"phase")
            self.race()
        self.lines += [b"phase"] * 2


def random_racing(seed: int, number: int) -> bytes:
    random = Random(f"racing {seed} {number}")
    text = some_config(random, seed, number, lambda config: len(config.nodes) <= MOST_NODES)
    maker = RacingMaker(random, read_config(text))
    maker.story()
    return text + b"--\n" + decorated(random, maker.lines)


if __name__ == "__main__":
    sys.exit(print_input("random_racing.py", random_racing))
