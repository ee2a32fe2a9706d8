"""Forged states as bytes of the second version: well-formed, but mostly without operations that mean them.

Most come with a small world. Some are wide: their maps have more keys than fit into a block of a map.
"""

from __future__ import annotations

from collections.abc import Iterator
from random import Random

from check import Config, Fault
from meaning import Dot, Key, Origin
from random_packets import VALUES, forged_parts
from random_scripts import CALM, DRAINS, HANDS, LETTERS, ScriptMaker
from wire import SECOND, Writer, read_state, u

WORLDS = (CALM, DRAINS, HANDS, LETTERS)
TRIES = 20
# Incarnations of wide states, and the most keys of their maps.
MOST_INC = 12
WIDTHS = (0, 5, 11, 12, 13, 23, 24, 40)
# The most bytes that the program crates/growths reads.
MOST_BYTES = 4_000


def is_state(config: Config, data: bytes) -> bool:
    try:
        read_state(config, data)
    except Fault:
        return False
    return True


def wide_parts(random: Random, config: Config) -> bytes:
    """The bytes of a state with many keys, of incarnations live or not, and with dots of many origins."""
    writer, nodes = Writer(SECOND), range(len(config.nodes))
    origins = [Origin(node, inc) for node in nodes for inc in range(1, MOST_INC + 1)]
    keys = [Key(app, *origin) for app, of in enumerate(config.apps) for origin in origins if of.group_of(origin.node) is not None]
    known = {origin: (random.randint(1, 30), [40] * random.randint(0, 1)) for origin in random.sample(origins, random.randint(1, 15))}
    heard = {origin: (random.randint(1, unbroken), more) for origin, (unbroken, more) in known.items()}
    dots = [Dot(*origin, random.randint(1, unbroken)) for origin, (unbroken, _) in known.items()]

    def some(found: list[bytes], values: list[bytes]) -> bytes:
        """One or two dots at each of some keys, in order."""
        chosen = sorted(random.sample(found, min(random.choice(WIDTHS), len(found))))
        at = [sorted(random.sample(dots, min(random.choice((1, 1, 1, 2)), len(dots)))) for _ in chosen]
        rows = [b"".join(writer.dot(dot) + random.choice(values) for dot in one) for one in at]
        return u(4, len(chosen)) + b"".join(about + u(4, len(one)) + row for about, one, row in zip(chosen, at, rows))

    stores = some([writer.key(key) for key in keys], VALUES) + some([writer.key(key) for key in keys], [b""])
    drains = some([writer.origin(origin) for origin in origins], VALUES)
    lives = [u(1, node) + u(8, random.randint(1, MOST_INC)) + random.choice(VALUES) for node in nodes if random.random() < 0.8]
    return writer.context(heard) + writer.context(known) + stores + u(1, len(lives)) + b"".join(lives) + u(2, 0) + drains


def forged_states(config: Config, seed: int) -> Iterator[bytes]:
    """An endless supply of states forged with worlds; some repeat."""
    number = 0
    while True:
        number += 1
        random = Random(f"state {seed} {number}")
        maker = ScriptMaker(random, config)
        maker.open()
        maker.some(random.choice(WORLDS), random.choice((5, 20, 40)))
        for _ in range(TRIES):
            is_wide = random.random() < 0.1
            data = wide_parts(random, config) if is_wide else forged_parts(random, maker.world, Writer(SECOND))
            if len(data) <= MOST_BYTES and is_state(config, data):
                yield data
