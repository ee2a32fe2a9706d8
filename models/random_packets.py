"""Random packets as bytes of both versions: real ones, forged ones, and changed ones."""

from __future__ import annotations

from collections.abc import Callable
from random import Random

from meaning import Act, Claim, ClaimAct, Dot, Down, Drain, Key, Meaning, Operation, Origin, Permit, Start, Stop, Up
from wire import FIRST, INTERVAL, MOST_NUMBER, NOTHING, SECOND, WHOLE, Message, Packet, SpelledState, Writer, packet_bytes
from wire import rows_of, u
from world import World

EDGES = (0, 1, 2, 3, 255, 256, 2**16 - 1, 2**32 - 1, 2**32, MOST_NUMBER, MOST_NUMBER + 1, 2**64 - 1)
VALUES = [b"\0", b"\1"]
FORGED_PARTS = ("permits", "starts", "chains", "drains")
ACT_PLACES = {FIRST: 26, SECOND: 30}
SIZES = (1, 5, 7, 8, 9, 11, 13, 14, 17, 18)


def some_inc(random: Random) -> int:
    """An incarnation, sometimes at a limit of a version."""
    edges = (0, 2**32 - 1, 2**32, MOST_NUMBER, MOST_NUMBER + 1)
    return random.choice(edges) if random.random() < 0.06 else random.choice((1, 1, 1, 2))


def some_node(random: Random, world: World) -> int:
    """A node, sometimes the number just past the last one."""
    return len(world.nodes) if random.random() < 0.06 else random.randrange(len(world.nodes))


def some_dot(random: Random, world: World) -> Dot:
    """A dot, real or made up."""
    if world.operations and random.random() < 0.6:
        return random.choice(world.operations).dot
    counter = random.choice((1, 1, 2, 3, 7, MOST_NUMBER, MOST_NUMBER + 1, 0))
    return Dot(some_node(random, world), some_inc(random), counter)


def some_key(random: Random, world: World) -> Key:
    app = random.randint(0, len(world.config.apps) - (random.random() < 0.9))
    return Key(app, some_node(random, world), some_inc(random))


def some_origin(random: Random, world: World) -> Origin:
    """An incarnation of a node."""
    return Origin(some_node(random, world), some_inc(random))


def some_over(random: Random, world: World) -> tuple[Dot, ...]:
    """Replaced dots, usually in order."""
    if random.random() < 0.03:
        return tuple(Dot(0, 1, n) for n in range(2, random.choice((1025, 1026, 1027)) + 1))
    dots = [some_dot(random, world) for _ in range(random.choice((0, 0, 1, 2, 3)))]
    return tuple(sorted(set(dots)) if random.random() < 0.9 else dots)


def some_act(random: Random, world: World) -> Act:
    """Any operation's effect, and impossible ones."""
    makers: tuple[Callable[[], Act], ...] = (
        Up,
        lambda: Down(some_node(random, world), some_inc(random)),
        lambda: Permit(some_key(random, world), random.random() < 0.5, some_over(random, world)),
        lambda: Start(some_key(random, world), some_over(random, world)),
        lambda: Stop(some_key(random, world), some_over(random, world)),
        lambda: Drain(some_origin(random, world), random.random() < 0.5, some_over(random, world)),
        lambda: ClaimAct(
            random.randint(0, len(world.config.apps)),
            random.choice((0, 1, 2, MOST_NUMBER, MOST_NUMBER + 1)),
            random.randint(0, 4),
            random.randint(-1, len(world.nodes)),
        ),
    )
    return random.choice(makers)()


def some_state(random: Random, world: World) -> Meaning:
    """A state of some operations, with a part that may be forged."""
    chosen = [number for number in range(len(world.operations)) if random.random() < 0.6]
    state = world.meaning(sum(1 << number for number in chosen))
    forged = Meaning(set(state.heard), set(state.known), dict(state.permits), dict(state.starts))
    forged.lives, forged.claims, forged.drains = dict(state.lives), dict(state.claims), dict(state.drains)
    roll = random.randrange(6)
    if roll == 0:
        forged.heard.add(some_dot(random, world))
    elif roll == 1:
        forged.known.add(some_dot(random, world))
    elif roll == 2:
        forged.starts[some_key(random, world)] = {some_dot(random, world) for _ in range(random.randint(0, 2))}
    elif roll == 3:
        forged.permits[some_key(random, world)] = {some_dot(random, world): random.random() < 0.5}
    elif roll == 4:
        forged.drains[some_origin(random, world)] = {some_dot(random, world): random.random() < 0.5}
    return forged


def shuffled(random: Random, items: list[bytes]) -> list[bytes]:
    """The items, sometimes with one moved or doubled."""
    if items and random.random() < 0.3:
        items.insert(random.randrange(len(items) + 1), random.choice(items))
    if len(items) > 1 and random.random() < 0.2:
        items.append(items.pop(0))
    return items


def forged_store(random: Random, writer: Writer, dots: list[Dot], abouts: list[bytes], values: list[bytes]) -> bytes:
    """The bytes of a store: keys or incarnations, each followed by one of some values."""
    stores = []
    for about in abouts:
        standing = [writer.dot(dot) + random.choice(values) for dot in sorted(random.sample(dots, min(2, len(dots))))]
        standing = shuffled(random, standing)
        stores.append(about + u(4, len(standing)) + b"".join(standing))
    stores = shuffled(random, stores)
    return u(4, len(stores)) + b"".join(stores)


def forged_parts(random: Random, world: World, writer: Writer) -> bytes:
    """The bytes of a state's parts, whose items are usually in order, but maybe not in place.

    Usually only one part has items, so that the last part is also reached.
    """
    chosen = [number for number in range(len(world.operations)) if random.random() < 0.8]
    state = world.meaning(sum(1 << number for number in chosen))
    filled = random.choice((("permits",), ("starts",), ("chains",), ("drains",), ("drains",), FORGED_PARTS))
    known = writer.context(rows_of(state.known))
    dots = sorted(state.known) or [Dot(0, 1, 1)]
    parts = [known, known]
    for part, values in (("permits", VALUES), ("starts", [b""])):
        keys = sorted({some_key(random, world) for _ in range(random.randint(0, 3) if part in filled else 0)})
        parts.append(forged_store(random, writer, dots, [writer.key(key) for key in keys], values))
    parts.append(forged_chains(random, world, writer, state) if "chains" in filled else bytes(3))
    abouts = sorted({some_origin(random, world) for _ in range(random.randint(1, 3) if "drains" in filled else 0)})
    if writer.version >= SECOND or random.random() < 0.1:
        parts.append(forged_store(random, writer, dots, [writer.origin(about) for about in abouts], VALUES))
    return b"".join(parts)


def forged_chains(random: Random, world: World, writer: Writer, state: Meaning) -> bytes:
    lives = shuffled(random, [writer.life(node, state.lives[node]) for node in sorted(state.lives)])
    apps = sorted(random.choices(range(len(world.config.apps)), k=random.randint(0, 3)))
    claims = [Claim(1, random.randrange(len(world.nodes)), 1, *random.choice(((1, -1), (2, 0), (3, 0)))) for _ in apps]
    listed = shuffled(random, [writer.claim(app, claim) for app, claim in zip(apps, claims)])
    return b"".join([u(1, len(lives)), *lives, u(2, len(listed)), *listed])


def forged_packet(random: Random, world: World, version: int) -> bytes:
    """A message whose state is forged by its bytes."""
    empty = Message(WHOLE, Origin(0, 1), 0, 0, 1, None, None)
    return packet_bytes(world.config, empty, version) + forged_parts(random, world, Writer(version))


def continued(random: Random, data: bytes) -> bytes:
    """The bytes with an unbroken row's last dot written as a further one, if there is such a row."""
    places = range(len(data) - 12)
    rows = [at for at in places if data[at : at + 7] == bytes(7) and data[at + 7] > 0 and data[at + 8 : at + 12] == bytes(4)]
    if not rows:
        return data
    at = random.choice(rows)
    return data[:at] + u(8, data[at + 7] - 1) + u(4, 1) + u(8, data[at + 7]) + data[at + 12 :]


def some_message(random: Random, world: World) -> Message:
    """A message whose fields may not fit."""
    kind = random.choice((WHOLE, INTERVAL, NOTHING))
    only = random.choice((0, 1, 2)) if random.random() < 0.2 else int(kind != WHOLE)
    origins = [Origin(node, random.choice((0, 1, 1, 1, 2))) for node in range(len(world.nodes) + 1)]
    ack = random.choice((None, (random.choice(origins), random.choice(EDGES))))
    up_to = random.choice((1, 2, random.choice(EDGES)))
    body = None if kind == NOTHING else SpelledState.of(some_state(random, world))
    return Message(kind, random.choice(origins), some_node(random, world), only, up_to, ack, body)


def some_packet(random: Random, world: World) -> Packet:
    """A real packet, or a made-up one."""
    roll = random.random()
    if world.messages and roll < 0.4:
        return world.message(random.randint(1, len(world.messages)))
    if world.operations and roll < 0.6:
        return random.choice(world.operations)
    return some_message(random, world) if roll < 0.8 else Operation(some_dot(random, world), some_act(random, world))


def random_packet(random: Random, world: World) -> bytes:
    """The bytes of a packet, usually of the second version."""
    version = FIRST if random.random() < 0.3 else SECOND
    if random.random() < 0.25:
        return forged_packet(random, world, version)
    packet = some_packet(random, world)
    data = packet_bytes(world.config, packet, version)
    if isinstance(packet, Operation) and random.random() < 0.1:
        at = ACT_PLACES[version]
        data = data[:at] + bytes((random.choice((0, 6, 7, 8)),)) + data[at + 1 :]
    return data


def changed_bytes(random: Random, data: bytes) -> bytes:
    """Some bytes with a change: a byte, the version, a number at its limit, two parts swapped, or an end cut off."""
    at = random.randrange(12, len(data)) if len(data) > 13 and random.random() < 0.9 else random.randrange(len(data) + 1)
    roll = random.randrange(9)
    if roll == 8:
        return data[:3] + bytes((random.choice((0, 1, 1, 2, 2, 3)),)) + data[4:]
    if roll == 7:
        return continued(random, data)
    if roll == 0:
        return data[:at]
    if roll == 1:
        return data + bytes((random.randrange(3),))
    if roll == 2:
        return data[:at] + bytes((random.randrange(256),)) + data[at + 1 :]
    if roll == 3:
        return data[:at] + bytes((random.randrange(4),)) + data[at + 1 :]
    if roll == 4:
        size = random.choice((1, 2, 4, 8))
        return data[:at] + u(size, min(random.choice(EDGES), 256**size - 1)) + data[at + size :]
    size = random.choice(SIZES)
    if roll == 5:
        return data[:at] + data[at + size : at + 2 * size] + data[at : at + size] + data[at + 2 * size :]
    return data[:at] + data[at : at + size] + data[at:]
