#!/usr/bin/env python3
"""Worked examples, whose outputs were written down before any program: the models must produce them. They are the rows
of examples/rows, except those of `record`, and values and bytes that no row can show.

Usage: python3 worked.py
"""

from __future__ import annotations

import sys
from collections.abc import Callable, Iterable, Iterator
from functools import partial
from typing import Tuple

from check import Config, check, read_config
from live import run_live
from meaning import NORMAL, Claim, ClaimAct, Dot, Down, Drain, Key, Meaning, Operation, Origin, Start, Up, meaning_of
from placement import load, verdict
from racing import fault_of_run
from random_live import outputs
from row_files import CHECK, LIVE, SIM, TOP, rows
from simulator import simulate
from streams import printed
from wire import FIRST, MAGIC, SECOND, WireFault, Writer, is_operation, packet_bytes, read_packet, read_state, rows_of
from wire import state_bytes
from world import World

EXAMPLE = b"""[{kernel, [{distributed, [{myapp, 5000, [cp1@cave, {cp2@cave, cp3@cave}]}]},
 {sync_nodes_mandatory, [cp2@cave, cp3@cave]}, {sync_nodes_timeout, 5000}]}].
"""
TWO_APPLICATIONS = b"[{kernel,[{distributed,[{a,5000,[c1@h,{c2@h,c3@h}]},{b,[c2@h]}]}]}].\n"
ONE_APPLICATION = b"[{kernel,[{distributed,[{a,[c1@h,{c2@h,c3@h}]}]}]}].\n"
FIVE_NODES = b"[{kernel,[{distributed,[{a,[{n1,n2,n3},n4]}]},{sync_nodes_optional,[n5]}]}].\n"
D1, D2 = Dot(0, 1, 1), Dot(0, 1, 2)

# An example's name, and whether the models agree with it.
Check = Tuple[str, bool]
Fault = Tuple[str, int]
# Bytes by what is changed in them, with the fault of reading them.
Faulty = Tuple[str, bytes, Fault]


def fault_of(read: Callable[[], object]) -> Fault | None:
    try:
        read()
    except WireFault as fault:
        return fault.kind, fault.at
    return None


def faults_agree(of: str, read: Callable[[bytes], object], faulty: Iterable[Faulty]) -> Iterator[Check]:
    for name, data, expected in faulty:
        yield f"{of}, {name}", fault_of(partial(read, data)) == expected


def with_byte(data: bytes, at: int, byte: int) -> bytes:
    return data[:at] + bytes((byte,)) + data[at + 1 :]


def script_under(config: bytes, *lines: str) -> bytes:
    return config + b"--\n" + "".join(f"{line}\n" for line in lines).encode()


# Rows, and texts of configurations

# The orders of its threads in which a row of `live` is played.
ORDERS = 20


def row_checks() -> Iterator[Check]:
    """The rows of examples/rows, those of `live` in some orders of their threads."""
    models: dict[str, Callable[[bytes], tuple[bytes, int]]] = {CHECK: check, SIM: simulate, LIVE: run_live}
    for row in (row for command in models for row in rows(TOP, command)):
        holds = models[row.command](row.source) == (row.output, row.status)
        is_racing = row.command == LIVE and not row.status
        yield row.name, holds and (not is_racing or outputs(row.source, ORDERS, 1) == {row.output})


def one_entry(entries: bytes) -> bytes:
    """A file with only these applications."""
    return b"[{kernel,[{distributed,[%s]}]}]." % entries


def many_nodes(count: int) -> bytes:
    """The names of so many nodes, each of three bytes."""
    return b",".join(b"n%d" % number for number in range(10, 10 + count))


CANONICAL_OF_MANY = (
    b"[{kernel,[{distributed,[{a,0,[%s]}]},{permissions,[]},{sync_nodes_mandatory,[]},{sync_nodes_optional,[]}]}].\n"
)
TEXTS = (
    (b" " * 65_537, b"config fault 1 TooLong at 65536\n"),
    (one_entry(b",".join(b"{a%d,[n@h]}" % number for number in range(65))), b"config fault 11 TooManyApps at 783\n"),
    (one_entry(b"{a,[%s]}" % many_nodes(65)), b"config fault 10 TooManyNodes at 284\n"),
    (one_entry(b"{a,[%s]}" % many_nodes(64)), CANONICAL_OF_MANY % many_nodes(64)),
)


def text_checks() -> Iterator[Check]:
    """Configurations at the limits."""
    for text, expected in TEXTS:
        yield f"text {text[:60]!r}", check(text) == (expected, int(expected.startswith(b"config fault")))


# The bytes of states

CONTEXT_HEX = "0001" + "01" + "0000000000000001" + "0000000000000001" + "00000000"
FRESH_HEX = CONTEXT_HEX * 2 + "00000000" * 2 + "01" + "01" + "0000000000000001" + "00" + "0000" + "00000000"
FIRST_CONTEXT_HEX = "0001" + "01" + "00000001" + "0000000000000001" + "00000000"
FIRST_FRESH_HEX = FIRST_CONTEXT_HEX * 2 + "00000000" * 2 + "01" + "01" + "00000001" + "00" + "0000"
FRESH, FIRST_FRESH = bytes.fromhex(FRESH_HEX), bytes.fromhex(FIRST_FRESH_HEX)
FRESH_FAULTS: tuple[Faulty, ...] = (
    ("cut", FRESH[:70], ("Short", 67)),
    ("and a byte", FRESH + b"\0", ("Trailing", 71)),
    ("neither up nor down", with_byte(FRESH, 64, 2), ("BadNumber", 64)),
    ("no such node", with_byte(FRESH, 55, 3), ("BadName", 55)),
    ("nothing known", FRESH[:23] + b"\0\0" + FRESH[46:], ("NotKnown", 25)),
)
FIRST_FRESH_FAULTS: tuple[Faulty, ...] = (
    ("cut", FIRST_FRESH[:54], ("Short", 53)),
    ("and a byte", FIRST_FRESH + b"\0", ("Trailing", 55)),
    ("neither up nor down", with_byte(FIRST_FRESH, 52, 2), ("BadNumber", 52)),
    ("no such node", with_byte(FIRST_FRESH, 47, 3), ("BadName", 47)),
    ("nothing known", FIRST_FRESH[:19] + b"\0\0" + FIRST_FRESH[38:], ("NotKnown", 21)),
)


def state_checks(config: Config) -> Iterator[Check]:
    """The bytes of a state in both versions, whole and changed."""
    yield "a fresh state", Writer().state(read_state(config, FRESH)) == FRESH and len(FRESH) == 71
    yield from faults_agree("a fresh state", partial(read_state, config), FRESH_FAULTS)
    most = bytes.fromhex("4000000000000000")
    large = FRESH[:11] + most + FRESH[19:34] + most + FRESH[42:]
    read = read_state(config, large)
    yield "a state with very many dots", read.heard == read.known == {(1, 1): (2**62, [])}
    yield "a state with very many dots is written again", Writer().state(read) == large
    first = read_state(config, FIRST_FRESH, FIRST)
    yield "a fresh state of version 1", first == read_state(config, FRESH) and len(FIRST_FRESH) == 55
    yield "a fresh state is written in version 1", Writer(FIRST).state(first) == FIRST_FRESH
    read_first = partial(read_state, config, version=FIRST)
    yield from faults_agree("a fresh state of version 1", read_first, FIRST_FRESH_FAULTS)


# A state of a node's first three operations: it comes up, isn't drained, and is drained. The two drains stand together.
DRAINED_HEX = (
    ("0001" + "00" + "0000000000000001" + "0000000000000003" + "00000000") * 2
    + "00000000" * 2
    + ("01" + "00" + "0000000000000001" + "00")
    + "0000"
    + ("00000001" + "00" + "0000000000000001" + "00000002")
    + ("00" + "0000000000000001" + "0000000000000002" + "00")
    + ("00" + "0000000000000001" + "0000000000000003" + "01")
)
FIRST_DRAINED_HEX = (
    ("0001" + "00" + "00000001" + "0000000000000003" + "00000000") * 2
    + "00000000" * 2
    + ("01" + "00" + "00000001" + "00")
    + "0000"
)
TWO_DRAINS_HEX = (
    "00000002"
    + ("00" + "0000000000000002" + "00000001" + "02" + "0000000000000001" + "0000000000000003" + "00")
    + ("01" + "0000000000000001" + "00000001" + "02" + "0000000000000001" + "0000000000000002" + "01")
)
DRAINED = bytes.fromhex(DRAINED_HEX)
DRAINED_FAULTS: tuple[Faulty, ...] = (
    ("of no such node", with_byte(DRAINED, 71, 3), ("BadName", 71)),
    ("of no incarnation", with_byte(DRAINED, 79, 0), ("BadNumber", 72)),
    ("of too high an incarnation", with_byte(DRAINED, 72, 0x40), ("BadNumber", 72)),
    ("of no dots", with_byte(DRAINED, 83, 0), ("BadNumber", 80)),
    ("neither true nor false", with_byte(DRAINED, 101, 2), ("BadNumber", 101)),
    ("by no such node", with_byte(DRAINED, 102, 3), ("BadName", 102)),
    ("of one dot twice", with_byte(DRAINED, 118, 2), ("BadOrder", 102)),
    ("of a dot that isn't known", with_byte(DRAINED, 118, 4), ("NotKnown", 102)),
    ("of a node twice", with_byte(DRAINED, 70, 2) + DRAINED[71:], ("BadOrder", 120)),
    ("without its number of nodes", DRAINED[:70], ("Short", 67)),
    ("without its number of dots", DRAINED[:82], ("Short", 80)),
    ("without its last value", DRAINED[:119], ("Short", 119)),
    ("and a byte", DRAINED + b"\0", ("Trailing", 120)),
)


def drained_checks(config: Config) -> Iterator[Check]:
    """The bytes of a state with drains, whole and changed."""
    drains = {Origin(0, 1): {D2: False, Dot(0, 1, 3): True}}
    operations = [Operation(D1, Up())]
    operations += [Operation(dot, Drain(Origin(0, 1), value, ())) for dot, value in drains[Origin(0, 1)].items()]
    state = meaning_of(operations)
    yield "drains that stand together", state.drains == drains
    yield "a drained state is written", state_bytes(state) == DRAINED
    yield "a drained state is read", read_state(config, DRAINED).drains == drains
    yield from faults_agree("drains", partial(read_state, config), DRAINED_FAULTS)
    first, second = Drain(Origin(1, 1), True, ()), Drain(Origin(0, 2), False, ())
    both = meaning_of([Operation(Dot(2, 1, 2), first), Operation(Dot(2, 1, 3), second)])
    yield "drains of two nodes", state_bytes(both).hex().endswith(TWO_DRAINS_HEX)
    yield "drains of two nodes are read", read_state(config, state_bytes(both)).drains == both.drains
    unlisted = read_state(read_config(FIVE_NODES), with_byte(DRAINED, 71, 4))
    yield "drains of a node in no list", unlisted.drains == {Origin(4, 1): drains[Origin(0, 1)]}
    yield "a drained state of version 1", state_bytes(state, FIRST).hex() == FIRST_DRAINED_HEX


# The bytes of messages and operations


def message_of(config: Config, version: int) -> bytes:
    """The whole state of the first node, which has just come up, for the second."""
    inc, none = ("0000000000000001", "0" * 16) if version == SECOND else ("00000001", "0" * 8)
    head = MAGIC + bytes((version,)) + config.mark.to_bytes(8, "big")
    fields = bytes.fromhex("01" + "00" + inc + "01" + none + "0000000000000001" + "00")
    state = bytearray(FRESH if version == SECOND else FIRST_FRESH)
    for at in (2, 25, 55) if version == SECOND else (2, 21, 47):
        state[at] = 0
    return head + fields + bytes(state)


# The positions of a message's first fields, and of the end after them.
MESSAGE_FIELDS = {FIRST: (4, 12, 13, 14, 18, 19, 23, 31, 32, 34), SECOND: (4, 12, 13, 14, 22, 23, 31, 39, 40, 42)}


def fault_of_prefix(length: int, version: int) -> Fault:
    """The fault of a message cut off after its first bytes, amid a field."""
    if length < 4:
        return ("BadMagic", 0) if length < 3 else ("BadVersion", 3)
    return "Short", max(at for at in MESSAGE_FIELDS[version] if at <= length)


def message_checks(config: Config) -> Iterator[Check]:
    """The bytes of a message, whole and changed."""

    def fault(data: bytes) -> Fault | None:
        return fault_of(partial(read_packet, config, data))

    packet, first = message_of(config, SECOND), message_of(config, FIRST)
    script = script_under(EXAMPLE, "boot cp1@cave 0", "boot cp2@cave 0", "ship cp1@cave cp2@cave", "bytes 1")
    yield "a message", simulate(script)[0].splitlines()[-1] == packet.hex().encode() and len(packet) == 111
    yield "a message is read", packet_bytes(config, read_packet(config, packet)) == packet
    yield "a message of version 1", read_packet(config, first) == read_packet(config, packet) and len(first) == 87
    # A message says that its body is an interval, for too high an incarnation.
    interval, first_interval = with_byte(packet, 12, 2), with_byte(first, 12, 2)
    faulty: tuple[Faulty, ...] = (
        ("cut", packet[:12], ("Short", 12)),
        ("of another magic", with_byte(packet, 0, 0x45), ("BadMagic", 0)),
        ("of version 0", with_byte(packet, 3, 0), ("BadVersion", 3)),
        ("of version 3", with_byte(packet, 3, 3), ("BadVersion", 3)),
        ("an interval for too high an incarnation", with_byte(interval, 23, 0x80), ("BadNumber", 23)),
        ("an interval for any incarnation", interval, ("BadNumber", 23)),
        ("an interval for any incarnation in version 1", first_interval, ("BadNumber", 19)),
        ("too long", bytes(4_194_305), ("TooLong", 4_194_304)),
    )
    yield from faults_agree("a message", partial(read_packet, config), faulty)
    others = (with_byte(packet, 3, FIRST), with_byte(first, 3, SECOND))
    yield "messages that say that they are of the other version", None not in map(fault, others)
    for version, data in ((FIRST, first), (SECOND, packet)):
        after = MESSAGE_FIELDS[version][-1]
        cuts = [(f"{length} bytes", data[:length], fault_of_prefix(length, version)) for length in range(after)]
        yield from faults_agree(f"a message of version {version}", partial(read_packet, config), cuts)
        longer = [fault(data[:length]) for length in range(after, len(data))]
        yield f"longer parts of a message of version {version} are short", all(cut and cut[0] == "Short" for cut in longer)
        changed = (with_byte(data, at, byte) for at in range(len(data)) for byte in range(256))
        yield f"each byte of a message of version {version} changed", all(is_spelled_once(config, one) for one in changed)


def is_spelled_once(config: Config, data: bytes) -> bool:
    """Whether some bytes are refused, or are their version's spelling of the value read."""
    try:
        return packet_bytes(config, read_packet(config, data), data[3]) == data
    except WireFault:
        return True


def single_checks(config: Config) -> Iterator[Check]:
    """The bytes of single operations."""

    def single(version: int, text: str) -> bytes:
        return MAGIC + bytes((version,)) + config.mark.to_bytes(8, "big") + b"\4" + bytes.fromhex(text)

    dot, other = "00" + "0000000000000001" + "0000000000000002", "01" + "0000000000000001" + "0000000000000002"
    about = "01" + "0000000000000001"
    drain = single(SECOND, dot + "07" + about + "01" + "0001" + other)
    operation = Operation(D2, Drain(Origin(1, 1), True, (Dot(1, 1, 2),)))
    yield "a drain is read", read_packet(config, drain) == operation
    yield "a drain is written", packet_bytes(config, operation) == drain
    old = "00" + "00000001" + "0000000000000002" + "07" + "01" + "00000001" + "01" + "0000"
    past = "00" + "4000000000000001" + "0000000000000001" + "01"
    faulty: tuple[Faulty, ...] = (
        ("a drain of its own dot", single(SECOND, dot + "07" + about + "01" + "0001" + dot), ("BadNumber", 13)),
        ("a drain that is the first", single(SECOND, dot[:-1] + "1" + "07" + about + "01" + "0000"), ("BadNumber", 13)),
        ("a drain of no such node", with_byte(drain, 31, 3), ("BadName", 31)),
        ("a drain neither true nor false", with_byte(drain, 40, 2), ("BadNumber", 40)),
        ("an act past a drain", with_byte(drain, 30, 8), ("BadNumber", 30)),
        ("a drain of version 1", single(FIRST, old), ("BadNumber", 26)),
        ("an incarnation past the greatest", single(SECOND, past), ("BadNumber", 14)),
        ("no incarnation", single(SECOND, "00" + "0" * 16 + "0000000000000001" + "01"), ("BadNumber", 14)),
        ("no incarnation in version 1", single(FIRST, "00" + "0" * 8 + "0000000000000001" + "01"), ("BadNumber", 14)),
    )
    yield from faults_agree("an operation", partial(read_packet, config), faulty)
    for version, most in ((FIRST, "ffffffff"), (SECOND, "4000000000000000")):
        up = read_packet(config, single(version, "00" + most + "0000000000000001" + "01"))
        yield f"the greatest incarnation of version {version}", up == Operation(Dot(0, int(most, 16), 1), Up())


# Operations and placement


def operation_checks() -> Iterator[Check]:
    """The conditions and meanings of operations."""
    key = Key(0, 0, 1)
    yield "its own dot replaced", not is_operation(Operation(D2, Start(key, (D2,))))
    yield "a start that is the first", not is_operation(Operation(D1, Start(key, ())))
    yield "an up that is the second", not is_operation(Operation(D2, Up()))
    yield "a down of its own node", not is_operation(Operation(D2, Down(0, 1)))
    yield "an up", is_operation(Operation(D1, Up())) and meaning_of([Operation(D1, Up())]).heard == {D1}
    later = Dot(0, 1, 3)
    both = meaning_of([Operation(D2, Start(key, ())), Operation(later, Start(key, (D2,)))])
    yield "a start in the place of another", both.starts == {key: {later}} and both.known == {D2, later}
    yield "a drain of its own node", is_operation(Operation(D2, Drain(Origin(0, 1), True, ())))
    over = meaning_of([Operation(later, Drain(Origin(1, 1), True, (D2,)))])
    yield "a drain in the place of another", over.known == {D2, later} and over.drains == {Origin(1, 1): {later: True}}
    world = World(read_config(ONE_APPLICATION))
    world.boot(0, 0)
    overs = [world.operations[world.drain(0, 0, True) - 1].over for _ in range(2)]
    yield "a drain that says the same again", overs == [(), (D2,)]
    gap = {D1, D2, Dot(0, 1, 4)}
    spelled_gap = "0001" "000000000000000001" "0000000000000002" "00000001" "0000000000000004"
    whole_row = "0001" "000000000000000001" "0000000000000004" "00000000"
    yield "a context with a gap", Writer().context(rows_of(gap)).hex() == spelled_gap
    yield "a context without", Writer().context(rows_of(gap | {later})).hex() == whole_row


def verdicts_of(config: Config, state: Meaning) -> tuple[str, str, int]:
    """The verdicts of both applications, and the second node's load for the first."""
    texts = []
    for app in range(2):
        found = verdict(config, state, app)
        texts.append(found.what + ("" if found.node is None else f" {found.node + 1}"))
    return texts[0], texts[1], load(config, state, 0, 1)


def placement_checks() -> Iterator[Check]:
    config = read_config(TWO_APPLICATIONS)
    ups = [Operation(Dot(node, 1, 1), Up()) for node in range(3)]
    starts = [Operation(Dot(node, 1, 2), Start(Key(0, node, 1), ())) for node in range(3)]
    starts.append(Operation(Dot(1, 1, 3), Start(Key(1, 1, 1), ())))
    claim = Operation(Dot(1, 1, 4), ClaimAct(1, 1, NORMAL, -1))
    base = [*ups, *starts, claim]
    down = Operation(Dot(2, 1, 3), Down(0, 1))
    other_down = Operation(Dot(2, 1, 4), Down(1, 1))
    claimed = Operation(Dot(0, 1, 3), ClaimAct(0, 1, NORMAL, -1))
    drained, kept = (Operation(Dot(2, 1, 3), Drain(Origin(0, 1), value, ())) for value in (True, False))
    own_drained, own_kept = (Operation(Dot(0, 1, 4), Drain(Origin(0, 1), value, ())) for value in (True, False))
    put_back = Operation(Dot(0, 1, 4), Drain(Origin(0, 1), False, (drained.dot,)))
    later = Operation(Dot(2, 1, 3), Drain(Origin(0, 2), True, ()))
    for name, operations, expected in (
        ("all are up", base, ("start 1", "kept 2", 1)),
        ("the first is down", [*base, down], ("start 3", "kept 2", 1)),
        ("the first had it and is down", [*base, down, claimed], ("failover 3", "kept 2", 1)),
        ("two are down", [*base, down, other_down], ("start 3", "nobody", 0)),
        ("the first is drained", [*base, drained], ("start 3", "kept 2", 1)),
        ("the first had it and is drained", [*base, drained, claimed], ("move 3", "kept 2", 1)),
        ("the first is drained by another", [*base, drained, claimed, own_kept], ("move 3", "kept 2", 1)),
        ("the first is drained by itself", [*base, kept, claimed, own_drained], ("move 3", "kept 2", 1)),
        ("the first is kept by both", [*base, kept, claimed, own_kept], ("kept 1", "kept 2", 1)),
        ("the first is put back", [*base, drained, claimed, put_back], ("kept 1", "kept 2", 1)),
        ("the first is halted and drained", [*ups, *starts[1:], claim, claimed, drained], ("halted 1", "kept 2", 1)),
        ("another incarnation is drained", [*base, later, claimed], ("kept 1", "kept 2", 1)),
    ):
        yield name, verdicts_of(config, meaning_of(operations)) == expected


def many_drains_checks() -> Iterator[Check]:
    """As many drains that stand together as can be replaced, and one more."""
    drains = range(3, 3 + 2 * 1025, 2)
    lines = ["boot c1@h 0", *["boot c2@h 0", "hand c2@h 1", "drain c2@h c1@h true", "crash c2@h"] * 1025]
    lines += [*(f"hand c1@h {number}" for number in drains[:-1]), "drain c1@h c1@h false"]
    lines += ["boot c3@h 0", "hand c3@h 1", *(f"hand c3@h {number}" for number in drains), "drain c3@h c1@h false"]
    printed = simulate(script_under(ONE_APPLICATION, *lines))[0].splitlines()
    results = [line for line in printed if not line.startswith((b"boot", b"heard", b"crash"))]
    issued = [b"issued %d c2@h %d 2" % (number, at) for at, number in enumerate(drains, 1)]
    yield "very many drains", results == [*issued, b"issued 2052 c1@h 1 2", b"refused 17 TooManyDots"]


def two_fault_checks() -> Iterator[Check]:
    """Inputs with two faults, the first of which must be reported."""
    for line, fault in (("boot zz@h 01", b"4 BadNumber"), ("drain zz@h c1@h True", b"3 BadName")):
        expected = (b"script fault 1 %s\n" % fault, 1)
        yield f"{line}, with two faults", simulate(script_under(TWO_APPLICATIONS, line)) == expected
    claims = [Writer().claim(1, Claim(1, node, 1, NORMAL, -1)) for node in (1, 0)]
    read = partial(read_state, read_config(TWO_APPLICATIONS), bytes(13) + b"\0\2" + b"".join(claims))
    yield "a claim with two faults", fault_of(read) == ("NotInList", 36)


# Live scripts

LIVE_FAULTS = {
    "1 BadWord": "2 ship x y;boot x 0;drain x x true;1 phase;1 feed 00;-1 boot x 0;9 jump;read x;a1 read x;'1' read x",
    "2 BadCount": "1;9;00;phase 1;1 read;9 tick x;feed;feed 00 00;1 permit x a x;1 drain x x;1 crash x 0",
    "3 BadName": (
        "1 start x A x;1 drain x x 'true';1 drain zz@h A true;01 permit x a x 'true';1 boot 'x 0;9 tick A 01;1 read x'"
    ),
    "4 BadNumber": "0 boot x 0;5 drain x x true;01 tick x 0;9 boot zz@h 0;1 tick x 4611686018427387905;1 boot zz@h 01",
    "5 UnknownActor": "4 read zz@h;1 boot 'Zz' 7;1 down zz@h zz@h;1 drain zz@h x true",
    "6 BadHex": "feed 0;feed 0A;feed 0g;feed '00'",
}
LIVE_INPUTS = (
    ("a live line of spaces", ONE_APPLICATION + b"--\nphase\n  \n", b"script fault 2 1 BadWord\n"),
    ("five nodes and a fault", FIVE_NODES + b"--\n1 boot n6 0\n", b"script fault 1 5 UnknownActor\n"),
    ("a live input with two faults", b"[].\n--\n7\n", b"config fault 5 NoDistributed at 4\n"),
)
RACE = script_under(
    ONE_APPLICATION,
    *("1 boot c1@h 0", "1 boot c2@h 0", "phase", "1 permit c1@h a c1@h false", "1 permit c2@h a c1@h true"),
)
RACING = TWO_APPLICATIONS + b"""--
1 boot c1@h 0
1 boot c2@h 0
phase
1 start c1@h a c1@h
2 crash c1@h
2 boot c1@h 5
3 read c1@h
1 tick c2@h 3
2 tick c2@h 1
2 permit c2@h a c2@h false
feed 44
phase
phase
"""
# Impossible outputs of the run above: texts in it with their replacements.
BROKEN = {
    "a stale page": (b"c1@h 3 fresh", b"c1@h 3 stale"),
    "an answer too few": (b"c1@h 3 fresh\n", b""),
    "answers of two callers in another order": (b"c1@h 3 fresh\nc2@h 1 ok", b"c2@h 1 ok\nc1@h 3 fresh"),
    "answers of a caller in another order": (b"2 refused 8 MomentBack\nc2@h 2 ok", b"2 ok\nc2@h 2 refused 8 MomentBack"),
    "a moment that doesn't go back": (b"c2@h 1 ok\nc2@h 2", b"c2@h 1 refused 8 MomentBack\nc2@h 2"),
    "a crash of a node that is on": (b"c1@h 2 ok\nc1@h 2 ok", b"c1@h 2 refused 1 Off\nc1@h 2 ok"),
    "a boot of a node that is on": (b"c1@h 2 ok\nc1@h 3", b"c1@h 2 refused 2 AlreadyOn\nc1@h 3"),
    "a refusal that a start can't meet": (b"phase 2\nc1@h 1 ok", b"phase 2\nc1@h 1 refused 12 NotRunning"),
    "other bytes that are fed": (b"wire fault 2 BadMagic at 0", b"wire ok"),
    "a phase too many": (b"phase 4", b"phase 4\nphase 5"),
    "another incarnation": (b"node c1@h 2\n", b"node c1@h 1\n"),
    "a node that runs, as off": (b"node c2@h 1\n", b"node c2@h off\n"),
    "a node that is off, as running": (b"node c3@h off\n", b"node c3@h 1\n"),
    "pages that differ": (b"list c2@h=idle\nnode c2@h", b"list c2@h=ok\nnode c2@h"),
    "a word too many on a page": (b"verdict nobody", b"verdict nobody c1@h"),
    "operations that nobody issued": (b"heard 4 known 4", b"heard 10 known 10"),
    "a node that nobody said is down": (b"node c2@h up 1", b"node c2@h down 1"),
    "a weave that failed": (b"weave ok", b"weave fault 1 Unwoven c1@h 3"),
    "a line behind all": (b"weave ok\n", b"weave ok\n\n"),
}


def live_fault_checks() -> Iterator[Check]:
    """Live scripts with a fault, and the order of faults."""
    for fault, lines in LIVE_FAULTS.items():
        for line in lines.replace(" x", " c1@h").split(";"):
            source = script_under(ONE_APPLICATION, "", "% note", "4 read c3@h", line, "7")
            yield f"live line {line!r}", run_live(source) == (f"script fault 4 {fault}\n".encode(), 1)
    for name, source, printed in LIVE_INPUTS:
        yield name, run_live(source) == (printed, 1)


def racing_checks() -> Iterator[Check]:
    """Properties of a run whose answers depend on the threads: the model's runs, and changed ones."""
    yield "a race of two permits", len(outputs(RACE, 100, 1)) == 2
    output, status = run_live(RACING)
    yield "a racing run", fault_of_run(RACING, output, status) is None
    yield "a racing run that fails", fault_of_run(RACING, output, 1) is not None
    found = outputs(RACING, 100, 1)
    yield "a racing run in many orders", len(found) > 4 and all(fault_of_run(RACING, other, 0) is None for other in found)
    for name, (old, new) in BROKEN.items():
        yield name, old in output and fault_of_run(RACING, output.replace(old, new), status) is not None


def run_all() -> Iterator[Check]:
    """Each example's name, and whether the models agree with it."""
    config = read_config(EXAMPLE)
    for checks in (state_checks, drained_checks, message_checks, single_checks):
        yield from checks(config)
    for others in (text_checks, operation_checks, placement_checks, many_drains_checks, two_fault_checks):
        yield from others()
    for last in (live_fault_checks, racing_checks, row_checks):
        yield from last()


def main() -> int:
    """Runs all, and names those that fail."""
    results = list(run_all())
    failed = [name for name, holds in results if not holds]
    for name in failed:
        print(f"failed: {name}")
    print(f"{len(results) - len(failed)} worked examples agree, {len(failed)} don't")
    return 1 if failed else 0


if __name__ == "__main__":
    sys.exit(printed("worked.py", main))
