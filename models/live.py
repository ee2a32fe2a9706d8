#!/usr/bin/env python3
"""An outside model of `distac live`: a configuration and a live script in, the program's output out.

It has no threads. In a phase, one simulated thread after another takes a step, chosen among those that can. So the
model is right for scripts whose output doesn't depend on that choice; the head of random_live.py describes these.

Usage: python3 live.py < FILE
"""

from __future__ import annotations

import sys
from collections import deque
from contextlib import suppress
from dataclasses import dataclass, field
from typing import Callable, List

from check import Config, ConfigFault
from simulator import ACTOR, COMMANDS, SHAPES, VERB, InputFault, Line, LineReader, Printer, ScriptFault, Value, read_input
from streams import run_model
from wire import WireFault, read_packet
from world import Refused, World

MOST_NODES = 4
SHIPS = 4

CALLER = "caller"
CALLERS = (b"1", b"2", b"3", b"4")
READ, FEED, PHASE = b"read", b"feed", b"phase"
CALLER_SHAPES: dict[bytes, tuple[str, ...]] = {
    **{word: SHAPES[word] for word in (b"boot", b"crash", b"tick", *COMMANDS)},
    READ: (ACTOR,),
}
OTHER_SHAPES: dict[bytes, tuple[str, ...]] = {FEED: SHAPES[FEED], PHASE: ()}


# Reading


class LiveReader(LineReader):
    """Reads the lines of a live script. A first word of only digits is a caller."""

    def kinds_of(self, words: list[bytes]) -> tuple[str, ...] | None:
        """The required kinds of a line's words, if it is a line at all."""
        if not words[0].isdigit():
            return (VERB, *OTHER_SHAPES[words[0]]) if words[0] in OTHER_SHAPES else None
        if len(words) == 1:
            return CALLER, VERB
        return (CALLER, VERB, *CALLER_SHAPES[words[1]]) if words[1] in CALLER_SHAPES else None

    def fault_of_word(self, kind: str, word: bytes) -> str | None:
        if kind == CALLER:
            return None if word in CALLERS else "BadNumber"
        return super().fault_of_word(kind, word)

    def value_of(self, kind: str, word: bytes) -> int | bool | bytes:
        return int(word) if kind == CALLER else super().value_of(kind, word)


@dataclass(frozen=True)
class Asked:
    """A caller's request to a node: a word and its values, the node first."""

    caller: int
    word: bytes
    values: tuple[Value, ...]

    @property
    def node(self) -> int:
        return int(self.values[0])


@dataclass
class Phase:
    """The requests of a phase, and its feeds, in script order."""

    asked: list[Asked] = field(default_factory=list)
    feeds: list[bytes] = field(default_factory=list)


def asked_in(line: Line) -> Asked:
    """The request in a caller's line."""
    caller, *values = line.values
    return Asked(int(caller), line.word, tuple(values))


def phases_of(lines: list[Line]) -> list[Phase]:
    """The phases of a script. The last one ends with the script."""
    phases = [Phase()]
    for line in lines:
        if line.word == PHASE:
            phases.append(Phase())
        elif line.word == FEED:
            phases[-1].feeds.append(bytes(line.values[0]))
        else:
            phases[-1].asked.append(asked_in(line))
    return phases


# Running


@dataclass(eq=False)
class Thread:
    """A thread of a phase: whether it can take a step now, and the step."""

    is_ready: Callable[[], bool]
    step: Callable[[], None]


Choose = Callable[[List[Thread]], Thread]


def first(threads: list[Thread]) -> Thread:
    """The first thread: callers by node and number, then receivers before shippers."""
    return threads[0]


@dataclass
class Link:
    """A link between two nodes: the ships left in this phase, and the messages in transit."""

    node: int
    to: int
    ships: int = 0
    letters: deque[int] = field(default_factory=deque)


class Run:
    """The nodes with their callers and links."""

    def __init__(self, config: Config, choose: Choose = first) -> None:
        self.world = World(config)
        self.text = Printer(self.world)
        self.choose = choose
        nodes = range(len(config.nodes))
        self.links = [Link(node, to) for node in nodes for to in nodes if to != node]

    def play(self, phases: list[Phase]) -> bytes:
        lines = [line for number, phase in enumerate(phases, 1) for line in self.printed(number, phase)]
        for node in range(len(self.world.nodes)):
            lines += self.text.page(node)
        return b"".join(line + b"\n" for line in [*lines, b"close ok", b"weave ok"])

    def printed(self, number: int, phase: Phase) -> list[bytes]:
        """The output of a phase: the answers by node, caller and script, then the feeds."""
        answers = self.phase(phase.asked)
        order = sorted(range(len(answers)), key=lambda at: (phase.asked[at].node, phase.asked[at].caller))
        found = [self.named(phase.asked[at]) + answers[at] for at in order]
        return [b"phase %d" % number, *found, *(self.fed(data) for data in phase.feeds)]

    def named(self, asked: Asked) -> bytes:
        """The beginning of an answer's line."""
        return b"%s %d " % (self.text.node(asked.node), asked.caller)

    def fed(self, data: bytes) -> bytes:
        """The result of bytes read as a packet."""
        try:
            read_packet(self.world.config, data)
        except WireFault as fault:
            return fault.line()
        return b"wire ok"

    def phase(self, asked: list[Asked]) -> list[bytes]:
        """Plays a phase: the answer of each line."""
        answers: dict[int, bytes] = {}
        for link in self.links:
            link.ships = SHIPS
        threads = [*self.callers(asked, answers), *map(self.worker, self.links), *map(self.shipper, self.links)]
        while ready := [thread for thread in threads if thread.is_ready()]:
            self.choose(ready).step()
        for link in self.links:
            self.ship(link)
            self.hear(link)
        return [answers[at] for at in range(len(asked))]

    def callers(self, asked: list[Asked], answers: dict[int, bytes]) -> list[Thread]:
        """A thread for each caller with requests."""
        places: dict[tuple[int, int], deque[int]] = {}
        for at, line in enumerate(asked):
            places.setdefault((line.node, line.caller), deque()).append(at)
        return [self.caller(asked, places[who], answers) for who in sorted(places)]

    def caller(self, asked: list[Asked], places: deque[int], answers: dict[int, bytes]) -> Thread:
        """A caller's thread, which makes the requests at some places in turn."""

        def ask() -> None:
            at = places.popleft()
            answers[at] = self.answer(asked[at])

        return Thread(lambda: bool(places), ask)

    def worker(self, link: Link) -> Thread:
        """The thread that hears the messages of a link."""
        return Thread(lambda: bool(link.letters), lambda: self.hear(link))

    def shipper(self, link: Link) -> Thread:
        return Thread(lambda: link.ships > 0, lambda: self.ship(link))

    def answer(self, asked: Asked) -> bytes:
        """The answer to a caller. Pages read are always fresh."""
        if asked.word == READ:
            return b"fresh"
        event: Callable[..., object] = getattr(self.world, asked.word.decode())
        try:
            event(*asked.values)
        except Refused as refused:
            return refused.line()
        return b"ok"

    def ship(self, link: Link) -> None:
        """Ships once, or adds nothing to the link if the ship is refused."""
        link.ships -= 1
        with suppress(Refused):
            link.letters.append(self.world.ship(link.node, link.to))

    def hear(self, link: Link) -> None:
        """Hears the next message, if there is one."""
        with suppress(Refused):
            if link.letters:
                self.world.hear(link.to, link.letters.popleft())


def run_live(source: bytes, choose: Choose = first) -> tuple[bytes, int]:
    """The program's output for an input, and its exit status."""
    try:
        config, lines = read_input(source, LiveReader)
    except (InputFault, ConfigFault, ScriptFault) as fault:
        return fault.line() + b"\n", 1
    if len(config.nodes) > MOST_NODES:
        return b"live fault 1 TooManyNodes\n", 1
    return Run(config, choose).play(phases_of(lines)), 0


def main() -> int:
    return run_model("live.py", run_live)


if __name__ == "__main__":
    sys.exit(main())
