"""An outside model of `distac sim`: a configuration and a script in, the program's output for each line out.

sim.py runs it.
"""

from __future__ import annotations

from collections.abc import Callable
from dataclasses import dataclass
from typing import Union

import placement
from check import MOST_INPUT, Config, ConfigFault, is_bare_atom, read_config, spelled
from meaning import FAILOVER, NORMAL, TAKEOVER, ClaimAct, Key, Meaning, Origin
from streams import run_model
from wire import INTERVAL, NOTHING, WHOLE, WireFault, packet_bytes, read_packet, state_bytes
from world import NoSuch, Refused, World

MOST_NUMBER = 2**62
INPUT_FAULTS = ("TooLong", "NoScript")
SCRIPT_FAULTS = ("BadWord", "BadCount", "BadName", "BadNumber", "UnknownActor", "BadHex")
HOW_NAMES = {NORMAL: b"normal", FAILOVER: b"failover", TAKEOVER: b"takeover"}
HEARD = {True: b"heard new", False: b"heard nothing new"}
BODY_NAMES = {WHOLE: "whole", INTERVAL: "interval", NOTHING: "nothing"}

VERB, ACTOR, NODE, APP, NUMBER, TRUTH, HEX = "verb", "actor", "node", "app", "number", "truth", "hex"

SHAPES: dict[bytes, tuple[str, ...]] = {
    **dict.fromkeys((b"boot", b"tick", b"hear", b"hand"), (ACTOR, NUMBER)),
    **dict.fromkeys((b"crash", b"page", b"state"), (ACTOR,)),
    **dict.fromkeys((b"down", b"ship"), (ACTOR, NODE)),
    **dict.fromkeys((b"start", b"stop"), (ACTOR, APP, NODE)),
    **{b"permit": (ACTOR, APP, NODE, TRUTH), b"drain": (ACTOR, NODE, TRUTH)},
    **{b"takeover": (ACTOR, APP), b"same": (ACTOR, ACTOR)},
    **{b"share": (), b"bytes": (NUMBER,), b"feed": (HEX,)},
}
COMMANDS = (b"down", b"permit", b"start", b"stop", b"drain", b"takeover")


class InputFault(Exception):
    def __init__(self, kind: str) -> None:
        super().__init__(kind)
        self.kind = kind

    def line(self) -> bytes:
        """The program's line for it."""
        return f"input fault {INPUT_FAULTS.index(self.kind) + 1} {self.kind}".encode()


class ScriptFault(Exception):
    def __init__(self, line: int, kind: str) -> None:
        super().__init__(line, kind)
        self.number = line
        self.kind = kind

    def line(self) -> bytes:
        """The program's line for it."""
        return f"script fault {self.number} {SCRIPT_FAULTS.index(self.kind) + 1} {self.kind}".encode()


# Reading


Value = Union[int, bool, bytes]


@dataclass(frozen=True)
class Line:
    """A correct line: its verb, and the values of its other words."""

    word: bytes
    values: tuple[Value, ...]


def atom_name(word: bytes) -> bytes | None:
    """The name of a word, if it is an atom."""
    if is_bare_atom(word):
        return word
    inner = word[1:-1]
    is_quoted = len(word) >= 2 and word[:1] == b"'" == word[-1:]
    if is_quoted and not any(byte < 0x20 or byte in b"'\\\x7f" for byte in inner):
        return inner
    return None


def number_of(word: bytes) -> int | None:
    """The number of a word, if it is one within bounds."""
    if not word.isdigit() or (word[:1] == b"0" and word != b"0") or len(word) > len(str(MOST_NUMBER)):
        return None
    return int(word) if int(word) <= MOST_NUMBER else None


def bytes_of(word: bytes) -> bytes | None:
    """The bytes of a word, if it has some."""
    if len(word) % 2 or any(byte not in b"0123456789abcdef" for byte in word):
        return None
    return bytes.fromhex(word.decode())


class LineReader:
    """Reads the lines of a script under a configuration."""

    def __init__(self, config: Config) -> None:
        self.nodes = list(config.nodes)
        self.apps = [app.name for app in config.apps]

    def kinds_of(self, words: list[bytes]) -> tuple[str, ...] | None:
        """The required kinds of a line's words, if it is a line at all."""
        return (VERB, *SHAPES[words[0]]) if words[0] in SHAPES else None

    def fault_of(self, words: list[bytes]) -> str | None:
        """The least kind of fault of a line, over all its words."""
        kinds = self.kinds_of(words)
        if kinds is None:
            return "BadWord"
        if len(words) != len(kinds):
            return "BadCount"
        faults = [self.fault_of_word(kind, word) for kind, word in zip(kinds, words)]
        return min((fault for fault in faults if fault), key=SCRIPT_FAULTS.index, default=None)

    def fault_of_word(self, kind: str, word: bytes) -> str | None:
        if kind in (ACTOR, NODE, APP) and atom_name(word) is None:
            return "BadName"
        if kind == TRUTH and word not in (b"true", b"false"):
            return "BadName"
        if kind == NUMBER and number_of(word) is None:
            return "BadNumber"
        if kind == ACTOR and atom_name(word) not in self.nodes:
            return "UnknownActor"
        return "BadHex" if kind == HEX and bytes_of(word) is None else None

    def value_of(self, kind: str, word: bytes) -> Value:
        """The value of a correct word. An unknown name is the number just past the others."""
        if kind in (ACTOR, NODE, APP):
            name, names = atom_name(word) or b"", self.apps if kind == APP else self.nodes
            return names.index(name) if name in names else len(names)
        if kind == NUMBER:
            return number_of(word) or 0
        return word == b"true" if kind == TRUTH else bytes_of(word) or b""

    def read(self, line: bytes, number: int) -> Line:
        words = [word for word in line.split(b" ") if word] or [b""]
        fault = self.fault_of(words)
        if fault is not None:
            raise ScriptFault(number, fault)
        kinds = self.kinds_of(words) or ()
        values = [self.value_of(kind, word) for kind, word in zip(kinds, words) if kind != VERB]
        return Line(words[kinds.index(VERB)], tuple(values))


def read_lines(reader: LineReader, script: bytes) -> list[Line]:
    """All lines of a script but comments and empty ones, or the first fault."""
    lines = enumerate(script.split(b"\n"), 1)
    return [reader.read(line, number) for number, line in lines if line and line[:1] != b"%"]


def parted(source: bytes) -> tuple[bytes, bytes] | None:
    """The configuration and the script of an input, separated by its first line that is exactly two dashes."""
    at = 0
    while at < len(source):
        line_end = source.find(b"\n", at)
        past = len(source) if line_end < 0 else line_end
        if source[at:past] == b"--":
            return source[:at], source[past + 1 :]
        at = past + 1
    return None


def read_input(source: bytes, reader: type[LineReader]) -> tuple[Config, list[Line]]:
    """The configuration and the lines of an input, or its first fault."""
    if len(source) > MOST_INPUT:
        raise InputFault("TooLong")
    parts = parted(source)
    if parts is None:
        raise InputFault("NoScript")
    config = read_config(parts[0])
    return config, read_lines(reader(config), parts[1])


# Printing


class Printer:
    """The texts of a world."""

    def __init__(self, world: World) -> None:
        self.world = world
        self.config = world.config

    def node(self, node: int) -> bytes:
        return spelled(self.config.nodes[node])

    def app(self, app: int) -> bytes:
        """The name of an application."""
        return spelled(self.config.apps[app].name)

    def how(self, how: int, source: int) -> bytes:
        """The kind of a claim."""
        return HOW_NAMES[how] + (b" from " + self.node(source) if source >= 0 else b"")

    def issued(self, number: int) -> bytes:
        """An operation issued by a command."""
        dot = self.world.operations[number - 1].dot
        return b"issued %d %s %d %d" % (number, self.node(dot.node), dot.inc, dot.n)

    def claim(self, number: int) -> bytes:
        act = self.world.operations[number - 1].act
        if not isinstance(act, ClaimAct):
            raise TypeError(act)
        return b"claim %d %s term %d %s" % (number, self.app(act.app), act.term, self.how(act.how, act.source))

    def shipped(self, number: int) -> bytes:
        message = self.world.shipped(number)
        heard = "" if message.kind == NOTHING else " %d" % bin(message.body).count("1")
        return f"shipped {number} {BODY_NAMES[message.kind]}{heard}".encode()

    def page(self, node: int) -> list[bytes]:
        running = self.world.nodes[node].running
        if running is None:
            return [self.off(node)]
        state = self.world.state(node)
        lines = [b"node %s %d" % (self.node(node), running.inc)]
        lines.append(b"heard %d known %d" % (len(state.heard), len(state.known)))
        lines += [self.life(state, other) for other in range(len(self.config.nodes))]
        for app in range(len(self.config.apps)):
            lines += [self.app_line(state, app), self.list_line(state, app)]
        return lines

    def off(self, node: int) -> bytes:
        return b"node %s off" % self.node(node)

    def life(self, state: Meaning, node: int) -> bytes:
        """The line of a node's life. If the node is live, it includes whether it is drained."""
        life = state.lives.get(node)
        if life is None:
            return b"node %s unknown" % self.node(node)
        if life.is_down:
            return b"node %s down %d" % (self.node(node), life.inc)
        drained = b" drained" if placement.is_drained(state, Origin(node, life.inc)) else b""
        return b"node %s up %d%s" % (self.node(node), life.inc, drained)

    def app_line(self, state: Meaning, app: int) -> bytes:
        """The line of an application: its holder and its verdict."""
        claim = state.claims.get(app)
        found = placement.verdict(self.config, state, app)
        at = b"" if found.node is None else b" " + self.node(found.node)
        holder = b"none"
        if claim is not None:
            how = self.how(claim.how, claim.source)
            holder = b"%s %d term %d %s" % (self.node(claim.node), claim.inc, claim.term, how)
        return b"app %s holder %s verdict %s%s" % (self.app(app), holder, found.what.encode(), at)

    def list_line(self, state: Meaning, app: int) -> bytes:
        listed = self.config.apps[app].nodes()
        return b"list" + b"".join(b" %s=%s" % (self.node(node), self.mark(state, app, node)) for node in listed)

    def mark(self, state: Meaning, app: int, node: int) -> bytes:
        inc = state.live(node)
        if inc is None:
            return b"down"
        key = Key(app, node, inc)
        if not placement.is_permitted(self.config, state, key):
            return b"barred"
        if placement.is_drained(state, Origin(node, inc)):
            return b"drained"
        return b"ok" if placement.is_wished(state, key) else b"idle"


# Playing


class Player:
    """Plays lines, one after another."""

    def __init__(self, config: Config) -> None:
        self.world = World(config)
        self.text = Printer(self.world)
        self.replies: dict[bytes, Callable[..., list[bytes]]] = {
            b"boot": self.boot,
            b"crash": self.crash,
            b"tick": self.tick,
            b"ship": lambda node, to: [self.text.shipped(self.world.ship(node, to))],
            b"hear": lambda node, number: [HEARD[self.world.hear(node, number)]],
            b"hand": lambda node, number: [HEARD[self.world.hand(node, number)]],
            b"share": lambda: [b"shared %d" % self.world.share()],
            b"page": self.text.page,
            b"state": self.state,
            b"same": self.same,
            b"bytes": self.bytes,
            b"feed": self.feed,
        }

    def play(self, line: Line) -> list[bytes]:
        try:
            if line.word in COMMANDS:
                command: Callable[..., int] = getattr(self.world, line.word.decode())
                return [self.text.issued(command(*line.values))]
            return self.replies[line.word](*line.values)
        except Refused as refused:
            return [refused.line()]
        except NoSuch as none:
            return [b"no %s %d" % none.args]
        except WireFault as fault:
            return [fault.line()]

    def boot(self, node: int, now: int) -> list[bytes]:
        number = self.world.boot(node, now)
        return [b"booted %d op %d" % (self.world.nodes[node].last, number)]

    def crash(self, node: int) -> list[bytes]:
        self.world.crash(node)
        return [b"crashed"]

    def tick(self, node: int, now: int) -> list[bytes]:
        found = self.world.tick(node, now)
        if isinstance(found, str):
            return [found.encode()]
        return [b"ticked", *(self.text.claim(number) for number in found)]

    def state(self, node: int) -> list[bytes]:
        if not self.world.is_on(node):
            return [self.text.off(node)]
        return [state_bytes(self.world.state(node)).hex().encode()]

    def same(self, node: int, other: int) -> list[bytes]:
        """Whether two states have the same bytes."""
        for one in (node, other):
            if not self.world.is_on(one):
                return [self.text.off(one)]
        is_same = state_bytes(self.world.state(node)) == state_bytes(self.world.state(other))
        return [b"same" if is_same else b"differ"]

    def feed(self, data: bytes) -> list[bytes]:
        """Bytes read as a packet."""
        read_packet(self.world.config, data)
        return [b"wire ok"]

    def bytes(self, number: int) -> list[bytes]:
        return [packet_bytes(self.world.config, self.world.message(number)).hex().encode()]


def play_all(config: Config, lines: list[Line]) -> bytes:
    player = Player(config)
    return b"".join(text + b"\n" for line in lines for text in player.play(line))


def simulate(source: bytes) -> tuple[bytes, int]:
    """The program's output for an input, and its exit status."""
    try:
        config, lines = read_input(source, LineReader)
    except (InputFault, ConfigFault, ScriptFault) as fault:
        return fault.line() + b"\n", 1
    return play_all(config, lines), 0


def main() -> int:
    return run_model("sim.py", simulate)
