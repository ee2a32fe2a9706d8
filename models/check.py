#!/usr/bin/env python3
"""An outside model of `distac check`: a configuration text in, its canonical text or its first fault out.

It is written from the description of the format, without the program's code.

Usage: python3 check.py < FILE
"""

from __future__ import annotations

import sys
from collections.abc import Callable
from dataclasses import dataclass, field
from functools import cached_property

from streams import run_model

MOST_BYTES, MOST_INPUT = 65_536, 2_097_152
MOST_NODES, MOST_APPS = 64, 64
MOST_NAME, MOST_TIMEOUT, MOST_DEPTH = 255, 4_294_967_295, 64

FAULT_KINDS = (
    "TooLong BadToken Unsupported BadShape NoDistributed TwiceApp TwiceInList EmptyList EmptyTuple TooManyNodes TooManyApps "
    "NumberTooLarge NameTooLong"
).split()

BLANKS = frozenset(range(0x21))
DIGITS = frozenset(b"0123456789")
SMALL_LETTERS = frozenset(b"abcdefghijklmnopqrstuvwxyz")
ATOM_BYTES = SMALL_LETTERS | DIGITS | frozenset(b"ABCDEFGHIJKLMNOPQRSTUVWXYZ_@")
MARKS = frozenset(b"[]{},")
UNREAD_BYTES = frozenset(b"<#$+~|") | frozenset(range(0x80, 0x100))

DISTRIBUTED, PERMISSIONS = b"distributed", b"permissions"
MANDATORY, OPTIONAL, SYNC_TIMEOUT = b"sync_nodes_mandatory", b"sync_nodes_optional", b"sync_nodes_timeout"


class Fault(Exception):
    """A fault: its kind and its byte."""

    word = "fault"
    kinds: list[str] = []

    def __init__(self, kind: str, at: int) -> None:
        super().__init__(kind, at)
        self.kind = kind
        self.at = at

    def line(self) -> bytes:
        """The program's line for it."""
        return f"{self.word} {self.kinds.index(self.kind) + 1} {self.kind} at {self.at}".encode()


class ConfigFault(Fault):
    """The first fault of a text."""

    word = "config fault"
    kinds = FAULT_KINDS


# Tokens


@dataclass(frozen=True)
class Token:
    """A token: its kind, its beginning and end, and an atom's name or a number's digits.

    Kinds are the five marks, `stop`, `atom`, `number`, `string` and `end`.
    """

    kind: str
    at: int
    past: int
    value: bytes = b""


def is_bare_atom(name: bytes) -> bool:
    """Whether a name needs no quotes."""
    return name[:1] != b"" and name[0] in SMALL_LETTERS and set(name) <= ATOM_BYTES and name != b"fun"


def run_end(text: bytes, at: int, allowed: frozenset[int]) -> int:
    """The end of the longest run of allowed bytes from a place."""
    while at < len(text) and text[at] in allowed:
        at += 1
    return at


def skip_blanks(text: bytes, at: int) -> int:
    """The next byte that is neither blank nor in a comment."""
    while at < len(text):
        if text[at] in BLANKS:
            at += 1
        elif text[at] == ord("%"):
            line_end = text.find(b"\n", at)
            at = len(text) if line_end < 0 else line_end
        else:
            break
    return at


def quoted_atom(text: bytes, at: int) -> Token:
    here = at + 1
    while here < len(text) and text[here] != ord("'"):
        if text[here] == ord("\\") or text[here] < 0x20 or text[here] == 0x7F:
            raise ConfigFault("Unsupported", here)
        here += 1
    if here >= len(text):
        raise ConfigFault("BadToken", at)
    return Token("atom", at, here + 1, text[at + 1 : here])


def string_token(text: bytes, at: int) -> Token:
    """The string at a place. Its contents are skipped."""
    if text[at : at + 3] == b'"""':
        raise ConfigFault("Unsupported", at)
    here = at + 1
    while here < len(text) and text[here] != ord('"'):
        if text[here] != ord("\\"):
            here += 1
        elif text[here + 1 : here + 2] == b"^":
            raise ConfigFault("Unsupported", here)
        else:
            here += 2
    if here >= len(text):
        raise ConfigFault("BadToken", at)
    return Token("string", at, here + 1)


def bare_atom(text: bytes, at: int) -> Token:
    past = run_end(text, at, ATOM_BYTES)
    if text[at:past] == b"fun":
        raise ConfigFault("Unsupported", at)
    return Token("atom", at, past, text[at:past])


def number_token(text: bytes, at: int) -> Token:
    """The number at a place, with its sign."""
    past = run_end(text, at + 1, DIGITS)
    is_float = text[past : past + 1] == b"." and text[past + 1 : past + 2].isdigit()
    if is_float or text[past : past + 1] in (b"#", b"_"):
        raise ConfigFault("Unsupported", at)
    return Token("number", at, past, text[at:past])


def full_stop(text: bytes, at: int) -> Token:
    """The full stop at a place with a dot."""
    if at + 1 < len(text) and text[at + 1] not in BLANKS and text[at + 1] != ord("%"):
        raise ConfigFault("BadToken", at)
    return Token("stop", at, at + 1)


def token_at(text: bytes, at: int) -> Token:
    """The next token from a place."""
    at = skip_blanks(text, at)
    if at == len(text):
        return Token("end", at, at)
    first = text[at]
    if first in MARKS:
        return Token(chr(first), at, at + 1)
    if first == ord("."):
        return full_stop(text, at)
    if first in SMALL_LETTERS:
        return bare_atom(text, at)
    if first == ord("'"):
        return quoted_atom(text, at)
    if first in DIGITS or (first == ord("-") and text[at + 1 : at + 2].isdigit()):
        return number_token(text, at)
    if first == ord('"'):
        return string_token(text, at)
    raise ConfigFault("Unsupported" if first in UNREAD_BYTES else "BadToken", at)


# The draft


@dataclass
class Entry:
    """An application as read: its timeout and its groups of names."""

    name: bytes
    timeout: int = 0
    groups: list[list[bytes]] = field(default_factory=list)


@dataclass
class Draft:
    """The contents of a text, by names."""

    entries: list[Entry] = field(default_factory=list)
    permissions: list[tuple[bytes, bool]] = field(default_factory=list)
    mandatory: set[bytes] = field(default_factory=set)
    optional: set[bytes] = field(default_factory=set)
    sync_timeout: int | str | None = None
    nodes: set[bytes] = field(default_factory=set)


class Reader:
    """Reads a text from left to right with a lookahead of one token."""

    def __init__(self, text: bytes) -> None:
        self.text = text
        self.place = 0
        self.depth = 0
        self.ahead: Token | None = None
        self.draft = Draft()
        self.seen: set[bytes] = set()
        self.has_kernel = False

    def peek(self) -> Token:
        """The next token, not consumed."""
        if self.ahead is None:
            token = token_at(self.text, self.place)
            if token.kind in ("[", "{") and self.depth == MOST_DEPTH:
                raise ConfigFault("Unsupported", token.at)
            self.ahead = token
        return self.ahead

    def take(self) -> Token:
        """The next token, consumed."""
        token = self.peek()
        self.ahead = None
        self.place = token.past
        self.depth += {"[": 1, "{": 1, "]": -1, "}": -1}.get(token.kind, 0)
        return token

    def want(self, kind: str) -> Token:
        """The next token, which must be of a kind."""
        if self.peek().kind != kind:
            raise ConfigFault("BadShape", self.peek().at)
        return self.take()

    def parted(self, closing: str, item: Callable[[], None]) -> None:
        """Comma-separated items, at least one, up to a closing bracket."""
        item()
        while self.peek().kind == ",":
            self.take()
            item()
        self.want(closing)

    def parted_or_none(self, closing: str, item: Callable[[], None]) -> None:
        """Comma-separated items, maybe none, up to a closing bracket."""
        if self.peek().kind == closing:
            self.take()
        else:
            self.parted(closing, item)

    def file(self) -> None:
        self.want("[")
        self.parted_or_none("]", self.section)
        self.want("stop")
        self.want("end")
        if not self.draft.entries:
            raise ConfigFault("NoDistributed", len(self.text))

    def section(self) -> None:
        """A section: the kernel's, or one that is skipped."""
        if self.peek().kind == "string":
            raise ConfigFault("Unsupported", self.peek().at)
        self.want("{")
        name = self.want("atom")
        if name.value == b"kernel" and self.has_kernel:
            raise ConfigFault("BadShape", name.at)
        self.want(",")
        if name.value == b"kernel":
            self.has_kernel = True
            self.want("[")
            self.parted_or_none("]", self.parameter)
        else:
            self.term()
        self.want("}")

    def parameter(self) -> None:
        """A parameter of the kernel: one of the five, or one that is skipped."""
        self.want("{")
        name = self.want("atom")
        if name.value in self.seen:
            raise ConfigFault("BadShape", name.at)
        self.want(",")
        items: dict[bytes, Callable[[], None]] = {
            DISTRIBUTED: self.entry,
            PERMISSIONS: self.permission,
            MANDATORY: lambda: self.draft.mandatory.add(self.node(set())),
            OPTIONAL: lambda: self.draft.optional.add(self.node(set())),
        }
        if name.value in items:
            self.want("[")
            self.parted_or_none("]", items[name.value])
        elif name.value == SYNC_TIMEOUT:
            self.sync_timeout()
        else:
            self.term()
        if name.value in items or name.value == SYNC_TIMEOUT:
            self.seen.add(name.value)
        self.want("}")

    def name(self) -> Token:
        token = self.want("atom")
        if len(token.value) > MOST_NAME:
            raise ConfigFault("NameTooLong", token.at)
        return token

    def node(self, twice: set[bytes]) -> bytes:
        """A node's name, which must differ from some others."""
        token = self.name()
        if token.value in twice:
            raise ConfigFault("TwiceInList", token.at)
        if token.value not in self.draft.nodes and len(self.draft.nodes) == MOST_NODES:
            raise ConfigFault("TooManyNodes", token.at)
        self.draft.nodes.add(token.value)
        return token.value

    def milliseconds(self) -> int:
        token = self.want("number")
        digits = token.value.lstrip(b"-").lstrip(b"0") or b"0"
        if token.value[:1] == b"-" and digits != b"0":
            raise ConfigFault("BadShape", token.at)
        if len(digits) > len(str(MOST_TIMEOUT)) or int(digits) > MOST_TIMEOUT:
            raise ConfigFault("NumberTooLarge", token.at)
        return int(digits)

    def entry(self) -> None:
        """An application with its nodes."""
        self.want("{")
        token = self.name()
        if any(entry.name == token.value for entry in self.draft.entries):
            raise ConfigFault("TwiceApp", token.at)
        if len(self.draft.entries) == MOST_APPS:
            raise ConfigFault("TooManyApps", token.at)
        entry = Entry(token.value)
        self.draft.entries.append(entry)
        self.want(",")
        if self.peek().kind == "number":
            entry.timeout = self.milliseconds()
            self.want(",")
        self.node_list(entry)
        self.want("}")

    def node_list(self, entry: Entry) -> None:
        """The list of an application: nodes, and tuples of nodes."""
        opening = self.want("[")
        if self.peek().kind == "]":
            raise ConfigFault("EmptyList", opening.at)
        listed: set[bytes] = set()
        self.parted("]", lambda: self.group(entry, listed))

    def group(self, entry: Entry, listed: set[bytes]) -> None:
        """An item of an application's list."""
        group: list[bytes] = []
        entry.groups.append(group)

        def member() -> None:
            group.append(self.node(listed))
            listed.add(group[-1])

        if self.peek().kind != "{":
            member()
            return
        opening = self.take()
        if self.peek().kind == "}":
            raise ConfigFault("EmptyTuple", opening.at)
        self.parted("}", member)

    def permission(self) -> None:
        self.want("{")
        name = self.name()
        self.want(",")
        value = self.peek()
        if value.kind != "atom" or value.value not in (b"true", b"false"):
            raise ConfigFault("BadShape", value.at)
        self.take()
        self.want("}")
        self.draft.permissions.append((name.value, value.value == b"true"))

    def sync_timeout(self) -> None:
        """A wait in milliseconds, or without end."""
        token = self.peek()
        if token.kind == "atom" and token.value == b"infinity":
            self.take()
            self.draft.sync_timeout = "infinity"
        else:
            self.draft.sync_timeout = self.milliseconds()

    def term(self) -> None:
        if self.peek().kind not in ("atom", "number", "string", "[", "{"):
            raise ConfigFault("BadShape", self.peek().at)
        token = self.take()
        if token.kind == "[":
            self.parted_or_none("]", self.term)
        elif token.kind == "{":
            self.parted_or_none("}", self.term)
        elif token.kind == "string":
            while self.peek().kind == "string":
                self.take()


# The configuration


@dataclass(frozen=True)
class App:
    """An application: its name, its wait, its default permission, and its groups of nodes by number."""

    name: bytes
    timeout: int
    permission: bool
    groups: tuple[tuple[int, ...], ...]

    def group_of(self, node: int) -> int | None:
        """The number of a node's group."""
        return next((number for number, group in enumerate(self.groups) if node in group), None)

    def nodes(self) -> list[int]:
        return [node for group in self.groups for node in group]


@dataclass(frozen=True)
class Config:
    """A configuration. Nodes are numbered in the byte order of their names, applications in the order of the file."""

    nodes: tuple[bytes, ...]
    apps: tuple[App, ...]
    mandatory: frozenset[int]
    optional: frozenset[int]
    sync_timeout: int | str | None

    @cached_property
    def canonical_text(self) -> bytes:
        """The text shared by all equal configurations."""
        entries = [self.entry_text(app) for app in self.apps]
        permissions = [b"{%s,false}" % spelled(app.name) for app in self.apps if not app.permission]
        parts = [
            b"{distributed,[%s]}" % b",".join(entries),
            b"{permissions,[%s]}" % b",".join(permissions),
            b"{sync_nodes_mandatory,[%s]}" % self.names_text(sorted(self.mandatory)),
            b"{sync_nodes_optional,[%s]}" % self.names_text(sorted(self.optional)),
        ]
        if self.sync_timeout is not None:
            parts.append(b"{sync_nodes_timeout,%s}" % str(self.sync_timeout).encode())
        return b"[{kernel,[%s]}].\n" % b",".join(parts)

    def entry_text(self, app: App) -> bytes:
        groups = [
            self.names_text(group) if len(group) == 1 else b"{%s}" % self.names_text(group) for group in app.groups
        ]
        return b"{%s,%d,[%s]}" % (spelled(app.name), app.timeout, b",".join(groups))

    def names_text(self, nodes: tuple[int, ...] | list[int]) -> bytes:
        """The names of some nodes, separated by commas."""
        return b",".join(spelled(self.nodes[node]) for node in nodes)

    @cached_property
    def mark(self) -> int:
        """The 64-bit FNV-1a hash of the canonical text."""
        mark = 14695981039346656037
        for byte in self.canonical_text:
            mark = (mark ^ byte) * 1099511628211 % 2**64
        return mark


def spelled(name: bytes) -> bytes:
    return name if is_bare_atom(name) else b"'%s'" % name


def config_of(draft: Draft) -> Config:
    nodes = tuple(sorted(draft.nodes))
    number = {name: place for place, name in enumerate(nodes)}
    permissions: dict[bytes, bool] = {}
    for name, value in draft.permissions:
        permissions.setdefault(name, value)
    apps = tuple(
        App(
            entry.name,
            entry.timeout,
            permissions.get(entry.name, True),
            tuple(tuple(sorted(number[node] for node in group)) for group in entry.groups),
        )
        for entry in draft.entries
    )
    mandatory = frozenset(number[name] for name in draft.mandatory)
    optional = frozenset(number[name] for name in draft.optional)
    return Config(nodes, apps, mandatory, optional, draft.sync_timeout)


def read_config(text: bytes) -> Config:
    """The configuration of a text, or its first fault."""
    if len(text) > MOST_BYTES:
        raise ConfigFault("TooLong", MOST_BYTES)
    reader = Reader(text)
    reader.file()
    return config_of(reader.draft)


def check(text: bytes) -> tuple[bytes, int]:
    """The program's output for an input, and its exit status."""
    if len(text) > MOST_INPUT:
        return b"input fault 1 TooLong\n", 1
    try:
        return read_config(text).canonical_text, 0
    except ConfigFault as fault:
        return fault.line() + b"\n", 1


def main() -> int:
    return run_model("check.py", check)


if __name__ == "__main__":
    sys.exit(main())
