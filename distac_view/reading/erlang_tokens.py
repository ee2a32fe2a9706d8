"""The tokens of Erlang's whole term syntax, in texts and in bytes.

Files of nodes contain more than `distac` reads, and only `distac` decides whether it accepts a text. The sentence on a
refused text needs the tokens before the fault.
"""

from __future__ import annotations

import re
from enum import Enum
from typing import Iterator, NamedTuple

from distac_view.common.texts import bytes_of, text_of


class Kind(Enum):
    """The kinds of tokens that Erlang's terms are made of."""

    MARK = "mark"
    STOP = "stop"
    ATOM = "atom"
    QUOTED = "quoted atom"
    NUMBER = "number"
    CHARACTER = "character"
    STRING = "string"
    TEXT = "triple-quoted string"
    SIGIL = "sigil"


class Token(NamedTuple):
    """A token: its kind, its beginning and end, and its text. Places are characters, or bytes if from `byte_tokens`."""

    kind: Kind
    start: int
    end: int
    written: str

    @property
    def is_name(self) -> bool:
        """Whether it is an atom, quoted or not."""
        return self.kind in (Kind.ATOM, Kind.QUOTED)


class Misread(Exception):
    """The fault at a character of a text."""

    def __init__(self, place: int, sentence: str) -> None:
        super().__init__(place, sentence)
        self.place = place
        self.sentence = sentence


DIGITS = r"[0-9]+(?:_[0-9]+)*"
LETTERS = r"[A-Za-z0-9_@\u00c0-\u00d6\u00d8-\u00f6\u00f8-\u00ff]*"
ESCAPED = r"\\(?:\^.|[^^])"
BLANKS = re.compile(r"(?:[\x00-\x20\x80-\xa0]|%[^\n]*)*")
FORMS = (
    (Kind.TEXT, r'(?P<fence>"{3,20}(?!"))[^\S\n]*\n.*?\n[^\S\n]*(?P=fence)'),
    (Kind.STRING, rf'"(?:[^"\\]|{ESCAPED})*"'),
    (Kind.SIGIL, rf'~[A-Za-z]*(?:(?P<mark>"{{3,20}}(?!"))[^\S\n]*\n.*?\n[^\S\n]*(?P=mark)|"(?:[^"\\]|{ESCAPED})*"|\'(?:[^\'\\]|{ESCAPED})*\''
     r"|\[[^\]]*\]|\{[^}]*\}|\([^)]*\)|<[^>]*>|/[^/]*/|\|[^|]*\||`[^`]*`|#[^#]*#)"),
    (Kind.QUOTED, rf"'(?:[^'\\]|{ESCAPED})*'"),
    (Kind.CHARACTER, r"\$(?:\\(?:\^.|x\{[0-9A-Fa-f]+\}|x[0-9A-Fa-f]{2}|[0-7]{1,3}|[^^x])|[^\\])"),
    (Kind.NUMBER, rf"{DIGITS}(?:#[0-9A-Za-z]+(?:_[0-9A-Za-z]+)*|\.{DIGITS}(?:[eE][-+]?{DIGITS})?)?"),
    (Kind.ATOM, rf"[a-z\u00df-\u00f6\u00f8-\u00ff]{LETTERS}"),
    (Kind.MARK, r"<<|>>|=>|#\{|[\[\]{}(),|:/+-]"),
    (Kind.STOP, r"\.(?=[\x00-\x20\x80-\xa0%]|\Z)"),
)
KINDS = {kind.name: kind for kind in Kind}
TOKEN = re.compile("|".join(f"(?P<{kind.name}>{form})" for kind, form in FORMS), re.DOTALL)


def tokens_of(text: str) -> Iterator[Token]:
    """The tokens of a text. Raises this if none begins."""
    place = blanks_end(text, 0)
    while place < len(text):
        found = TOKEN.match(text, place)
        if found is None:
            raise Misread(place, why_none(text, place))
        yield Token(KINDS[str(found.lastgroup)], found.start(), found.end(), found.group())
        place = blanks_end(text, found.end())


# The tokens of distac's configurations.
READ_KINDS = frozenset((Kind.STOP, Kind.ATOM, Kind.QUOTED, Kind.NUMBER, Kind.STRING))
READ_MARKS = frozenset("[]{},")


def byte_tokens(source: bytes) -> Iterator[Token]:
    """The tokens of a text by bytes, up to one that `distac` doesn't read. An invalid byte is a character."""
    text, place, offset = text_of(source), 0, 0
    for token in read_tokens(text):
        offset += len(bytes_of(text[place : token.start]))
        start, offset, place = offset, offset + len(bytes_of(token.written)), token.end
        yield token._replace(start=start, end=offset)


def read_tokens(text: str) -> Iterator[Token]:
    """The tokens of a text up to the first that `distac` doesn't read. A minus belongs to the number that it touches."""
    minus: Token | None = None
    try:
        for token in tokens_of(text):
            if minus is not None:
                if token.kind is not Kind.NUMBER or token.start != minus.end:
                    return
                yield Token(Kind.NUMBER, minus.start, token.end, f"-{token.written}")
                minus = None
            elif token.written == "-":
                minus = token
            elif token.kind in READ_KINDS or token.written in READ_MARKS:
                yield token
            else:
                return
    except Misread:
        return


def blanks_end(text: str, place: int) -> int:
    """The first character from a place that is neither blank nor in a comment."""
    found = BLANKS.match(text, place)
    return found.end() if found else place


def why_none(text: str, place: int) -> str:
    """Why no token begins at a character."""
    sign = text[place]
    if sign in "\"'":
        return f"this {sign} is never closed: put another one where it ends"
    if sign == "\ufeff":
        return "the file begins with a byte order mark, and Erlang reads none: save it without"
    if sign.isupper() or sign == "_":
        return "a variable is no term: only a small letter begins a name without quotes, and any other name stands between '"
    return "no term of Erlang has this sign here"


SIMPLE_ESCAPES = {"b": 8, "d": 127, "e": 27, "f": 12, "n": 10, "r": 13, "s": 32, "t": 9, "v": 11}
ESCAPE = re.compile(r"\\(?:\^(?P<control>.)|x\{(?P<code>[0-9A-Fa-f]+)\}|x(?P<pair>[0-9A-Fa-f]{2})|(?P<octal>[0-7]{1,3})|(?P<sign>.))", re.DOTALL)
MOST_CODE = 0x10FFFF


def unescaped(written: str, place: int) -> str:
    """The text between quotes, without escapes. The place is that of its first character, for faults."""
    if "\\" not in written:
        return written

    def replacement(found: re.Match[str]) -> str:
        """The character of an escape."""
        code = MOST_CODE + 1 if found["sign"] == "x" else code_of(found)
        if code > MOST_CODE or 0xD800 <= code < 0xE000:
            raise Misread(place + found.start(), "no character has this number")
        return chr(code)

    return ESCAPE.sub(replacement, written)


def code_of(found: re.Match[str]) -> int:
    """The number of an escape's character."""
    if found["control"]:
        return ord(found["control"]) & 31
    if found["code"] or found["pair"]:
        return int(found["code"] or found["pair"], 16)
    if found["octal"]:
        return int(found["octal"], 8)
    return SIMPLE_ESCAPES.get(found["sign"], ord(found["sign"]))
