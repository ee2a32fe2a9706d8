"""Erlang's terms, read from a text in the whole term syntax, as values with their places.

Nothing here recurses, so brackets may be as deep as a text is long.
"""

from __future__ import annotations

import re
from dataclasses import dataclass, field
from typing import List, NamedTuple, Tuple, Union

from distac_view.reading.erlang_tokens import Kind, Misread, Token, tokens_of, unescaped

RESERVED = frozenset(
    "after and andalso band begin bnot bor bsl bsr bxor case catch cond div else end fun if let maybe not of or orelse receive rem try"
    " when xor".split()
)
SOFT_WORDS = frozenset(("else", "maybe"))
MOST_DIGITS = 1_000
MOST_ATOM = 255


@dataclass(frozen=True)
class Atom:
    """An atom by its name, without quotes."""

    name: str


@dataclass(frozen=True)
class Other:
    """A term that placement doesn't use: a map, a binary, a fun, a huge number, or an improper list, by kind."""

    kind: str


Term = Union[Atom, Other, int, float, List["Term"], Tuple["Term", ...]]
"""A value of Erlang. A string is the list of its characters' numbers."""

Way = Tuple[int, ...]
"""A way into a term: the number of one of its items, then that of an item of this one, and so on."""


class Spot(NamedTuple):
    """The beginning of a term and of its items. Only lists and tuples have items."""

    place: int
    items: "tuple[Spot, ...]" = ()

    def at(self, way: Way) -> int:
        """The first character of the term at a way, or of the last known term on it."""
        spot = self
        for number in way:
            if number >= len(spot.items):
                break
            spot = spot.items[number]
        return spot.place


CLOSING = {"[": "]", "{": "}", "(": ")", "#{": "}"}
WITHIN_BINARY = frozenset((*"(),:/+-", "<<", ">>"))


@dataclass
class Frame:
    """An open bracket, or a sign before a number: its contents so far, and whether a term can or must follow."""

    opened: str
    place: int
    items: list[Term] = field(default_factory=list)
    spots: list[Spot] = field(default_factory=list)
    wants_term: bool = False
    has_tail: bool = False


class TermReader:
    """Reads one term that ends in a full stop, followed only by blanks."""

    def __init__(self, text: str) -> None:
        self.length = len(text)
        self.tokens = tokens_of(text)
        self.held: Token | None = None
        self.frames = [Frame("", 0, wants_term=True)]

    def take(self) -> Token:
        if self.held is not None:
            held, self.held = self.held, None
            return held
        token = next(self.tokens, None)
        if token is None:
            raise Misread(self.length, self.at_end())
        return token

    def at_end(self) -> str:
        """What the end of the text lacks."""
        opened = self.frames[-1].opened
        return f"the text ends, and a {opened} is still open" if opened in CLOSING else "the full stop at the end is missing"

    def term(self) -> Term:
        """The term of the whole text."""
        while True:
            token = self.take()
            if token.kind is Kind.STOP:
                return self.whole(token)
            if token.kind is Kind.MARK:
                self.mark(token)
            else:
                self.add(self.value(token), token)

    def whole(self, stop: Token) -> Term:
        """The only term, after which the text ends."""
        top = self.frames[-1]
        if top.opened or top.wants_term:
            raise Misread(stop.start, f"a {top.opened} is still open" if top.opened else "a term is wanted before the full stop")
        behind = next(self.tokens, None)
        if behind is not None:
            raise Misread(behind.start, "something stands behind the full stop, and one term is wanted")
        return top.items[0]

    def mark(self, token: Token) -> None:
        """A bracket, a comma, or a sign."""
        written, top = token.written, self.frames[-1]
        if written in CLOSING or written in "+-":
            self.want(token)
            self.frames.append(Frame(written, token.start, wants_term=written in "(+-"))
        elif written == "<<":
            self.want(token)
            self.skip_binary(token)
            self.add(Other("binary"), token)
        elif written in ("]", "}", ")") and top.opened and CLOSING.get(top.opened) == written:
            self.close(token)
        elif written in (",", "|", "=>") and not top.wants_term and top.items:
            self.go_on(token)
        else:
            raise Misread(token.start, f"{written} may not stand here")

    def want(self, token: Token) -> None:
        """Begins a term, which must be expected here."""
        top = self.frames[-1]
        if top.items and not top.wants_term:
            raise Misread(token.start, f"a comma is missing before {token.written[:40]}")

    def go_on(self, token: Token) -> None:
        """Expects one more term after a comma, a bar or an arrow."""
        top, written = self.frames[-1], token.written
        is_key = top.opened == "#{" and len(top.items) % 2 == 1
        if written == ",":
            is_allowed = top.opened in ("[", "{", "#{") and not top.has_tail and not is_key
        else:
            is_allowed = is_key if written == "=>" else top.opened == "[" and not top.has_tail
        if not is_allowed:
            raise Misread(token.start, f"{written} may not stand here")
        top.wants_term, top.has_tail = True, top.has_tail or written == "|"

    def close(self, token: Token) -> None:
        """Closes a bracket, whose contents become a term."""
        frame = self.frames.pop()
        if frame.wants_term or (frame.opened == "#{" and len(frame.items) % 2):
            raise Misread(token.start, f"something is missing before this {token.written}")
        self.put(value_of_frame(frame), spot_of_frame(frame))

    def add(self, value: Term, token: Token) -> None:
        """Adds a term of one or a few tokens."""
        self.want(token)
        self.put(value, Spot(token.start))

    def put(self, value: Term, spot: Spot) -> None:
        """Adds a term to the innermost open bracket, through the sign before it."""
        top, place = self.frames[-1], spot.place
        if top.opened and top.opened in "+-":
            self.frames.pop()
            if isinstance(value, Signed) or not isinstance(value, (int, float)) and value != Other("number"):
                raise Misread(place, f"a number is wanted behind {top.opened}")
            value, spot = signed(top.opened, value), Spot(top.place)
            top = self.frames[-1]
        if top.opened and top.opened in "+-":
            raise Misread(place, f"a number is wanted behind {top.opened}")
        top.items.append(value)
        top.spots.append(spot)
        top.wants_term = False

    def skip_binary(self, token: Token) -> None:
        """Skips the tokens of a binary, because placement doesn't use it."""
        depth = 1
        while depth:
            inner = self.take()
            if inner.kind is Kind.STOP or (inner.kind is Kind.MARK and inner.written not in WITHIN_BINARY):
                raise Misread(inner.start, f"{inner.written} may not stand in a binary")
            depth += {"<<": 1, ">>": -1}.get(inner.written, 0) if inner.kind is Kind.MARK else 0

    def value(self, token: Token) -> Term:
        """The value of a token that isn't a mark, together with those that belong to it."""
        written, kind = token.written, token.kind
        if kind is Kind.ATOM and written in RESERVED:
            return self.reserved(token)
        if kind in (Kind.ATOM, Kind.QUOTED):
            return atom_of(token)
        if kind is Kind.NUMBER:
            return number_of(token)
        if kind is Kind.CHARACTER:
            return ord(unescaped(written[1:], token.start + 1))
        if kind is Kind.SIGIL:
            return [] if written[1:2] in "sS" else Other("binary")
        return self.string(token)

    def reserved(self, token: Token) -> Term:
        """A reserved word of Erlang, of which only a fun is a term."""
        if token.written in SOFT_WORDS:
            return Atom(token.written)
        if token.written != "fun":
            raise Misread(token.start, f"{token.written} is a word of Erlang's own: as a name it stands between quotes")
        for kinds, wanted in ((NAMES, ""), ((Kind.MARK,), ":"), (NAMES, ""), ((Kind.MARK,), "/"), ((Kind.NUMBER,), "")):
            part = self.take()
            if part.kind not in kinds or (wanted and part.written != wanted):
                raise Misread(part.start, "of funs only fun MODULE:NAME/ARITY is a term")
        return Other("fun")

    def string(self, token: Token) -> Term:
        """A string and the following ones, as one list of numbers."""
        numbers: list[Term] = []
        part: Token | None = token
        while part is not None and part.kind in (Kind.STRING, Kind.TEXT):
            numbers += [ord(sign) for sign in text_in(part)]
            part = next(self.tokens, None)
        self.held = part
        return numbers


NAMES = (Kind.ATOM, Kind.QUOTED)


class Signed(int):
    """A whole number that already has a sign."""


def signed(sign: str, value: Term) -> Term:
    """A number after a sign."""
    if isinstance(value, int):
        return Signed(-value if sign == "-" else value)
    return -value if sign == "-" and isinstance(value, float) else value


def value_of_frame(frame: Frame) -> Term:
    """The value of a closed bracket."""
    if frame.opened == "(":
        return frame.items[0]
    if frame.opened == "#{":
        return Other("map")
    if frame.opened == "{":
        return tuple(frame.items)
    if not frame.has_tail:
        return frame.items
    tail = frame.items[-1]
    return [*frame.items[:-1], *tail] if isinstance(tail, list) else Other("list with a tail")


def spot_of_frame(frame: Frame) -> Spot:
    """The place of a closed bracket, and of its items."""
    if frame.opened == "(":
        return frame.spots[0]
    if frame.opened == "#{":
        return Spot(frame.place)
    if not frame.has_tail:
        return Spot(frame.place, tuple(frame.spots))
    return Spot(frame.place, (*frame.spots[:-1], *frame.spots[-1].items))


def atom_of(token: Token) -> Atom:
    name = token.written
    if token.kind is Kind.QUOTED:
        name = unescaped(name[1:-1], token.start + 1)
    if len(name) > MOST_ATOM:
        raise Misread(token.start, "a name has at most 255 characters")
    return Atom(name)


def number_of(token: Token) -> Term:
    """The number of a token. One with very many digits is only known as a number."""
    plain = token.written.replace("_", "")
    if "#" in plain:
        base, digits = plain.split("#", 1)
        return based_number(token, base, digits)
    if "." in plain:
        value = float(plain)
        if value in (float("inf"), float("-inf")):
            raise Misread(token.start, "this number is too large for Erlang")
        return value
    return int(plain) if len(plain) <= MOST_DIGITS else Other("number")


def based_number(token: Token, base: str, digits: str) -> Term:
    if len(base) > 2 or not 2 <= int(base) <= 36:
        raise Misread(token.start, "a base is a number from 2 to 36")
    if len(digits) > MOST_DIGITS:
        return Other("number")
    try:
        return int(digits, int(base))
    except ValueError as error:
        raise Misread(token.start, f"these aren't digits of the base {base}") from error


def text_in(token: Token) -> str:
    if token.kind is Kind.STRING:
        return unescaped(token.written[1:-1], token.start + 1)
    lines = token.written.split("\n")
    indent = re.match(r"[^\S\n]*", lines[-1])
    count = indent.end() if indent else 0
    return "\n".join(line[count:] for line in lines[1:-1])


def term_of(text: str) -> Term:
    """The only term of a text, or else an error."""
    return TermReader(text).term()


def spot_of(text: str) -> Spot:
    """The place of a text's term, and of its items, with the errors of `term_of`."""
    reader = TermReader(text)
    reader.term()
    return reader.frames[0].spots[0]
