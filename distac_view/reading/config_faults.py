"""Sentences on the faults of configurations: the rule, and its remedy."""

from __future__ import annotations

import codecs
import re
from dataclasses import dataclass
from typing import Callable

from distac_view.common.diagnostics import Remark, line_from, place_of
from distac_view.common.misspellings import near_to
from distac_view.common.names import name_of
from distac_view.common.texts import cut, shown, text_of
from distac_view.reading.erlang_tokens import Kind, Token, byte_tokens
from distac_view.reading.faults import Fault
from distac_view.reading.templates import FILLED_IN, TEMPLATE

READ_PARAMETERS = ("distributed", "permissions", "sync_nodes_mandatory", "sync_nodes_optional", "sync_nodes_timeout")
PAIRS = {"[": "]", "{": "}"}
ELSEWHERE = "move it to another file of -config, or let distac-view gather read the files of your nodes"
NAME_SIGNS = re.compile(rb"[A-Za-z0-9_@]")


@dataclass(frozen=True)
class Scene:
    """A text with the byte of its fault, and the tokens that end before that byte."""

    text: bytes
    at: int
    before: list[Token]

    @property
    def last(self) -> str:
        """The token before the fault, as written."""
        return self.before[-1].written if self.before else ""

    @property
    def here(self) -> Token | None:
        token = next(byte_tokens(self.text[self.at :]), None)
        return token if token is not None and token.start == 0 else None

    @property
    def sign(self) -> str:
        """The character at the fault."""
        return text_of(self.text[self.at : self.at + 4])[:1]

    @property
    def is_end(self) -> bool:
        """Whether the text ends at the fault."""
        return self.at >= len(self.text)

    @property
    def touches_name(self) -> bool:
        """Whether the character before the fault belongs to an unquoted name."""
        return bool(self.before) and self.before[-1].kind is Kind.ATOM and self.before[-1].end == self.at

    def open_brackets(self) -> list[Token]:
        """The brackets that are open at the fault, the innermost last."""
        found: list[Token] = []
        for token in self.before:
            if token.written in PAIRS:
                found.append(token)
            elif token.written in PAIRS.values() and found:
                found.pop()
        return found

    def line_of(self, token: Token) -> int:
        """The line of a token."""
        return place_of(self.text, token.start).line

    @property
    def parameter(self) -> str | None:
        """The parameter open at the fault, by name. A section's name is two brackets deep, a parameter's four."""
        depth, names, last = 0, {2: "", 4: ""}, ""
        for token in self.before:
            depth += {"[": 1, "{": 1, "]": -1, "}": -1}.get(token.written, 0)
            if token.is_name and last == "{" and depth in names:
                names[depth] = name_of(token.written)
            last = token.written
        return names[4] if depth >= 4 else None

    @property
    def is_read(self) -> bool:
        """Whether the fault is in one of the parameters that are read, or outside all parameters."""
        return self.parameter is None or self.parameter in READ_PARAMETERS


def remark_on(fault: Fault, text: bytes) -> Remark:
    scene = Scene(text, fault.place, list(byte_tokens(text[: fault.place])))
    sentence = SENTENCES[fault.name](scene) if fault.name in SENTENCES else "see docs/FORMATS.md"
    return Remark(place_of(text, shown_offset(scene)), fault.name, sentence)


def shown_offset(scene: Scene) -> int:
    """The byte under which the caret is. If the fault is the end of the text, it is the place after the last token."""
    if not scene.is_end:
        return scene.at
    meant = meant_for_distributed(scene)
    if meant and not scene.open_brackets():
        return meant.start
    return scene.before[-1].end if scene.before else len(scene.text[: scene.at].rstrip())


def quotes_for(scene: Scene) -> str:
    """That a name needs quotes, with the name as it should be written."""
    start = scene.before[-1].start if scene.touches_name else scene.at
    name = re.split(r"[\s,\[\]{}'\"%]", text_of(line_from(scene.text, start)))[0]
    name = name[:-1] if name.endswith(".") else name
    return f"only a small letter followed by letters, digits, _ and @ needs no quotes: write '{cut(shown(name), 60)}'"


def bad_token(scene: Scene) -> str:
    """A byte that begins no token."""
    sign = scene.sign
    if scene.text.startswith(b"--\n", scene.at):
        return "a script begins here: check looks at a configuration alone, so take play for a script"
    if sign == "'":
        return "this quote is never closed: put a ' behind the name"
    if sign == '"':
        return 'this string is never closed: put a " behind it'
    if not scene.before:
        return NO_TERMS
    if sign == "." and not scene.touches_name:
        return "a full stop ends the text, with a blank or a line's end behind it"
    if scene.touches_name or sign.isalpha() or sign == "_":
        return quotes_for(scene)
    hints = {"=": "Erlang writes {name,value}", ";": "items are parted by commas", ":": "write {name,value}"}
    return f"{named(sign)} belongs to no term: {hints.get(sign, 'take it out, or put the name around it between quotes')}"


NO_TERMS = "a configuration begins with [, and no term of Erlang's begins here: for vm.args or runtime.exs see gather --print-command"


def unsupported(scene: Scene) -> str:
    """A term that Erlang reads, but not this program."""
    rest = scene.text[scene.at : scene.at + 8]
    if scene.at == 0 and rest.startswith(ORDER_MARKS):
        return "the file begins with a byte order mark: save it as UTF-8 without one"
    if TEMPLATE.match(text_of(line_from(scene.text, scene.at))):
        return FILLED_IN
    if rest[:1] in (b"[", b"{"):
        return f"brackets may be 64 deep: {ELSEWHERE}"
    if rest[:1] == b'"':
        return string_term(scene)
    if scene.is_read and (rest[:1] >= b"\x80" or (scene.touches_name and rest[:1] in b"+~$#")):
        return quotes_for(scene) + ("; or is it a sign that was pasted in?" if rest[:1] >= b"\x80" else "")
    return unread_term(scene, rest)


def unread_term(scene: Scene, rest: bytes) -> str:
    """A term of a kind that isn't read. Outside the parameters that are read, it can stay in another file."""
    is_number = scene.here is not None and scene.here.kind is Kind.NUMBER
    if is_number and scene.is_read:
        return "only whole decimal numbers are read, without a base, a point or underscores: write 5000, not 5_000 or 5.0"
    what = next((name for beginning, name in UNREAD.items() if rest.startswith(beginning)), "")
    what = "numbers with a base, a point or underscores" if is_number else what
    if what:
        about = "" if scene.is_read else f", and {cut(shown(str(scene.parameter)), 60)} says nothing of placement"
        return f"{what} aren't read here{about}: {ELSEWHERE}"
    return "names between quotes may hold no backslash, tab or other control character: " + (
        "write the name without it" if scene.is_read else ELSEWHERE
    )


ORDER_MARKS = (codecs.BOM_UTF8, codecs.BOM_UTF16_LE, codecs.BOM_UTF16_BE)
UNREAD = {
    b"#": "maps and records",
    b"<": "binaries",
    b"$": "character literals",
    b"+": "plus signs",
    b"~": "sigils",
    b"|": "list tails",
    b"fun": "funs",
    b"\\^": "control escapes in strings",
}


def string_term(scene: Scene) -> str:
    """A string in a place for none."""
    if scene.text[scene.at : scene.at + 3] == b'"""':
        return f"triple-quoted strings aren't read here: {ELSEWHERE}"
    return "a file name among the sections isn't followed: put the sections of that file here, or let distac-view gather follow it"


def bad_shape(scene: Scene) -> str:
    """A misplaced token, or a missing one."""
    for rule in (at_end, no_list, behind_dash, wrong_value, wrong_bracket, second_time, missing_comma, comma_too_many):
        sentence = rule(scene)
        if sentence:
            return sentence
    what = cut(scene.here.written, 40) if scene.here else named(scene.sign)
    behind = f" behind {cut(shown(scene.last), 40)}" if scene.last else ""
    return f"{shown(what)} may not stand here{behind}: the text is [{{kernel,[{{distributed,[{{APP,MS,[NODES]}}]}}]}}]."


def at_end(scene: Scene) -> str | None:
    """The text ends too early."""
    if not scene.is_end:
        return None
    still_open = scene.open_brackets()
    if still_open:
        bracket = still_open[-1]
        closing = PAIRS[bracket.written]
        line = scene.line_of(bracket)
        return f"the text ends, and the {bracket.written} of line {line} is still open: put a {closing} where it ends"
    if not scene.before:
        return "there is no configuration: a text begins with [ and ends with a full stop"
    return "the full stop at the end is missing: put a . behind the last bracket"


def no_list(scene: Scene) -> str | None:
    """Something other than a bracket at the beginning."""
    return None if scene.before else NO_TERMS if scene.sign.isalpha() else "a configuration begins with [: write [{kernel,[..]}]."


def behind_dash(scene: Scene) -> str | None:
    """An unquoted name with a dash, or a second text."""
    if scene.touches_name and not NAME_SIGNS.match(scene.text, scene.at) and scene.sign not in "[]{},.%":
        return quotes_for(scene)
    if scene.last == ".":
        return "something stands behind the full stop: a text ends there"
    return None


def wrong_value(scene: Scene) -> str | None:
    """Something other than the name, number, list or boolean expected here."""
    here = scene.here.written if scene.here else ""
    names = [token.written for token in scene.before if token.is_name]
    parameter = next((name for name in reversed(names) if name_of(name) in READ_PARAMETERS), "")
    depth = len(scene.open_brackets())
    if here.startswith('"') and depth > 2:
        return f"a name stands without double quotes: write {here[1:-1]}, or '{here[1:-1]}' where it has other signs"
    if parameter == "permissions" and depth == 6 and scene.last == ",":
        return "a permission is true or false, in small letters: write {APP,true} or {APP,false}"
    if here.startswith("-"):
        return "a time may not be negative: write milliseconds from 0 on"
    if parameter == "distributed" and depth == 6 and scene.last == "," and scene.here and scene.here.is_name:
        return wanted_list(scene, here)
    if parameter in READ_PARAMETERS[:4] and scene.last == "," and depth == 4:
        return f"a list is wanted behind {parameter}: put [ and ] around what it holds"
    return None


def wanted_list(scene: Scene, here: str) -> str:
    """An application's list of nodes or its time is wrong."""
    if here == "infinity":
        return "a failover time is a number of milliseconds: for OTP's infinity, never, write 4294967295, which is 49 days"
    return f"an application's nodes stand in a list, even a single one: write [{shown(here)}]"


def wrong_bracket(scene: Scene) -> str | None:
    """A bracket that doesn't match the innermost open one."""
    still_open = scene.open_brackets()
    if scene.sign not in ("]", "}"):
        if scene.sign == "." and still_open:
            bracket = still_open[-1]
            return f"the {bracket.written} of line {scene.line_of(bracket)} is still open: close it before the full stop"
        return None
    if not still_open:
        return f"this {scene.sign} closes nothing: take it out"
    bracket = still_open[-1]
    if PAIRS[bracket.written] == scene.sign:
        return None
    wanted = PAIRS[bracket.written]
    return f"this {scene.sign} doesn't close the {bracket.written} of line {scene.line_of(bracket)}: put a {wanted} there first"


def second_time(scene: Scene) -> str | None:
    """A repeated section or parameter."""
    if scene.here is None or not scene.here.is_name or scene.last != "{":
        return None
    name = name_of(scene.here.written)
    if name in READ_PARAMETERS or name == "kernel":
        return f"{name} stands a second time: put what it holds into the first one"
    return None


def missing_comma(scene: Scene) -> str | None:
    """Two terms without a comma between them."""
    is_term_before = bool(scene.before) and scene.last not in (*PAIRS, ",", ".")
    if not is_term_before or scene.sign in "]},.":
        return None
    line = scene.line_of(scene.before[-1])
    where = "before this" if line == place_of(scene.text, scene.at).line else f"at the end of line {line}"
    return f"a comma is missing {where}, behind {cut(shown(scene.last), 40)}"


def comma_too_many(scene: Scene) -> str | None:
    """A comma without anything after it, or a pair without its second half."""
    if scene.sign in ("]", "}") and scene.last == ",":
        return "a comma stands before this bracket, and nothing between them: take the comma out"
    if scene.sign == "," and scene.last in (",", *PAIRS):
        return "nothing stands before this comma: take it out"
    if scene.sign in ("]", "}"):
        return "something is missing before this bracket: an entry is {APP,[NODES]} or {APP,MS,[NODES]}, a parameter {NAME,VALUE}"
    if scene.sign == ",":
        return "something else is wanted than this comma: an entry is {APP,[NODES]} or {APP,MS,[NODES]}"
    return None


def no_distributed(scene: Scene) -> str:
    """No application is named anywhere."""
    names = [name_of(token.written) for token in scene.before if token.is_name]
    if "distributed" in names and "kernel" not in names:
        return "distributed has to stand inside of kernel: write [{kernel,[{distributed,[..]}]}]."
    meant = meant_for_distributed(scene)
    if meant:
        return f"kernel has no parameter distributed: is {shown(meant.written)} meant to be it?"
    return "no application is distributed: name one, as {distributed,[{myapp,5000,[NODES]}]} inside of kernel"


def meant_for_distributed(scene: Scene) -> Token | None:
    """A name similar to `distributed`, if that is missing."""
    atoms = [token for token in scene.before if token.is_name]
    if any(name_of(token.written) == "distributed" for token in atoms):
        return None
    return next((token for token in atoms if near_to(name_of(token.written), ["distributed"])), None)


def twice(scene: Scene) -> str:
    """A name repeated in a list."""
    name = name_of(scene.here.written) if scene.here else "this name"
    earlier = [token for token in scene.before if token.is_name and name_of(token.written) == name]
    where = f", first on line {scene.line_of(earlier[-1])}" if earlier else ""
    return f"{cut(shown(name), 80)} stands twice in this list{where}: take one of them out"


def named(sign: str) -> str:
    """A character in words."""
    return "this" if not sign or shown(sign) != sign else sign


def constant(sentence: str) -> Callable[[Scene], str]:
    """A constant sentence."""
    return lambda _: sentence


SENTENCES: dict[str, Callable[[Scene], str]] = {
    "TooLong": constant(f"a configuration has at most 65,536 bytes: {ELSEWHERE}"),
    "BadToken": bad_token,
    "Unsupported": unsupported,
    "BadShape": bad_shape,
    "NoDistributed": no_distributed,
    "TwiceApp": lambda scene: twice(scene).replace("in this list", "in distributed", 1),
    "TwiceInList": twice,
    "EmptyList": constant("an application needs a node that may run it: name one in this list"),
    "EmptyTuple": constant("a tuple of nodes needs one: name a node in it, or take the tuple out"),
    "TooManyNodes": constant("a configuration has at most 64 nodes, those of the sync lists among them: take this one out"),
    "TooManyApps": constant("a configuration has at most 64 applications: take this one out"),
    "NumberTooLarge": constant("a time is at most 4,294,967,295 milliseconds, which is 49 days: write a lesser one"),
    "NameTooLong": constant("a name has at most 255 bytes: shorten it"),
    "NoMemory": constant("distac ran out of memory: give the machine more"),
}
