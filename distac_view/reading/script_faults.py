"""Sentences on the faults of inputs and scripts: the rule, and its remedy."""

from __future__ import annotations

import re
from typing import Callable

from distac_view.common.diagnostics import Remark, place_in, place_of
from distac_view.common.misspellings import near_to
from distac_view.common.names import name_of
from distac_view.common.texts import bytes_of, cut, listed, shown
from distac_view.reading.faults import Fault
from distac_view.reading.script_file import MOST_INPUT, Line
from distac_view.reading.verbs import NAMES, NUMBERS, TELL, VERBS, Role, fits, roles_in, usage

RETURN = "a carriage return stands at the line's end, and counts as a part of it: save the file with line feeds alone"


def remark_on_input(fault: Fault, source: bytes) -> Remark:
    if fault.name == "TooLong":
        offset, sentence = MOST_INPUT, "an input has at most 2,097,152 bytes, configuration and script together: play it in parts"
    elif fault.name == "NoScript":
        offset, sentence = missing_separator(source)
    else:
        offset, sentence = 0, "it can't be read to its end: try to copy it to a file first"
    return Remark(place_of(source, min(offset, len(source))), fault.name, sentence)


def missing_separator(source: bytes) -> tuple[int, str]:
    """A line similar to `--`, or the place for it, and a sentence."""
    near = re.search(rb"^[ \t]*--[ \t\r]*$", source, re.MULTILINE)
    if near:
        what = "a carriage return" if b"\r" in near.group() else "a blank"
        return near.start(), f"the line between configuration and script is exactly --, and here is {what} too: take it out"
    verbs = "|".join((*VERBS, TELL)).encode()
    first = re.search(rb"^ *(?:%s)(?: [^\[\]{}]*)?$" % verbs, source, re.MULTILINE)
    if first:
        return first.start(), "a line -- parts the configuration from the script: put one before this line"
    return len(source), "a script follows its configuration, behind a line --: to look at a configuration alone, use check"


def remark_on_line(name: str, line: Line, nodes: list[str]) -> Remark:
    """The remark on a fault of a script's line, with the names of the known nodes."""
    offset, sentence = SENTENCES.get(name, lambda *_: (0, "see docs/FORMATS.md"))(line, nodes)
    return remark_in_line(line, offset, name, sentence)


def remark_in_line(line: Line, offset: int, name: str, sentence: str) -> Remark:
    """A remark on a place in a line, given by the number of characters before it."""
    return Remark(place_in(bytes_of(line.text), line.number, len(bytes_of(line.text[:offset]))), name, sentence)


def offset_of(line: Line, place: int) -> int:
    """The beginning of a numbered word in a line, or the line's end."""
    starts = [found.start() for found in re.finditer("[^ ]+", line.text)]
    return starts[place] if place < len(starts) else len(line.text.rstrip(" \r"))


def has_return(line: Line) -> bool:
    """Whether the line ends in a carriage return."""
    return line.text.endswith("\r")


def bad_word(line: Line, _: list[str]) -> tuple[int, str]:
    """The first word isn't a verb."""
    word = line.verb
    if not word:
        return 0, "the line has spaces alone: an empty line has none"
    known = [*VERBS, TELL]
    meant = near_to(word.rstrip("\r"), known)
    plain = re.split("[\t;]", word)[0].rstrip("\r").lower()
    if "\t" in line.text:
        sentence = "words are parted by spaces, and a tab is none: write a space in its place"
    elif has_return(line):
        sentence = RETURN
    elif plain in known:
        sentence = f"{plain} is written in small letters, and nothing else touches it: {usage(plain)}"
    elif meant:
        sentence = f"no line begins with {shown(word)}: is {meant} meant? That is written {usage(meant)}"
    elif word[:1] in "#;/":
        sentence = "a comment begins with % in the first column"
    elif word == "phase" or word.isdigit():
        sentence = "this is a line of distac live, whose callers run at once: no play or timeline shows them, so run it by distac live"
    else:
        sentence = f"no line begins with {cut(shown(word), 40)}: the first words are {listed(known)}"
    return offset_of(line, 0), sentence


def bad_count(line: Line, _: list[str]) -> tuple[int, str]:
    """Too few words, or too many."""
    verb = line.verb
    wanted = len(VERBS.get(verb, ())) + 1
    place = min(wanted, len(line.words))
    form = f"this line is written {usage(verb)}" if verb in VERBS else "the number of words is wrong"
    extra = line.words[wanted : wanted + 1]
    if "%" in line.text:
        comment = next((at for at, word in enumerate(line.words) if "%" in word), place)
        return offset_of(line, comment), f"a comment has a line of its own, with % in the first column; {form}"
    if extra == ["\r"]:
        return offset_of(line, place), RETURN
    if any(";" in word for word in line.words):
        return offset_of(line, place), f"each event has a line of its own; {form}"
    if "\t" in line.text:
        return offset_of(line, place), f"words are parted by spaces, and a tab is none; {form}"
    return offset_of(line, place), f"there are too {'many' if extra else 'few'} words: {form}"


def bad_name(line: Line, _: list[str]) -> tuple[int, str]:
    """A word should be a name, or true or false, and isn't."""
    place, role, word = first_unfit(line, (*NAMES, Role.TRUTH))
    if has_return(line) and word.endswith("\r"):
        sentence = RETURN
    elif role is Role.TRUTH:
        sentence = "true or false is wanted here, in small letters and without quotes"
    elif "\t" in word:
        sentence = "words are parted by spaces, and a tab is none: write a space in its place"
    else:
        name = cut(shown(word.strip("'")), 60)
        sentence = f"only a small letter followed by letters, digits, _ and @ needs no quotes: is '{name}' meant?"
    return offset_of(line, place), sentence


def bad_number(line: Line, _: list[str]) -> tuple[int, str]:
    """A word should be a number, and isn't."""
    place, role, word = first_unfit(line, NUMBERS)
    what = "a moment is a number of milliseconds" if role is Role.MOMENT else "a count from 1 on is wanted here"
    if word.endswith("\r"):
        sentence = RETURN
    elif word.startswith("-"):
        sentence = f"{what}, and never negative"
    elif word.isdigit() and word.startswith("0"):
        sentence = f"{what}, without a zero before it: write {word.lstrip('0')[:40] or '0'}"
    elif word.isdigit():
        sentence = f"{what}, at most 4,611,686,018,427,387,904: write a lesser one"
    else:
        digits = re.match("[0-9]*", word)
        example = f": write {digits.group()} without what follows" if digits and digits.group() else ""
        sentence = f"{what}, in decimal digits alone{example}"
    return offset_of(line, place), sentence


def unknown_actor(line: Line, nodes: list[str]) -> tuple[int, str]:
    """The line's node isn't in the configuration."""
    for place, (role, word) in enumerate(roles_in(line.words), 1):
        if role is Role.ACTOR and name_of(word) not in nodes:
            return offset_of(line, place), no_such("node", name_of(word), nodes)
    return offset_of(line, 1), "the configuration names no such node"


def no_such(what: str, name: str, names: list[str]) -> str:
    """The configuration has no such name, but maybe a similar one."""
    meant = near_to(name, names)
    some = listed([shown(name) for name in names[:8]]) + (" and more" if len(names) > 8 else "")
    cure = f"is {shown(meant)} meant?" if meant else f"there are {some}" if len(names) > 1 else f"there is {some} alone"
    return f"the configuration has no {what} {cut(shown(name), 60)}: {cure}"


def bad_hex(line: Line, _: list[str]) -> tuple[int, str]:
    """A word should be bytes, and isn't."""
    place, _role, word = first_unfit(line, (Role.HEX,))
    if word.endswith("\r"):
        return offset_of(line, place), RETURN
    wrong = re.search("[^0-9a-f]", word)
    if wrong is None:
        return offset_of(line, place), "bytes are two digits each, and these are an odd number of digits: was one cut off?"
    return offset_of(line, place) + wrong.start(), "bytes are written in digits 0 to 9 and a to f, in small letters"


def first_unfit(line: Line, roles: tuple[Role, ...]) -> tuple[int, Role, str]:
    """The first word of some roles that doesn't fit, with its number."""
    for place, (role, word) in enumerate(roles_in(line.words), 1):
        if role in roles and not fits(role, word):
            return place, role, word
    return 0, roles[0], line.verb


Sentence = Callable[[Line, "list[str]"], "tuple[int, str]"]
SENTENCES: dict[str, Sentence] = {
    "BadWord": bad_word,
    "BadCount": bad_count,
    "BadName": bad_name,
    "BadNumber": bad_number,
    "UnknownActor": unknown_actor,
    "BadHex": bad_hex,
}
