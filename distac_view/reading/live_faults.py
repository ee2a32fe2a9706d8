"""Sentences on the faults of live lines, `CALLER VERB NODE ..`, `feed HEX` and `phase`."""

from __future__ import annotations

from distac_view.common.diagnostics import Remark
from distac_view.common.texts import cut, listed, shown
from distac_view.reading.script_faults import remark_in_line, remark_on_line
from distac_view.reading.script_file import Line
from distac_view.reading.verbs import VERBS, words_of

CALLERS = ("1", "2", "3", "4")
OTHERS = ("feed", "phase")
CALLED = (*(verb for verb in VERBS if verb not in ("ship", "hear", "hand", "share", "page", "state", "same", "bytes", "feed")), "read")
FORM = f"a live line is CALLER and then {listed(list(CALLED))} with what follows, or feed HEX, or phase"


def remark_on_live_line(name: str, line: Line, nodes: list[str]) -> Remark:
    first = (words_of(line.text) or [""])[0]
    start = line.text.index(first) + len(first)
    if not first.isdigit():
        if name == "BadWord" and not line.text.endswith("\r"):
            sentence = f"no live line begins with {cut(shown(first), 40) or 'spaces alone'}: {FORM}"
            return remark_in_line(line, start - len(first), name, sentence)
        return remark_on_line(name, line, nodes)
    if name == "BadNumber" and first not in CALLERS:
        return remark_in_line(line, start - len(first), name, "a caller is 1, 2, 3 or 4: each node has four")
    rest = Line(line.number, line.text[start:].lstrip(" "))
    offset = len(line.text) - len(rest.text)
    if not rest.words or (name == "BadWord" and rest.verb not in CALLED):
        return remark_in_line(line, min(offset, len(line.text)), name, FORM)
    found = remark_on_line(name, rest, nodes)
    return remark_in_line(line, offset + found.place.column - 1, name, found.sentence)
