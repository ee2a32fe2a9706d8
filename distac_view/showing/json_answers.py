"""Answers as JSON, in the form described in docs/FORMATS.md.

It is an interface: within a version a field keeps its name and its meaning, and later programs only add fields.
"""

from __future__ import annotations

import json
from typing import Dict, Iterable, List

from distac_view.answering.notes import Note
from distac_view.answering.what_if import Case, Fate, Reply
from distac_view.asking.snapshots import marks_in
from distac_view.common.names import bare_name
from distac_view.reading.configuration import Configuration

VERSION = 1

Fields = Dict[str, object]


def json_of(question: str, fields: Fields, notes: Iterable[Note]) -> str:
    """A whole answer: the version, its question, the question's fields, and the notes."""
    head: Fields = {"version": VERSION, "question": question}
    return json.dumps({**head, **fields, "notes": notes_fields(notes)}, indent=2)


def notes_fields(notes: Iterable[Note]) -> List[Fields]:
    return [{"id": note.id, "text": note.text} for note in notes]


def names_of(names: Iterable[str]) -> List[str]:
    """Some names of nodes or applications, each without quotes."""
    return [bare_name(name) for name in names]


def name_or_none(name: str | None) -> str | None:
    """The name of a node without quotes, or none."""
    return None if name is None else bare_name(name)


def sums_of(configuration: Configuration) -> List[Fields]:
    """The fields of the files that a configuration was gathered from."""
    return [{"node": bare_name(each.node), "file": each.file, "sha256": each.mark} for each in configuration.sums]


def what_if_answer(reply: Reply, notes: Iterable[Note]) -> str:
    fields: Fields = {
        "nodes": names_of(reply.configuration.nodes),
        "net_ticktime": reply.tick_time,
        "takes": reply.question.takes,
        "gathered": sums_of(reply.configuration),
        "sides": [{"nodes": names_of(answers.side.members)} for answers in reply.sides],
        "cases": [case_fields(case, reply) for case in reply.cases],
    }
    return json_of("what-if", fields, notes)


def case_fields(case: Case, reply: Reply) -> Fields:
    nodes = {"down": names_of(case.down), "returning": names_of(case.back)}
    return {**nodes, "applications": [fate_fields(fate, reply.tick_time, reply.question.takes) for fate in case.fates], "may_hang": names_of(case.may_hang), "ended": names_of(case.ended)}


def fate_fields(fate: Fate, tick_time: int, takes: int | None = None) -> Fields:
    """The fields of an application in a case."""
    return {
        "application": bare_name(fate.app),
        "now": name_or_none(fate.now),
        "then": name_or_none(fate.then),
        "how": fate.how,
        "milliseconds": fate.milliseconds,
        "longest_outage": fate.longest_outage(tick_time, takes),
        "back": name_or_none(fate.back),
        "waits": fate.waits,
        "stopped": fate.was_stopped,
        "fails_at": name_or_none(fate.failed.failing.node if fate.failed else None),
        "list": [{"node": bare_name(node), "mark": mark} for node, mark in marks_in(fate.marks)],
    }
