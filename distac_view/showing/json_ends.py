"""The answer of `ends` as JSON, in the form described in docs/FORMATS.md."""

from typing import Iterable

from distac_view.answering.race_ends import End, PageLine, Reply, notes_on
from distac_view.common.texts import text_of
from distac_view.showing.json_answers import Fields, json_of, names_of


def ends_answer(reply: Reply) -> str:
    fields: Fields = {
        "nodes": names_of(reply.search.race.nodes),
        "schedules": reply.played,
        "seed": reply.search.seed,
        "expected": [each.text for each in reply.search.expected],
        "played_by": "models" if reply.by_models else "program",
        "ends": [end_fields(reply, end) for end in reply.ends],
        "common": page_lines(reply.common()),
    }
    return json_of("ends", fields, notes_on(reply))


def end_fields(reply: Reply, end: End) -> Fields:
    return {
        "schedules": end.count,
        "kinds": [{"kind": kind, "schedules": count} for kind, count in end.found.counts.items()],
        "first": end.found.first,
        "shortest": end.found.shortest,
        "played": end.is_played,
        "unmet": list(end.unmet),
        "differing": page_lines(reply.differing(end)),
        "script": text_of(end.small.source),
        "smallest": end.is_smallest,
        "whole": None if end.whole.is_long else text_of(end.whole.source),
    }


def page_lines(lines: Iterable[PageLine]) -> "list[Fields]":
    return [{"line": line.text, "pages": names_of(line.nodes)} for line in lines]
