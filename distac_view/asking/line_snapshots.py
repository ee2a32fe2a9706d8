"""Nodes' knowledge after each line of a script, from pages after the lines that may change it."""

from __future__ import annotations

from dataclasses import dataclass
from typing import Iterator

from distac_view.asking.inputs import Loaded, play_lines
from distac_view.asking.program import Distac
from distac_view.asking.sim_output import Answered
from distac_view.asking.snapshots import Page, page_of
from distac_view.common.texts import bytes_of
from distac_view.reading.script_file import MOST_INPUT, Line

CHANGING = frozenset("boot crash down permit start stop drain takeover tick hear hand".split())
MOST_PRINTED = 200_000


@dataclass(frozen=True)
class Seen:
    """A line with its answer, and the pages of nodes whose knowledge it may have changed."""

    answered: Answered
    pages: dict[str, Page]


def seen_lines(distac: Distac, loaded: Loaded, first: int, last: int) -> Iterator[Seen]:
    """The lines between two numbers, each with its answer and pages. Many lines take several runs."""
    while first < last:
        end = part_end(loaded, first, last)
        yield from seen_part(distac, loaded, first, end)
        first = end


def asked_after(line: Line, nodes: list[str]) -> list[str]:
    if not line.is_event:
        return []
    if line.verb == "share":
        return [node for node in nodes if " " not in node]
    return [line.words[1]] if line.verb in CHANGING else []


def part_end(loaded: Loaded, first: int, last: int) -> int:
    """The last line whose pages fit into one run: neither its input nor its output may be too long."""
    nodes = loaded.configuration.nodes
    page_length = 2 + len(nodes) + 2 * len(loaded.configuration.applications)
    size = len(loaded.script.config) + 3 + sum(size_of(line) for line in loaded.lines[:first])
    printed, end = 0, first
    while end < last:
        asked = asked_after(loaded.lines[end], nodes)
        size += size_of(loaded.lines[end]) + sum(len(bytes_of(node)) + len("page \n") for node in asked)
        printed += len(asked) * page_length
        if end > first and (size > MOST_INPUT or printed > MOST_PRINTED):
            break
        end += 1
    return end


def size_of(line: Line) -> int:
    """The bytes that a line takes."""
    return len(bytes_of(line.text)) + 1


def seen_part(distac: Distac, loaded: Loaded, first: int, end: int) -> Iterator[Seen]:
    """Some lines with their answers and pages, from one run of all lines up to the last of them."""
    lines, counts = list(loaded.lines[:first]), []
    for line in loaded.lines[first:end]:
        asked = asked_after(line, loaded.configuration.nodes)
        lines += [line, *(Line(line.number, f"page {node}") for node in asked)]
        counts.append(len(asked))
    each = play_lines(distac, loaded.path, loaded.script, lines, loaded.configuration)
    place = first
    for count in counts:
        yield Seen(each[place], {one.actor: page_of(one.answer) for one in each[place + 1 : place + 1 + count]})
        place += 1 + count
