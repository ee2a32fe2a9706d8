"""Faults and warnings: which warnings are allowed, how they are printed, and their JSON."""

from __future__ import annotations

import argparse
from typing import Iterable

from distac_view.common.diagnostics import Faulty, Told
from distac_view.common.names import name_of
from distac_view.common.output import Output, say
from distac_view.common.problems import Problem, Status
from distac_view.showing.json_answers import Fields, json_of, names_of


class Allowed:
    """The warnings that `--allow ID[:APP]` names: all with an id, or only those about these applications."""

    def __init__(self, words: Iterable[str]) -> None:
        self.apps: dict[str, set[str]] = {}
        for word in words:
            name, _, app = word.partition(":")
            self.apps.setdefault(name, set()).add(name_of(app) if app else "")

    def has(self, told: Told) -> bool:
        """Whether a warning is among them."""
        apps = self.apps.get(told.name, set())
        return "" in apps or (bool(told.apps) and apps.issuperset(told.apps))


def told_of(ended: Faulty | Problem) -> Told:
    """The problem that ended a subcommand, or its work on one of several files."""
    return ended.remark.told(ended.path) if isinstance(ended, Faulty) else Told(ended.name, ended.sentence)


def say_fault(fault: Told, output: Output, is_json: bool) -> None:
    """Prints a fault: that of a file on standard output, unless JSON is written there."""
    if fault.place is None or is_json:
        say(fault.text())
    else:
        output.line(fault.text())
        output.flush()


def ended_by(ended: Faulty | Problem, words: argparse.Namespace, output: Output) -> Status:
    """Prints the problem that ended a subcommand, also as JSON if requested. Returns its exit status."""
    fault, is_json = told_of(ended), bool(getattr(words, "json", False))
    say_fault(fault, output, is_json)
    if is_json:
        output.line(json_of("fault", {"status": int(Status.TROUBLE), "fault": remark_fields("fault", fault)}, []))
        output.flush()
    return Status.TROUBLE


def warned(words: argparse.Namespace, warnings: list[Told]) -> Status:
    """Prints the warnings that aren't allowed, and returns the resulting status."""
    left = [told for told in warnings if not Allowed(words.allow).has(told)]
    for told in left:
        say(told.text())
    return Status.NO if left and words.strict else Status.FINE


def remark_fields(kind: str, told: Told, is_allowed: bool = False) -> Fields:
    place = told.place
    return {
        "kind": kind,
        "id": told.name or None,
        "text": told.sentence,
        "file": told.path,
        "line": place.line if place else None,
        "column": place.column if place else None,
        "applications": names_of(told.apps),
        "allowed": is_allowed,
    }


def warnings_fields(words: argparse.Namespace, warnings: list[Told]) -> list[Fields]:
    allowed = Allowed(words.allow)
    return [remark_fields("warning", told, allowed.has(told)) for told in warnings]


def add_strict(parser: argparse.ArgumentParser) -> None:
    """The words for the status of warnings."""
    parser.add_argument("--strict", action="store_true", help="a warning makes the exit status 1")
    more = "say nothing of these warnings, and let --strict take them: all of an id, or those about one application"
    parser.add_argument("--allow", metavar="ID[:APP]", nargs="+", action="extend", default=[], help=more)
