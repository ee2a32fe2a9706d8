"""`check`: whether distac takes each configuration, or its first fault, and warnings."""

from __future__ import annotations

import argparse
from dataclasses import dataclass, field

from distac_view.asking.inputs import load_config
from distac_view.asking.program import Distac
from distac_view.cli.reporting import remark_fields, say_fault, told_of, warned, warnings_fields
from distac_view.common.diagnostics import Faulty, Told
from distac_view.common.output import Output
from distac_view.common.problems import Problem, Status
from distac_view.reading.config_warnings import warnings_on
from distac_view.showing.json_answers import Fields, json_of
from distac_view.showing.print_rolling import counted


@dataclass(frozen=True)
class Looked:
    """A file: its canonical text and the numbers of its names, with warnings, or a fault."""

    path: str
    canonical: str | None = None
    counts: str = ""
    fault: Told | None = None
    warnings: list[Told] = field(default_factory=list)


def check(distac: Distac, words: argparse.Namespace, output: Output) -> Status:
    """Prints ok or the canonical text of each configuration, warns on standard error, and returns the worst status."""
    found, statuses = [], []
    for path in words.files:
        looked = look_at(distac, path)
        found.append(looked)
        statuses.append(told(looked, words, output))
    if words.json:
        output.line(json_of("check", {"files": [file_fields(looked, words) for looked in found]}, []))
    return max(statuses)


def look_at(distac: Distac, path: str) -> Looked:
    """The result for a file."""
    try:
        checked = load_config(distac, path)
    except (Faulty, Problem) as ended:
        return Looked(path, fault=told_of(ended))
    configuration = checked.configuration
    counts = f"{counted(len(configuration.names), 'application')}, {counted(len(configuration.nodes), 'node')}"
    return Looked(path, checked.canonical, counts, warnings=[remark.told(path) for remark in warnings_on(checked, path)])


def told(looked: Looked, words: argparse.Namespace, output: Output) -> Status:
    """Prints the result for a file, after its name if there are several, and returns its status."""
    if looked.fault is not None:
        say_fault(looked.fault, output, words.json)
        return Status.TROUBLE
    if not words.json:
        text = str(looked.canonical) if words.prints else f"ok: {looked.counts}"
        output.line((f"{looked.path}: " if len(words.files) > 1 else "") + text)
        output.flush()
    return warned(words, looked.warnings)


def file_fields(looked: Looked, words: argparse.Namespace) -> Fields:
    faults = [remark_fields("fault", looked.fault)] if looked.fault is not None else []
    return {"file": looked.path, "configuration": looked.canonical, "remarks": [*faults, *warnings_fields(words, looked.warnings)]}
