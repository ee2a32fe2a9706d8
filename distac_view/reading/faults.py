"""The faults that `distac` prints."""

import re
from dataclasses import dataclass
from enum import Enum

from distac_view.common.problems import Problem


class Part(Enum):
    """The part of an input that has a fault."""

    INPUT = "input"
    CONFIG = "config"
    SCRIPT = "script"


@dataclass(frozen=True)
class Fault:
    """A fault: its part, its name, and its byte (of a configuration) or its line after `--` (of a script)."""

    part: Part
    name: str
    place: int = 0


FORMS = {
    Part.INPUT: re.compile(r"input fault \d+ (?P<name>\w+)\Z"),
    Part.CONFIG: re.compile(r"config fault \d+ (?P<name>\w+) at (?P<place>\d+)\Z"),
    Part.SCRIPT: re.compile(r"script fault (?P<place>\d+) \d+ (?P<name>\w+)\Z"),
}


def fault_of(line: str) -> Fault:
    for part, form in FORMS.items():
        found = form.match(line)
        if found:
            return Fault(part, found["name"], int(found.groupdict().get("place") or 0))
    raise Problem(f"distac printed a fault that distac-view doesn't know: {line}")
