"""Files read and checked by `distac`: configurations, and scripts with their answers."""

from __future__ import annotations

from dataclasses import dataclass, replace

from distac_view.asking.program import Answer, Distac
from distac_view.asking.sim_output import Answered, answered
from distac_view.common.diagnostics import Faulty, Remark
from distac_view.common.problems import Problem
from distac_view.common.texts import bytes_of
from distac_view.reading.config_faults import remark_on
from distac_view.reading.configuration import Checked, Configuration, configuration_of
from distac_view.reading.faults import Part, fault_of
from distac_view.reading.script_faults import remark_on_input, remark_on_line
from distac_view.reading.script_file import MOST_CONFIG, MOST_INPUT, Line, Script, read_bytes, script_of
from distac_view.reading.sums import sums_in
from distac_view.reading.tell_lines import fault_in, written_out


@dataclass(frozen=True)
class Loaded:
    """A script without faults: its file, its configuration, and its lines with each `tell` written out."""

    path: str
    script: Script
    configuration: Configuration
    lines: list[Line]

    @property
    def plain(self) -> bytes:
        """The input for `distac sim`."""
        return plain_of(self.script, self.lines)


def plain_of(script: Script, lines: list[Line]) -> bytes:
    """An input of these lines: the file itself if nothing is written out."""
    if lines == script.lines:
        return script.source
    return script.config + b"--\n" + bytes_of("\n".join(line.text for line in lines))


def load_config(distac: Distac, path: str) -> Checked:
    """The configuration in a file. If it is too long, one byte more than allowed is read, which is the fault."""
    return check_config(distac, path, read_bytes(path, MOST_CONFIG))


def check_config(distac: Distac, path: str, text: bytes) -> Checked:
    answer = distac.check(text)
    if answer.is_fault:
        raise Faulty(path, remark_on_answer(answer, text))
    canonical = answer.lines[0]
    return Checked(text, canonical, replace(configuration_of(canonical), sums=sums_in(text)))


def remark_on_answer(answer: Answer, source: bytes) -> Remark:
    """The remark on a fault of a configuration, or of a whole input."""
    fault = fault_of(answer.lines[0])
    if fault.part is Part.SCRIPT:
        raise Problem(f"distac spoke of a script where there was none: {answer.lines[0]}")
    return remark_on(fault, source) if fault.part is Part.CONFIG else remark_on_input(fault, source)


def load_script(distac: Distac, path: str) -> Loaded:
    source = read_bytes(path, MOST_INPUT)
    script = script_of(source) if len(source) <= MOST_INPUT else None
    if script is None:
        raise Faulty(path, remark_on_answer(distac.sim(source), source))
    checked = check_config(distac, path, script.config)
    lines = checked_lines(distac, path, script, checked.configuration)
    return Loaded(path, script, checked.configuration, lines)


def checked_lines(distac: Distac, path: str, script: Script, configuration: Configuration) -> list[Line]:
    """The lines of a script with each `tell` written out, or the first fault of any line."""

    def first_answers(lines: list[Line]) -> list[str]:
        return [each.first for each in play_lines(distac, path, script, lines, configuration)]

    if not script.has_tells:
        return script.lines
    faulty = next((line for line in script.lines if line.is_tell and fault_in(line, configuration.nodes)), None)
    if faulty is not None:
        first_answers([line for line in script.lines if line.number < faulty.number and not line.is_tell])
        remark = fault_in(faulty, configuration.nodes)
        if remark:
            raise Faulty(path, remark)
    return written_out(script.lines, first_answers)


def play_lines(distac: Distac, path: str, script: Script, lines: list[Line], configuration: Configuration) -> list[Answered]:
    source = plain_of(script, lines)
    if len(source) > MOST_INPUT and source is not script.source:
        raise Problem("with what is added to its lines the script has more than 2,097,152 bytes: play it in parts")
    answer = distac.sim(source)
    if answer.is_fault:
        raise Faulty(path, remark_on_fault(answer, source, lines, configuration))
    return answered(lines, answer.lines, configuration)


def remark_on_fault(answer: Answer, source: bytes, lines: list[Line], configuration: Configuration) -> Remark:
    fault = fault_of(answer.lines[0])
    if fault.part is not Part.SCRIPT:
        return remark_on_answer(answer, source)
    return remark_on_line(fault.name, lines[fault.place - 1], configuration.nodes)


def answers_of(distac: Distac, loaded: Loaded, lines: list[Line] | None = None) -> list[Answered]:
    """A script with its answers, or with those of other lines."""
    chosen = loaded.lines if lines is None else lines
    return play_lines(distac, loaded.path, loaded.script, chosen, loaded.configuration)
