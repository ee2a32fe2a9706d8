"""The configuration files of a node as OTP merges them, with the origin of each kernel parameter."""

from __future__ import annotations

import os
import re
from dataclasses import dataclass, field
from typing import Iterable

from distac_view.common.diagnostics import Faulty, Remark, Told
from distac_view.common.texts import bytes_of, shown
from distac_view.reading.environment import Surroundings
from distac_view.reading.erlang_reader import Read, Reader
from distac_view.reading.erlang_terms import Atom, Term, Way, spot_of
from distac_view.reading.erlang_tokens import Misread
from distac_view.reading.sections import SYS_CONFIG, Sections, twice_in, wrong_part
from distac_view.reading.source_file import SourceFile, file_at
from distac_view.reading.templates import FILLED_IN, template_in
from distac_view.reading.variables import Variables

NO_NAME = "nonode@nohost"
NO_TERMS = ".exs"
PROVIDER = "config_provider_init"
# What mix writes for a release that boots once more with what its providers said: only then can they set kernel.
BOOTS_AGAIN = re.compile(r"\breboot_system_after_config\s*=>\s*true\b")
PROVIDED = (
    "this release evaluates runtime.exs or another provider, and boots again with what that says in place of this file: "
    "ask the running node, or evaluate its configuration (gather --print-command elixir-config)"
)
TWICE = "the parameter {} stands twice: OTP doesn't boot with that, and the last one is taken here"


@dataclass(frozen=True)
class Written:
    """A text that was read as one term, and its characters in the file, if their numbers differ there."""

    text: str
    characters: tuple[int, ...] = ()

    def place_of(self, way: Way, other: int) -> int:
        """The file's character at which a term begins, or another one if our own reader can't read the text."""
        try:
            place = spot_of(self.text).at(way)
        except Misread:
            return other
        return self.characters[place] if self.characters else place


@dataclass(frozen=True)
class Origin:
    """The origin of a parameter: its file, its first character there, its value's text and the way to that."""

    file: SourceFile
    place: int
    written: Written
    way: Way = ()

    @property
    def line(self) -> str:
        """The file and the line, for users."""
        return f"{self.file.path}:{self.file.remark(self.place, '', '').place.line}"


@dataclass(frozen=True)
class Setting:
    """The value of a kernel parameter, and its origin."""

    value: Term
    origin: Origin

    def fault(self, name: str, sentence: str) -> Faulty:
        return self.origin.file.fault(self.origin.place, name, sentence)

    def remark_in(self, way: Way, name: str, sentence: str) -> Remark:
        """The remark on a term of the value."""
        origin = self.origin
        return origin.file.remark(origin.written.place_of((*origin.way, *way), origin.place), name, sentence)

    def fault_in(self, way: Way, name: str, sentence: str) -> Faulty:
        """The fault of a term of the value."""
        return Faulty(self.origin.file.path, self.remark_in(way, name, sentence))


@dataclass
class NodeSettings:
    """The kernel settings in a node's files, the files, and warnings."""

    node: str
    files: list[SourceFile] = field(default_factory=list)
    kernel: dict[str, Setting] = field(default_factory=dict)
    warnings: list[Told] = field(default_factory=list)


class Library:
    """Files that were read, each once per set of variables, and their terms by one reader."""

    def __init__(self, reader: Reader) -> None:
        self.reader = reader
        self.files: "dict[tuple[str, Variables], SourceFile]" = {}
        self.terms: "dict[str, Read]" = {}

    def file(self, path: str, variables: Variables) -> SourceFile:
        """A file by its path."""
        if (path, variables) not in self.files:
            self.files[path, variables] = file_at(path, variables)
        return self.files[path, variables]

    def read(self, texts: Iterable[str]) -> None:
        """Reads many texts at once, because a reader may take long to start."""
        new = [text for text in dict.fromkeys(texts) if text not in self.terms]
        if new:
            self.terms.update(zip(new, self.reader(new)))

    def term(self, text: str) -> Read:
        self.read([text])
        return self.terms[text]

    def sections(self, file: SourceFile) -> list[Term]:
        term = self.term(file.text)
        if isinstance(term, Misread):
            raise fault_of_syntax(file, term)
        if not isinstance(term, list):
            raise file.fault(0, "NoList", "a configuration is a list of sections: [{kernel,[..]}].")
        return term


def fault_of_syntax(file: SourceFile, misread: Misread) -> Faulty:
    """The fault of a text that isn't a term, or that is a template."""
    template = template_in(file.text)
    if template is not None:
        return file.fault(template, "Template", FILLED_IN)
    if file.path.endswith(NO_TERMS):
        sentence = "this is no file of Erlang terms: ask the running node for its values, by the line of gather --print-command"
        return file.fault(misread.place, "NoTerms", sentence)
    return file.fault(misread.place, "Syntax", misread.sentence)


def settings_of(node: str, files: list[SourceFile], surroundings: Surroundings, library: Library) -> NodeSettings:
    """The settings in a node's files, in the order of `-config`, and in files that their outer lists name."""
    settings = NodeSettings(node)
    library.read(inner.text for file in files for inner in named_in(file, surroundings, library))
    for file in files:
        add_file(settings, file, named_in(file, surroundings, library), library)
    return settings


def named_in(file: SourceFile, surroundings: Surroundings, library: Library) -> list[SourceFile]:
    names = map(file_name, library.sections(file))
    paths = [surroundings.config_of(name, os.path.dirname(file.path)) for name in names if name]
    return [library.file(path, surroundings.variables) for path in paths]


def file_name(item: Term) -> str:
    """The file name in an item of the outer list, if it is a string."""
    numbers = [number for number in item if type(number) is int and 0 < number <= 0x10FFFF] if isinstance(item, list) else []
    return "".join(map(chr, numbers)) if numbers == item else ""


def add_file(settings: NodeSettings, file: SourceFile, named: list[SourceFile], library: Library) -> None:
    """Adds a file of `-config`, with those that it names."""
    settings.files.append(file)
    places = Sections(file.text)
    inner = iter(named)
    for number, item in enumerate(library.sections(file)):
        if file_name(item):
            follow(settings, file, next(inner), library)
        else:
            add_section(settings, file, (number,), item, places)
    if named and os.path.basename(file.path) not in SYS_CONFIG:
        sentence = "OTP follows names of files in sys.config alone, and refuses this file under another name"
        settings.warnings.append(file.remark(places.first_string, "NotSysConfig", sentence).told(file.path))
    settings.warnings += [remark.told(file.path) for remark in twice_in(file, places, TWICE)]


def follow(settings: NodeSettings, file: SourceFile, named: SourceFile, library: Library) -> None:
    """Adds a file that another one names. OTP follows no names in it."""
    settings.files.append(named)
    places = Sections(named.text)
    for number, item in enumerate(library.sections(named)):
        if file_name(item):
            raise named.fault(places.first_string, "NamedTwice", f"{file.path} names this file, and in such a one OTP follows no name")
        add_section(settings, named, (number,), item, places)
    settings.warnings += [remark.told(named.path) for remark in twice_in(named, places, TWICE)]


def add_section(settings: NodeSettings, file: SourceFile, way: Way, item: Term, places: Sections) -> None:
    """Adds a section, at a way. Each kernel parameter overrides an earlier one of its name."""
    written = Written(file.text)
    if not (isinstance(item, tuple) and len(item) == 2 and isinstance(item[0], Atom) and isinstance(item[1], list)):
        place = written.place_of((*way, *wrong_part(item)), 0)
        raise file.fault(place, "BadSection", "this is no section: each item of the outer list is {APPLICATION,[{PARAMETER,VALUE}]}")
    section = item[0].name
    for number, parameter in enumerate(item[1]):
        inner = (*way, 1, number)
        if not (isinstance(parameter, tuple) and len(parameter) == 2 and isinstance(parameter[0], Atom)):
            place = written.place_of((*inner, *wrong_part(parameter)), places.of_section(section))
            raise file.fault(place, "BadParameter", "OTP doesn't boot with this: each item of a section's list is a parameter {NAME,VALUE}")
        if section == "elixir" and parameter[0].name == PROVIDER and BOOTS_AGAIN.search(file.text):
            settings.warnings.append(file.remark(written.place_of((*inner, 0), 0), "ConfigProvider", PROVIDED).told(file.path))
        if section == "kernel":
            name = parameter[0].name
            settings.kernel[name] = Setting(parameter[1], Origin(file, places.of_parameter(name), written, (*inner, 1)))

def path_text(path: str) -> str:
    """A path as shown in a comment."""
    return shown(bytes_of(path).decode("utf-8", "replace"))
