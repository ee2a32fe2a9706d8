"""A node's files as named on the command line: configurations, argument files such as `vm.args`, and files of
variables."""

from __future__ import annotations

import os
from dataclasses import dataclass
from typing import Iterable, Iterator

from distac_view.common.names import bare_name, name_of
from distac_view.common.problems import Problem
from distac_view.common.texts import cut, shown
from distac_view.reading.environment import Surroundings
from distac_view.reading.erlang_terms import Atom
from distac_view.reading.erlang_tokens import Misread
from distac_view.reading.node_settings import Library, NodeSettings, Origin, Setting, Written, settings_of
from distac_view.reading.source_file import SourceFile
from distac_view.reading.templates import FILLED_IN, TEMPLATE
from distac_view.reading.vm_args import Flags, Word, flags_of, words_of

MOST_NESTED = 16
READ_PARAMETERS = ("distributed", "permissions", "sync_nodes_mandatory", "sync_nodes_optional", "sync_nodes_timeout", "net_ticktime")


@dataclass(frozen=True)
class NodeInput:
    """A node's inputs: its name, its configurations in the order of `-config`, its argument files, and their flags."""

    node: str
    surroundings: Surroundings
    configs: list[SourceFile]
    arguments: "dict[str, SourceFile]"
    flags: Flags

    @property
    def texts(self) -> Iterator[str]:
        """All texts that a reader of terms must read."""
        yield from (file.text for file in self.configs)
        yield from (text_of(word) for pair in self.flags.kernel for word in pair)


def text_of(word: Word) -> str:
    """A parameter or a value of a flag as the text of a term. OTP also adds the full stop."""
    return f"{word.text}\n."


def input_of(node: str, paths: Iterable[str], surroundings: Surroundings, library: Library) -> NodeInput:
    """The files of a node, with the configurations and further files named by its arguments."""
    arguments: "dict[str, SourceFile]" = {}
    configs: "list[SourceFile | Word]" = []
    words: list[Word] = []
    for path in paths:
        file = library.file(path, surroundings.variables)
        if file.has_arguments:
            own = list(expanded(file, surroundings, library, arguments, MOST_NESTED))
            words += own
            configs += flags_of(own).configs
        else:
            configs.append(file)
    files = [each if isinstance(each, SourceFile) else config_named(each, surroundings, library) for each in configs]
    return NodeInput(node, surroundings, files, arguments, flags_of(words))


def expanded(file: SourceFile, surroundings: Surroundings, library: Library, seen: "dict[str, SourceFile]", most: int) -> Iterator[Word]:
    """The words of an argument file, with each `-args_file FILE` replaced by those of that file."""
    seen[file.path] = file
    try:
        words = iter(words_of(file.path, file.text))
    except Misread as misread:
        raise file.fault(misread.place, "BadArguments", misread.sentence) from misread
    for word in words:
        named = next(words, None) if word.text == "-args_file" else None
        if named is None:
            yield word
            continue
        if not most:
            raise file.fault(named.place, "BadArguments", "files of arguments name each other without end")
        path = surroundings.path_of(named.text, os.path.dirname(file.path))
        yield from expanded(library.file(path, surroundings.variables), surroundings, library, seen, most - 1)


def config_named(word: Word, surroundings: Surroundings, library: Library) -> SourceFile:
    return library.file(surroundings.config_of(word.text, os.path.dirname(word.path)), surroundings.variables)


def settings_with_flags(given: NodeInput, library: Library) -> NodeSettings:
    """The kernel settings in a node's files. Flags of kernel override all files of `-config`."""
    settings = settings_of(given.node, given.configs, given.surroundings, library)
    settings.files += given.arguments.values()
    settings.node = node_of(given, settings)
    for parameter, value in given.flags.kernel:
        add_flag(settings, given.arguments[value.path], parameter, value, library)
    return settings


def add_flag(settings: NodeSettings, file: SourceFile, parameter: Word, value: Word, library: Library) -> None:
    """A parameter of kernel that a flag sets. In OTP one whose name isn't an atom sets nothing."""
    name, term = library.term(text_of(parameter)), library.term(text_of(value))
    if isinstance(term, Misread):
        raise bad_value(file, parameter, value, term)
    if not isinstance(name, Atom):
        return
    written = Written(text_of(value), value.signs)
    setting, before = Setting(term, Origin(file, value.place, written)), settings.kernel.get(name.name)
    is_again = before is not None and before.origin.file.has_arguments and name.name in READ_PARAMETERS
    if before is not None and is_again and before.value != term:
        sentence = f"flags set {name.name} here and at {before.origin.line}, and it depends on other parameters which one OTP takes: leave one"
        raise setting.fault("TwiceFlag", sentence)
    settings.kernel[name.name] = setting


def bad_value(file: SourceFile, parameter: Word, value: Word, misread: Misread) -> Exception:
    """The fault of a flag's value that isn't a term."""
    if TEMPLATE.search(value.text):
        return file.fault(value.place, "Template", f"this is {FILLED_IN}")
    what = f"OTP doesn't boot with {cut(shown(value.text), 60)} for the parameter {cut(shown(parameter.text), 60)}"
    return file.fault(value.place, "BadFlag", f"{what}: {misread.sentence}")


def node_of(given: NodeInput, settings: NodeSettings) -> str:
    """A node's name: the one given with its files, or the flag `-name` or `-sname` if that is more complete."""
    flag = next(iter(given.flags.names), None)
    if flag is None or (given.node and TEMPLATE.search(flag.text)):
        if not given.node:
            raise Problem(f"{shown(path_list(settings))}: no flag -name or -sname tells the node's name, so write NODE= before its files")
        return given.node
    file, named = given.arguments[flag.path], node_named(flag.text)
    if TEMPLATE.search(flag.text):
        raise file.fault(flag.place, "Template", f"the node's name is {FILLED_IN}")
    if given.node in ("", named, node_named(flag.text.split("@")[0])):
        return named
    if flag.text != bare_name(given.node).split("@")[0]:
        sentence = f"the node's name is {shown(named)} here, and its files are given for {shown(given.node)}"
        settings.warnings.append(file.remark(flag.place, "OtherNode", sentence).told(file.path))
    return given.node


def path_list(settings: NodeSettings) -> str:
    """The files of a node in turn."""
    return cut(", ".join(file.path for file in settings.files), 200)


def node_named(word: str) -> str:
    """A node of the command line as `distac` spells it."""
    return name_of(word if word.startswith("'") else f"'{word}'")
