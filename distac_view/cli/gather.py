"""`gather`: one configuration from the files of all nodes, with its sources."""

from __future__ import annotations

import argparse
import os

from distac_view.asking.inputs import check_config
from distac_view.asking.program import Distac
from distac_view.cli.reporting import warned, warnings_fields
from distac_view.common.names import bare_name
from distac_view.common.output import Output
from distac_view.common.problems import Problem, Status
from distac_view.common.texts import bytes_of, shown
from distac_view.common.writing import PIPE, write_whole
from distac_view.reading.command_flags import input_of, node_named, settings_with_flags
from distac_view.reading.configuration import Configuration
from distac_view.reading.environment import EachSurroundings
from distac_view.reading.erlang_reader import Reader, reader_named
from distac_view.reading.forbidden import comment_of
from distac_view.reading.kernel_parameters import Placement, placement_of
from distac_view.reading.merge import Gathered, gathered
from distac_view.reading.node_settings import Library, NodeSettings, path_text
from distac_view.reading.shipped import files_of
from distac_view.reading.script_file import MOST_CONFIG, read_bytes
from distac_view.reading.source_file import ANSWER_MARK
from distac_view.reading.sums import Sum, mark_now, sums_in, without_sums
from distac_view.reading.variables import ENDING
from distac_view.showing.json_answers import Fields, json_of

ERLANG_LINE = (
    "K=[distributed,permissions,sync_nodes_mandatory,sync_nodes_optional,sync_nodes_timeout,net_ticktime],"
    f'io:format("~n{ANSWER_MARK}~tw~n~tw.~n",'
    "[node(),[{kernel,[{P,V}||P<-K,{ok,V}<-[application:get_env(kernel,P)]]}]])."
)
ELIXIR_LINE = (
    "k = [:distributed, :permissions, :sync_nodes_mandatory, :sync_nodes_optional, :sync_nodes_timeout, :net_ticktime]; "
    f':io.format(~c"~n{ANSWER_MARK}~tw~n~tw.~n", '
    "[node(), [kernel: (for p <- k, {:ok, v} <- [:application.get_env(:kernel, p)], do: {p, v})]])"
)
NOW_LINE = (
    "D=application:get_env(kernel,distributed,[]),"
    'io:format("~n~tw~ts~n",[node(),[[" ",io_lib:format("~tw",[A])]||{A,_,_}<-application:which_applications(),lists:keymember(A,1,D)]]).'
)
ELIXIR_NOW_LINE = (
    "d = :application.get_env(:kernel, :distributed, []); "
    ':io.format(~c"~n~tw~ts~n", [node(), (for {a, _, _} <- :application.which_applications(), '
    ':lists.keymember(a, 1, d), do: [" ", :io_lib.format(~c"~tw", [a])])])'
)
ELIXIR_CONFIG_LINE = (
    "[k] = [[:distributed, :permissions, :sync_nodes_mandatory, :sync_nodes_optional, :sync_nodes_timeout, :net_ticktime]]; "
    'c = for f <- ["config/config.exs", "config/runtime.exs"], File.exists?(f), reduce: [], do: '
    "(a -> Config.Reader.merge(a, Config.Reader.read!(f, env: :prod, target: :host))); "
    f':io.format(~c"~n{ANSWER_MARK}~tw~n~tw.~n", [node(), [kernel: Keyword.take(Keyword.get(c, :kernel, []), k)]])'
)
LINES = {
    "erlang": ERLANG_LINE,
    "elixir": ELIXIR_LINE,
    "elixir-config": ELIXIR_CONFIG_LINE,
    "now": NOW_LINE,
    "elixir-now": ELIXIR_NOW_LINE,
}


def gather(distac: Distac, words: argparse.Namespace, output: Output) -> Status:
    """Writes one configuration from the files of all nodes, with warnings on standard error."""
    if words.print_command:
        output.line(LINES[words.print_command])
        return Status.FINE
    if words.check and not words.nodes:
        return checked_sums(words, output)
    if not words.nodes:
        raise Problem("gather wants the files of each node: NODE=FILE[,FILE..], or --print-command")
    each = EachSurroundings(words.env, words.root)
    placements = [placement_of(settings) for settings in settings_by_node(words.nodes, each, reader_named(words.reader))]
    found = gathered(placements)
    checked = check_config(distac, "the gathered configuration", bytes_of(found.text))
    text = "".join(line + "\n" for line in (*head_of(words.version, placements, found), checked.canonical))
    if words.check:
        return checked_text(words, text, output)
    if not words.json or words.output != PIPE:
        write(words.output, text, placements, output)
    if words.script:
        write(words.script, opening_script(checked.canonical, checked.configuration, found), placements, output)
    if words.json:
        fields: Fields = {"text": text, "configuration": checked.canonical, "remarks": warnings_fields(words, found.warnings)}
        output.line(json_of("gather", fields, []))
    return warned(words, found.warnings)


def checked_sums(words: argparse.Namespace, output: Output) -> Status:
    """Prints which files are others than when a configuration was gathered from them. The status is 1 if any is."""
    sums = sums_in(read_bytes(words.check, MOST_CONFIG))
    if not sums:
        raise Problem(f"{words.check} names no files: --check wants a configuration that gather wrote")
    return say_sums(words, sums, {(each.node, each.file): mark_now(each.file) for each in sums}, [], output)


def checked_text(words: argparse.Namespace, text: str, output: Output) -> Status:
    """Prints what differs between a configuration and one gathered anew. The status is 1 if anything does."""
    before = read_bytes(words.check, MOST_CONFIG)
    now = {(each.node, each.file): each.mark for each in sums_in(bytes_of(text))}
    is_other = without_sums(before) != without_sums(bytes_of(text))
    more = [f"the nodes' files make another configuration than {shown(words.check)}"] if is_other else []
    return say_sums(words, sums_in(before), dict(now), more, output)


def say_sums(words: argparse.Namespace, sums: "list[Sum]", now: "dict[tuple[str, str], str | None]", more: "list[str]", output: Output) -> Status:
    """Prints the files that differ, and further sentences, or the same as JSON."""
    marks = {(each.node, each.file): each.mark for each in sums}
    keys = list(dict.fromkeys([*marks, *now]))
    differing = [key for key in keys if marks.get(key) != now.get(key)]
    files = [{"node": bare_name(key[0]), "file": key[1], "sha256": marks.get(key), "now": now.get(key)} for key in keys]
    if words.json:
        output.line(json_of("sums", {"config": words.check, "files": files, "same": not (differing or more)}, []))
    else:
        for node, file in differing:
            how = "wasn't among the files" if (node, file) not in marks else "is gone" if now.get((node, file)) is None else "has changed"
            output.line(shown(f"{bare_name(node)} {file} {how}"))
        for line in (*more, f"{len(files) - len(differing)} of {len(files)} files are those of {shown(words.check)}"):
            output.line(line)
    output.flush()
    return Status.NO if differing or more else Status.FINE


def settings_by_node(words: list[str], each: EachSurroundings, reader: Reader) -> list[NodeSettings]:
    """The settings in each node's files. A node that is named again has further files."""
    named: "dict[str, tuple[str, list[str]]]" = {}
    for word in words:
        node, paths = node_and_files(word)
        named.setdefault(node or word, (node, []))[1].extend(paths)
    each.want_known(node for node, _ in named.values())
    library, inputs = Library(reader), []
    for node, paths in named.values():
        variable_files = [path for path in paths if path.endswith(ENDING)]
        others = [file for path in paths if not path.endswith(ENDING) for file in files_of(path)]
        inputs.append(input_of(node, others, each.of(node, variable_files), library))
    library.read(text for given in inputs for text in given.texts)
    return [settings_with_flags(given, library) for given in inputs]


def node_and_files(word: str) -> "tuple[str, list[str]]":
    """A node and its files, from a word of the command line. Argument files can contain the node's name."""
    node, sign, paths = word.partition("=")
    if not sign and any(os.path.exists(path) for path in word.split(",")):
        return "", [path for path in word.split(",") if path]
    files = [path for path in paths.split(",") if path]
    if not (node and files):
        raise Problem(f"{shown(word)} isn't NODE=FILE[,FILE..]: write the node's name, =, and its files in the order of -config")
    return node_named(node), files


def head_of(version: str, placements: list[Placement], found: Gathered) -> list[str]:
    """The comment above the configuration, which names its source files."""
    count = f"{len(placements)} node" + ("s" if len(placements) > 1 else "")
    lines = [f"%% {version}, gather: one configuration from the files of {count}"]
    for placement in placements:
        lines += [Sum(shown(placement.node), path_text(file.path), file.mark).comment for file in placement.settings.files]
    if found.tick_time is not None:
        lines.append(f"%% net_ticktime {found.tick_time}")
    names = sorted({name for placement in placements for file in placement.settings.files for name in file.filled.names})
    lines += [f"%% variables {' '.join(names)}"] if names else []
    return [*lines, *(comment_of(app, node) for node, app in found.barred_at)]


def opening_script(canonical: str, configuration: Configuration, found: Gathered) -> str:
    """A script in which all nodes come up, some forbid applications to themselves, and everything is started."""
    lines = [canonical, "--", *(f"boot {node} 0" for node in configuration.nodes), "share"]
    lines += [f"permit {node} {app} {node} false" for node, app in found.barred_at]
    lines += ["share"] if found.barred_at else []
    for node in configuration.nodes:
        lines += [f"start {node} {each.name} {node}" for each in configuration.applications if node in each.nodes]
    return "\n".join([*lines, "share"]) + "\n"


def write(path: str, text: str, placements: list[Placement], output: Output) -> None:
    """Writes a text to a file, except over an input, or to standard output for a dash."""
    if path == PIPE:
        output.raw(bytes_of(text))
        output.flush()
    else:
        write_whole(path, bytes_of(text), [file.path for placement in placements for file in placement.settings.files])
