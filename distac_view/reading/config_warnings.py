"""Things that `distac` accepts but an operator may not have meant."""

from __future__ import annotations

from itertools import combinations
from typing import Iterator

from distac_view.common.diagnostics import Remark, place_of
from distac_view.common.misspellings import looks_misspelt, near_to
from distac_view.common.names import bare_name, name_of
from distac_view.common.texts import cut, listed, shown
from distac_view.reading.boot_warnings import boot_warnings
from distac_view.reading.configuration import Checked
from distac_view.reading.erlang_tokens import Token, byte_tokens
from distac_view.reading.forbidden import unknown_in
from distac_view.reading.templates import FILLED_IN, TEMPLATE

SYNC = ("sync_nodes_mandatory", "sync_nodes_optional")


class Source:
    """The text of a correct configuration, by its tokens."""

    def __init__(self, text: bytes) -> None:
        self.text = text
        self.tokens = list(byte_tokens(text))

    def values_of(self, parameter: str) -> list[Token]:
        """The tokens of a kernel parameter's value."""
        start = self.start_of(parameter)
        if start is None:
            return []
        depth, found = 0, []
        for token in self.tokens[start:]:
            depth += {"[": 1, "{": 1, "]": -1, "}": -1}.get(token.written, 0)
            if depth < 0:
                break
            found.append(token)
        return found

    def start_of(self, parameter: str) -> int | None:
        """The beginning of a kernel parameter's value; kernel's parameters are three brackets deep."""
        depth, section = 0, ""
        for place, token in enumerate(self.tokens):
            depth += {"[": 1, "{": 1, "]": -1, "}": -1}.get(token.written, 0)
            is_name = token.is_name and self.tokens[place - 1].written == "{"
            if is_name and depth == 2:
                section = name_of(token.written)
            if is_name and depth == 4 and section == "kernel" and name_of(token.written) == parameter:
                return place + 2
        return None

    def remark(self, token: Token, name: str, sentence: str, *apps: str) -> Remark:
        """A warning at a token, about some applications."""
        return Remark(place_of(self.text, token.start), name, sentence, apps)

    def token_of(self, parameter: str, name: str) -> Token:
        """The first token of a name in a parameter, or the text's first one."""
        atoms = (token for token in self.values_of(parameter) if token.is_name)
        return next((token for token in atoms if name_of(token.written) == name), self.tokens[0])


def warnings_on(checked: Checked, path: str) -> list[Remark]:
    """All warnings on a configuration in a file, by their places."""
    source = Source(checked.text)
    found = [
        *unknown_permissions(checked, source),
        *unlisted_sync_nodes(checked, source),
        *sync_without_time(checked, source),
        *single_nodes(checked, source),
        *near_names(checked, source),
        *templates_left(checked, source),
        *unknown_in(checked),
        *boot_warnings(checked, path),
    ]
    return sorted(found, key=lambda remark: (remark.place.line, remark.place.column))


def unknown_permissions(checked: Checked, source: Source) -> Iterator[Remark]:
    """Permissions of applications that aren't in `distributed`."""
    tokens, names = source.values_of("permissions"), checked.configuration.names
    for before, token in zip(tokens, tokens[1:]):
        name = name_of(token.written)
        if before.written != "{" or name in names:
            continue
        meant = near_to(name, names)
        cure = f"is {shown(meant)} meant?" if meant else "it is ignored"
        yield source.remark(token, "UnknownPermission", f"no application {cut(shown(bare_name(name)), 60)} is in distributed: {cure}", name)


def unlisted_sync_nodes(checked: Checked, source: Source) -> Iterator[Remark]:
    """Nodes that are waited for although they can run no application."""
    configuration = checked.configuration
    listed_nodes = {node for application in configuration.applications for node in application.nodes}
    for parameter, nodes in zip(SYNC, (configuration.mandatory, configuration.optional)):
        for node in nodes:
            if node not in listed_nodes:
                meant = near_to(node, sorted(listed_nodes))
                cure = f"is {shown(meant)} meant?" if meant else "it is waited for all the same"
                sentence = f"{cut(shown(bare_name(node)), 60)} is in no application's list: {cure}"
                yield source.remark(source.token_of(parameter, node), "UnlistedNode", sentence)


def sync_without_time(checked: Checked, source: Source) -> Iterator[Remark]:
    """Sync lists without a time to wait."""
    configuration = checked.configuration
    for parameter, nodes in zip(SYNC, (configuration.mandatory, configuration.optional)):
        if nodes and configuration.sync_timeout is None:
            sentence = "no node waits for these: sync_nodes_timeout is absent, so add {sync_nodes_timeout,MS}"
            yield source.remark(source.values_of(parameter)[0], "NoSyncTime", sentence)
            return


def single_nodes(checked: Checked, source: Source) -> Iterator[Remark]:
    """Applications that only one node can run."""
    for application in checked.configuration.applications:
        if len(application.nodes) == 1:
            node, name = (shown(bare_name(each)) for each in (application.nodes[0], application.name))
            sentence = f"{node} alone can run {name}: it never fails over"
            yield source.remark(source.token_of("distributed", application.name), "SingleNode", sentence, application.name)


def near_names(checked: Checked, source: Source) -> Iterator[Remark]:
    """Names that differ from another one by one letter."""
    configuration = checked.configuration
    for is_app, names in enumerate((configuration.nodes, configuration.names)):
        for one, other in combinations(names, 2):
            if looks_misspelt(one, other) and not TEMPLATE.search(one + other):
                token = max(first_token(source, one), first_token(source, other), key=lambda found: found.start)
                sentence = f"{listed([shown(bare_name(one)), shown(bare_name(other))])} differ by one change: are they two?"
                yield source.remark(token, "NearName", sentence, *((one, other) if is_app else ()))


def templates_left(checked: Checked, source: Source) -> Iterator[Remark]:
    """The first name that a release fills in when it starts."""
    configuration = checked.configuration
    name = next((name for name in (*configuration.nodes, *configuration.names) if TEMPLATE.search(name)), None)
    if name is not None:
        yield source.remark(first_token(source, name), "Template", f"{cut(shown(name), 60)} is left of {FILLED_IN}")


def first_token(source: Source, name: str) -> Token:
    for parameter in ("distributed", *SYNC):
        token = source.token_of(parameter, name)
        if token is not source.tokens[0]:
            return token
    return source.tokens[0]
