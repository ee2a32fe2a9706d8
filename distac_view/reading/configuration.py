"""A configuration as `distac check` prints it."""

from __future__ import annotations

from dataclasses import dataclass, field
from functools import cached_property
from typing import Any

from distac_view.common.names import Short, name_of, short_names
from distac_view.common.problems import Problem
from distac_view.common.texts import bytes_of
from distac_view.reading.erlang_tokens import Token, byte_tokens
from distac_view.reading.sums import Sum


@dataclass(frozen=True)
class Application:
    """An application: its name, its failover time in milliseconds, its groups of nodes, and its default permission."""

    name: str
    timeout: int
    groups: list[list[str]]
    is_permitted: bool

    @property
    def nodes(self) -> list[str]:
        return [node for group in self.groups for node in group]


@dataclass(frozen=True)
class Configuration:
    """A configuration: its nodes in name order, its applications in file order, the nodes that a starting node waits
    for, and the files that it was gathered from."""

    nodes: list[str]
    applications: list[Application]
    mandatory: list[str]
    optional: list[str]
    sync_timeout: str | None
    sums: list[Sum] = field(default_factory=list, compare=False)

    @property
    def names(self) -> list[str]:
        return [application.name for application in self.applications]

    @property
    def timeouts(self) -> dict[str, int]:
        """The failover times of the applications, in milliseconds."""
        return {application.name: application.timeout for application in self.applications}

    @cached_property
    def short(self) -> Short:
        """The names of its nodes in tables."""
        return short_names(self.nodes, self.names)


@dataclass(frozen=True)
class Checked:
    """A configuration without faults: its text, its canonical text, and its contents."""

    text: bytes
    canonical: str
    configuration: Configuration


class TermReader:
    """Reads the terms of a canonical text as lists, names and numbers."""

    def __init__(self, text: str) -> None:
        self.tokens = list(byte_tokens(bytes_of(text)))
        self.place = 0

    def take(self) -> Token:
        self.place += 1
        return self.tokens[self.place - 1]

    def term(self) -> object:
        """The next term: a list for brackets of both kinds, the written text for anything else."""
        token = self.take()
        if token.written not in ("[", "{"):
            return name_of(token.written) if token.is_name else token.written
        items: list[object] = []
        while self.tokens[self.place].written not in ("]", "}"):
            items.append(self.term())
            if self.tokens[self.place].written == ",":
                self.place += 1
        self.place += 1
        return items


def configuration_of(canonical: str) -> Configuration:
    try:
        return configuration_in(TermReader(canonical).term())
    except (IndexError, KeyError, TypeError, ValueError) as error:
        raise Problem("distac check printed a configuration that distac-view can't read") from error


def configuration_in(sections: Any) -> Configuration:
    """The configuration in a canonical text's sections."""
    parameters = dict(sections[0][1])
    barred = {name for name, _ in parameters["permissions"]}
    applications = [application_of(entry, barred) for entry in parameters["distributed"]]
    mandatory, optional = parameters["sync_nodes_mandatory"], parameters["sync_nodes_optional"]
    named = {node for application in applications for node in application.nodes}
    nodes = sorted(named.union(mandatory, optional), key=name_order)
    return Configuration(nodes, applications, mandatory, optional, parameters.get("sync_nodes_timeout"))


def application_of(entry: list[Any], barred: set[str]) -> Application:
    name, timeout, items = entry
    groups = [item if isinstance(item, list) else [item] for item in items]
    return Application(name, int(timeout), groups, name not in barred)


def name_order(name: str) -> bytes:
    """The sort key of names: their bytes without quotes."""
    return bytes_of(name[1:-1] if name.startswith("'") else name)
