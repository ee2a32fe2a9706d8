"""Names of nodes and applications: as `distac` spells them, without quotes, and as users type them."""

from __future__ import annotations

import re
from dataclasses import dataclass
from typing import Dict, Iterable, List

BARE_ATOM = re.compile(r"[a-z][A-Za-z0-9_@]*\Z")
# Words of tables that no short name may be.
WORDS = ("", "-", "now", "nowhere")


@dataclass(frozen=True)
class Short:
    """Names of nodes in tables, without quotes and without a part that all share, and that part."""

    names: Dict[str, str]
    left_out: str = ""

    def one(self, node: str | None) -> str:
        """The short name of a node, or a dash for none."""
        return "-" if node is None else self.names.get(node) or bare_name(node)

    def each(self, nodes: Iterable[str]) -> List[str]:
        """The short names of some nodes."""
        return [self.one(node) for node in nodes]

    @property
    def lines(self) -> List[str]:
        """The line above a table that tells the part that is left out, if there is one."""
        return [f"Nodes are shown without {self.left_out}."] if self.left_out else []


def short_names(nodes: Iterable[str], others: Iterable[str]) -> Short:
    """Names of nodes without the host, or the part before it, if all share it and no other name is like the rest."""
    parts = {node: bare_name(node).partition("@") for node in nodes}
    for kept, shared in ((0, 2), (2, 0)):
        rest = {node: each[kept] for node, each in parts.items()}
        common = {each[shared] for each in parts.values()}
        if len(parts) > 1 and len(common) == 1 and "" not in common and not set(rest.values()) & {*WORDS, *bare_names(others)}:
            return Short(rest, f"@{common.pop()}" if shared else f"{common.pop()}@")
    return Short({})


def name_of(atom: str) -> str:
    """The name of an atom as `distac` spells it, with quotes only if it needs them."""
    inner = atom[1:-1] if atom.startswith("'") else atom
    return inner if BARE_ATOM.match(inner) and inner != "fun" else f"'{inner}'"


def bare_names(names: Iterable[str]) -> list[str]:
    """Some names, each without its quotes."""
    return [bare_name(name) for name in names]


def bare_name(name: str) -> str:
    """A name as `distac` spells it, without its quotes."""
    return name[1:-1] if name.startswith("'") else name


def spelled(word: str) -> str:
    """A name with or without quotes, as `distac` spells it."""
    return name_of(word) if BARE_ATOM.match(word) or word.startswith("'") else f"'{word}'"


def node_meant(word: str, nodes: list[str]) -> str | None:
    """The node that a name means: the one of this name, or the only one with it before or after @."""
    found = nodes_meant(word, nodes)
    return found[0] if len(found) == 1 else None


def nodes_meant(word: str, nodes: list[str]) -> list[str]:
    """The nodes that a name can mean: the one of this name, those with it before @, or those with it after @."""
    name = spelled(word)
    if name in nodes:
        return [name]
    parts = {node: bare_name(node).partition("@") for node in nodes}
    before = [node for node, (short, _, _) in parts.items() if short == bare_name(name)]
    host = bare_name(name)[bare_name(name).startswith("@") :]
    return before or [node for node, (_, sign, at) in parts.items() if sign and at == host]


def unknown_node(word: str, nodes: list[str]) -> str:
    """Why a name means no node, for the end of a sentence about the configuration."""
    found, name = nodes_meant(word, nodes), bare_name(spelled(word))
    if len(found) > 1:
        return f"several nodes {name}: write one of {', '.join(bare_names(found))}, or its host"
    return f"no node {name}: its nodes are {', '.join(bare_names(nodes))}"
