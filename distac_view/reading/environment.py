"""A node's surroundings from the command line: its variables, and the root of absolute file names."""

import os
from dataclasses import dataclass
from typing import Iterable

from distac_view.common.names import bare_name, spelled
from distac_view.common.problems import Problem
from distac_view.common.texts import shown
from distac_view.reading.variables import Variables, variables_of


@dataclass(frozen=True)
class Surroundings:
    """The variables of a node, and the folder for absolute file names, if one is given."""

    variables: Variables = Variables()
    root: "str | None" = None

    def config_of(self, name: str, folder: str) -> str:
        """The path of a configuration named in a file of a folder. As in OTP, `.config` is added if missing."""
        return self.path_of(name if name.endswith(".config") else f"{name}.config", folder)

    def path_of(self, name: str, folder: str) -> str:
        """The path of a file named in a file of a folder: next to that one if it exists, or else as written."""
        if os.path.isabs(name) and self.root is not None:
            return os.path.join(self.root, name.lstrip("/"))
        beside = os.path.normpath(os.path.join(folder, name))
        return beside if os.path.exists(beside) else name


class EachSurroundings:
    """The surroundings of each node, from `--env` and `--root`."""

    def __init__(self, env: Iterable[str], roots: Iterable[str]) -> None:
        self.variables = variables_of(env)
        self.roots: "dict[str, str]" = {}
        for word in roots:
            node, sign, folder = word.partition("=")
            if not sign:
                node, folder = "", word
            if not os.path.isdir(folder):
                raise Problem(f"--root {shown(word)} names no folder: write DIR, or NODE=DIR for one node")
            self.roots[spelled(node) if node else ""] = folder

    def of(self, node: str, variable_files: Iterable[str]) -> Surroundings:
        """Those of a node. The variables of its own files override others."""
        variables = self.variables
        for path in variable_files:
            variables = variables.with_file(path)
        names = (node, spelled(bare_name(node).split("@")[0]), "")
        return Surroundings(variables, next((self.roots[name] for name in names if name in self.roots), None))

    def want_known(self, nodes: Iterable[str]) -> None:
        """Requires each node of `--root` to be one of some nodes."""
        known = {name for node in nodes for name in (node, spelled(bare_name(node).split("@")[0]))}
        unknown = next((node for node in self.roots if node and node not in known), None)
        if unknown is not None:
            raise Problem(f"--root names the node {shown(unknown)}, and no files are given for it: write NODE=FILE with the same NODE")
