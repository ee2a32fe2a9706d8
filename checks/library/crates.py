"""Reads crates.txt: the layers, and the crates that each crate lists."""

import pathlib
from typing import Dict, FrozenSet, Iterator, List, NamedTuple, Tuple

HERE = pathlib.Path(__file__).resolve().parent.parent.parent


class Crates(NamedTuple):
    # the crates of each layer, lowest first, by the layer's first word
    layers: Dict[str, Tuple[str, ...]]
    # the crates of the repository and libraries of the toolchain that each crate lists
    listed: Dict[str, Tuple[str, ...]]

    def order(self) -> List[str]:
        """All crates, lowest first."""
        return [crate for crates in self.layers.values() for crate in crates]

    def layer_of(self, crate: str) -> str:
        return next(layer for layer, crates in self.layers.items() if crate in crates)

    def below(self, crate: str) -> FrozenSet[str]:
        """All crates that a crate uses, directly or not."""
        found = set()
        left = list(self.listed.get(crate, ()))
        while left:
            one = left.pop()
            if one in self.listed and one not in found:
                found.add(one)
                left.extend(self.listed[one])
        return frozenset(found)


def lines_of(root: pathlib.Path) -> Iterator[str]:
    """The nonempty lines of crates.txt, without the sentence at its top."""
    for place, line in enumerate((root / "crates.txt").read_text(encoding="utf-8").split("\n")):
        if line.strip() and place > 0:
            yield line.strip()


def read_crates(root: pathlib.Path = HERE) -> Crates:
    layers: Dict[str, List[str]] = {}
    listed: Dict[str, Tuple[str, ...]] = {}
    layer = ""
    for line in lines_of(root):
        if line.startswith("#"):
            layer = line[1:].replace(",", ":").split(":")[0].strip()
            continue
        crate, _, names = line.partition(":")
        layers.setdefault(layer, []).append(crate.strip())
        listed[crate.strip()] = tuple(names.split())
    return Crates({name: tuple(crates) for name, crates in layers.items()}, listed)
