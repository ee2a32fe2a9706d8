"""Checks that crates.txt lists the crates that are named, and that docs/crate-list.txt and docs/ARCHITECTURE.md agree with it."""

import pathlib
import re
from typing import Dict, FrozenSet, Iterator, List

from checks.library.crates import Crates

LIST = "docs/crate-list.txt"
CODE_PATH = re.compile(r"(?<![\w:.])(\w+)::")
DEFINITION_PATH = re.compile(r"\bRattle\.(\w+)\b")
IMPORT = re.compile(r"^use Rattle\.(\w+)\.(\S+)\.\{([^}]*)\}", re.MULTILINE)
PASSED_ON = re.compile(r"^(?:unfoldable )?pub use Rattle\.(\w+)\.\S+\.\{([^}]*)\}", re.MULTILINE)


def layer_faults(crates: Crates) -> Iterator[str]:
    """Crates that list one of a higher layer, or one further down in the file."""
    order = crates.order()
    for place, crate in enumerate(order):
        for below in crates.listed[crate]:
            if below in crates.listed and order.index(below) > place:
                up = crates.layer_of(below) != crates.layer_of(crate)
                why = f"of the layer {crates.layer_of(below)} above it" if up else "which stands behind it"
                yield f"crates.txt: {crate} lists {below}, {why}"


def named_through(root: pathlib.Path, text: str) -> Iterator[str]:
    """The crates and libraries of names that this text imports from a module which passes them on."""
    for crate, module, names in IMPORT.findall(text):
        file = root / "crates" / crate / f"{module.replace('.', '/')}.antt"
        if module.endswith(".Common") and file.is_file():
            for origin, passed in PASSED_ON.findall(file.read_text(encoding="utf-8")):
                if set(names.split(", ")) & set(passed.split(", ")):
                    yield origin


def named_in(folder: pathlib.Path, known: FrozenSet[str]) -> FrozenSet[str]:
    """The crates and libraries named by a crate's files, or by a module that passes on names which these import."""
    named = set()
    for file in folder.rglob("*"):
        if "out" in file.relative_to(folder).parts or file.suffix not in (".rt", ".antt"):
            continue
        text = file.read_text(encoding="utf-8")
        if file.suffix == ".rt":
            text = re.sub(r"//[^\n]*", "", text)
            named.update(CODE_PATH.findall(text))
        else:
            text = re.sub(r"(^|\s)--[^\n]*", " ", text)
            named.update(named_through(folder.parent.parent, text))
        named.update(DEFINITION_PATH.findall(text))
    return frozenset(named) & known


def listing_faults(root: pathlib.Path, crates: Crates) -> Iterator[str]:
    """Crates that list a crate without naming it, or name one without listing it."""
    known = frozenset(crates.listed) | frozenset(one for names in crates.listed.values() for one in names)
    for crate, listed in crates.listed.items():
        named = named_in(root / "crates" / crate, known) - {crate}
        for one in sorted(set(listed) - named):
            yield f"crates.txt: {crate} lists {one}, and names it nowhere"
        for one in sorted(named - set(listed)):
            yield f"crates.txt: {crate} names {one}, and doesn't list it"


def folder_faults(root: pathlib.Path, crates: Crates) -> Iterator[str]:
    """Folders without a line, and lines without a folder."""
    there = {one.name for one in (root / "crates").iterdir() if (one / "src").is_dir()}
    for one in sorted(there - set(crates.listed)):
        yield f"crates.txt: no line for crates/{one}"
    for one in sorted(set(crates.listed) - there):
        yield f"crates.txt: no folder crates/{one}"


def lists_of(root: pathlib.Path) -> Dict[str, List[str]]:
    """The crates in docs/crate-list.txt, by layers."""
    found: Dict[str, List[str]] = {}
    for layer in (root / LIST).read_text(encoding="utf-8").split("==== ")[1:]:
        name, *lines = layer.splitlines()
        found[name] = [crate.strip("* ") for line in lines for crate in line.split(":")[0].split(",")]
    return found


def list_faults(root: pathlib.Path, crates: Crates) -> Iterator[str]:
    """Differences between this list and crates.txt."""
    lists = lists_of(root)
    if list(lists) != list(crates.layers):
        yield f"{LIST}: the layers are {', '.join(lists)}"
    for layer, listed in crates.layers.items():
        rows = lists.get(layer, [])
        if layer == "Tests":
            rows, listed = sorted(rows), tuple(sorted(listed))
        if rows != list(listed):
            yield f"{LIST}: of {layer} it has {', '.join(rows)}, crates.txt {', '.join(listed)}"


def drawing_faults(root: pathlib.Path, crates: Crates) -> Iterator[str]:
    """Differences between the drawing of the layers and crates.txt."""
    text = (root / "docs" / "ARCHITECTURE.md").read_text(encoding="utf-8")
    drawn: Dict[str, List[str]] = {}
    for line in text.split("```")[1].split("\n"):
        words = line.split()
        if words and re.match(r"^ [a-z]", line):
            drawn[words[0].capitalize()] = [word.strip("*") for word in words[1:]]
    layers = [layer for layer in crates.layers if layer != "Tests"]
    if list(drawn) != layers[::-1]:
        yield f"docs/ARCHITECTURE.md: the drawing has the layers {', '.join(drawn)}"
    for layer in layers:
        if drawn.get(layer, []) != list(crates.layers[layer]):
            yield f"docs/ARCHITECTURE.md: of {layer} the drawing has {', '.join(drawn.get(layer, []))}"
