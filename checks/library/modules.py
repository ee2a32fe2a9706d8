"""Reads the modules of definitions: each one's declarations and imports, and the module of an import's path."""

import itertools
import pathlib
import re
from typing import Dict, Iterator, List, NamedTuple, Optional, Tuple, Union

from checks.library.crates import HERE, read_crates

IMPORT = re.compile(
    r"^\s*(?P<word>ghost use|pub use|use) Rattle\.(?P<path>[^\s{;]+?)"
    r"(?:\.\{(?P<names>[^}]*)\})?(?: as (?P<alias>[^\s;]+))?;?\s*$"
)
SUBMODULE = re.compile(r"^(?:pub )?mod (?P<name>[^\s;]+)\s*$")
KEYWORDS = re.compile(r"^(?:(?:abbrev|unfoldable|pub|record|data) )+(?P<name>[^\s{}()=:]\S*)(?=\s|$)")
PLAIN = re.compile(r"^(?:pub )?(?P<name>[^\s(){}]+) : ")
CONSTRUCTOR = re.compile(r"^\s+(?P<name>[^\s(){}:]+) : ")
# modules generated from the sources of the code
GENERATED = ("declared", "contracts", "sources", "impls", "model", "models")


class Import(NamedTuple):
    path: Tuple[str, ...]
    # each name by its local name; None if the whole module is imported
    names: Optional[Dict[str, str]]
    # the local name of a whole module
    alias: str
    public: bool


class Definition(NamedTuple):
    """A word of specs/, with the text above it."""

    crate: str
    # the path of its module, as `specs.Meaning`
    module: str
    file: pathlib.Path
    line: int
    name: str
    comment: Tuple[str, ...]
    # the indented lines `module _ (..) where` that contain it
    under: Tuple[str, ...]
    text: Tuple[str, ...]

    def is_law(self) -> bool:
        """Whether it is a law, which is proved and needn't be believed."""
        return "laws" in self.module.split(".")


class CodeType(NamedTuple):
    """A type or constant of the code that a definition uses."""

    crate: str
    name: str


Word = Union[Definition, CodeType]


def import_of(line: str) -> Optional[Import]:
    match = IMPORT.match(line)
    if match is None:
        return None
    path = tuple(match["path"].split("."))
    names: Optional[Dict[str, str]] = None
    if match["names"] is not None:
        names = {}
        for one in match["names"].split(","):
            there, _, here = one.strip().partition(" as ")
            if there:
                names[here.strip() or there] = there
    return Import(path, names, match["alias"] or path[-1], match["word"] == "pub use")


def depth_of(line: str) -> int:
    return len(line) - len(line.lstrip())


def declared_in(line: str) -> Optional[str]:
    """The name that a line declares, if it begins a declaration."""
    match = KEYWORDS.match(line) or PLAIN.match(line)
    return match["name"] if match else None


def constructors_of(text: Tuple[str, ...]) -> Iterator[str]:
    if not re.match(r"^\s*(?:pub )?data ", text[0]):
        return
    depth = min((depth_of(line) for line in text[1:] if line.strip()), default=0)
    for line in text[1:]:
        match = CONSTRUCTOR.match(line)
        if match and depth_of(line) == depth and not line.strip().startswith("--"):
            yield match["name"]


class Module:
    """A module: its file, declarations and imports."""

    def __init__(self, crate: str, path: str, file: pathlib.Path) -> None:
        self.crate = crate
        self.path = path
        self.file = file
        self.submodules: List[str] = []
        self.imports: List[Import] = []
        self.definitions: Dict[str, Definition] = {}
        self.constructors: Dict[str, Definition] = {}
        # the comment at the file's top, which describes the module
        self.header: Tuple[str, ...] = ()
        # the current state: the comment above, the enclosing blocks with their depths, and the declaration's first line
        self._comment: List[str] = []
        self._blocks: List[Tuple[int, str]] = []
        self._text: List[str] = []
        self._name = ""
        self._line = 0
        self._above: Tuple[str, ...] = ()
        lines = file.read_text(encoding="utf-8").split("\n")
        self.header = tuple(line[2:].strip() for line in itertools.takewhile(lambda line: line.startswith("--"), lines))
        for number, line in enumerate(lines[len(self.header) :], len(self.header) + 1):
            self._read(number, line)
        self._end()

    def _read(self, number: int, line: str) -> None:
        bare = line.strip()
        if not bare:
            self._text_or_comment_ends()
            return
        while self._blocks and depth_of(line) <= self._blocks[-1][0]:
            self._end()
            self._blocks.pop()
        if self._name and depth_of(line) > depth_of(self._text[0]):
            self._text.append(line)
        elif bare.startswith("-- ----"):
            self._comment = []
        elif bare.startswith("--"):
            self._comment.append(bare[2:].strip())
        else:
            self._take(number, line, bare)

    def _take(self, number: int, line: str, bare: str) -> None:
        """Reads a line that begins something, or continues a declaration's equations."""
        found, mod, name = import_of(bare), SUBMODULE.match(bare), declared_in(bare)
        if found or mod or bare.startswith("module "):
            self._end()
            self._comment = []
            if found:
                self.imports.append(found)
            elif mod:
                self.submodules.append(mod["name"])
            else:
                self._blocks.append((depth_of(line), line))
        elif name:
            comment = self._comment
            self._comment = []
            self._end()
            self._name, self._line, self._text, self._above = name, number, [line], tuple(comment)
        else:
            self._comment = []
            self._text.append(line)

    def _text_or_comment_ends(self) -> None:
        """Reads an empty line."""
        self._comment = []
        if self._text:
            self._text.append("")

    def _end(self) -> None:
        if not self._name:
            return
        while self._text and not self._text[-1].strip():
            self._text.pop()
        under = tuple(block for _, block in self._blocks)
        made = Definition(self.crate, self.path, self.file, self._line, self._name, self._above, under, tuple(self._text))
        self.definitions[self._name] = made
        for name in constructors_of(made.text):
            self.constructors[name] = made
        self._name, self._text = "", []


class Modules:
    def __init__(self, root: pathlib.Path = HERE) -> None:
        """Reads nothing until asked."""
        self.root = root
        self.crates = read_crates(root)
        self._read: Dict[pathlib.Path, Module] = {}
        # each crate's modules with their positions
        self._order: Dict[str, Dict[str, int]] = {}

    def rank(self, one: Definition) -> Tuple[int, int, int]:
        """Its position in reading order: by crate, lowest first; by module, each after its imports; by line."""
        if one.crate not in self._order:
            paths: Dict[str, None] = {}
            for module in self.all_of(one.crate):
                self._put(module, paths, [])
            self._order[one.crate] = {path: place for place, path in enumerate(paths)}
        return self.crates.order().index(one.crate), self._order[one.crate][one.module], one.line

    def _put(self, module: Module, paths: Dict[str, None], above: List[str]) -> None:
        """Puts a module after those of its crate that it imports."""
        if module.path in paths or module.path in above:
            return
        for one in module.imports:
            below = self.look(one.path) if one.path[0] == module.crate else None
            if isinstance(below, Module):
                self._put(below, paths, above + [module.path])
        paths[module.path] = None

    def of_file(self, crate: str, path: str, file: pathlib.Path) -> Optional[Module]:
        """The module of a file, if it exists."""
        if file not in self._read:
            if not file.is_file():
                return None
            self._read[file] = Module(crate, path, file)
        return self._read[file]

    def all_of(self, crate: str) -> List[Module]:
        folder = self.root / "crates" / crate / "specs"
        found = []
        for file in sorted(folder.glob("**/*.antt")):
            path = "specs." + ".".join(file.relative_to(folder).with_suffix("").parts)
            module = self.of_file(crate, path, file)
            if module is not None:
                found.append(module)
        return found

    def definitions_of(self, crate: str) -> List[Definition]:
        """The definitions of a crate, without laws."""
        return [one for module in self.all_of(crate) for one in module.definitions.values() if not one.is_law()]

    def _step(self, here: Module, word: str) -> Optional[Module]:
        """The module that this name means in a module."""
        if word not in here.submodules:
            return None
        at_top = here.file.name == "Lib.antt" and here.path == "specs.Lib"
        folder = here.file.parent if at_top else here.file.with_suffix("")
        path = "specs" if at_top else here.path
        return self.of_file(here.crate, f"{path}.{word}", folder / f"{word}.antt")

    def look(self, path: Tuple[str, ...]) -> Union[Module, Tuple[str, ...], None]:
        """The target of a path: a module, a path of generated modules, or nothing here."""
        if len(path) < 2 or path[0] not in self.crates.listed or path[1] != "specs":
            return None
        if len(path) > 2 and path[2] in GENERATED:
            return path
        here = self.of_file(path[0], "specs.Lib", self.root / "crates" / path[0] / "specs" / "Lib.antt")
        for place, word in enumerate(path[2:], 2):
            if here is None:
                return None
            below = self._step(here, word)
            if below is None:
                return self._handed(here, word, path[place + 1 :])
            here = below
        return here

    def _handed(self, here: Module, word: str, rest: Tuple[str, ...]) -> Union[Module, Tuple[str, ...], None]:
        """The target of a path through a module that re-exports this word from a crate below."""
        for one in here.imports:
            if one.public and one.names is None and one.alias == word:
                return self.look(one.path + rest)
        return None

    def find(self, path: Tuple[str, ...], name: str) -> Optional[Word]:
        there = self.look(path)
        if there is None:
            return None
        if isinstance(there, tuple):
            return code_type(there, name)
        found = there.definitions.get(name) or there.constructors.get(name)
        if found is not None:
            return found
        for one in there.imports:
            if one.public and one.names is not None and name in one.names:
                return self.find(one.path, one.names[name])
        return None


def code_type(path: Tuple[str, ...], name: str) -> CodeType:
    """The type of the code that owns a name of a generated module."""
    if "TheVariants" in path:
        return CodeType(path[0], path[path.index("TheVariants") - 1])
    return CodeType(path[0], name)
