"""Reads the contracts of public functions from the sources of the code."""

import pathlib
import re
from typing import Dict, Iterator, List, NamedTuple, Optional, Tuple

from checks.library.crates import HERE, read_crates
from checks.library.modules import Import, depth_of, import_of

BLOCK = re.compile(r"^\s*(?:pub(?:\(\w+\))? )?(?P<kind>impl|trait|mod)\b(?P<rest>.*)$")
FUNCTION = re.compile(r"^\s*(?P<public>pub )?(?:pub\(\w+\) )?(?:const |unsafe )*fn (?P<name>\w+)")
CLAUSE = re.compile(r"^\s*(?P<kind>requires|ensures)\b\s*(?P<name>[\w-]+)?\s*(?P<rest>\{.*)?$")
GHOST = re.compile(r"^\s*ghost (?P<name>\w+)(?:: | = )(?P<rest>\{.*)$")
HANDED = re.compile(r"^pub use (?P<path>[\w:]+?)(?:::\{(?P<names>[^}]*)\})?;", re.MULTILINE)
SUBMODULE = re.compile(r"^(?P<public>pub )?mod (?P<name>\w+);", re.MULTILINE)


class Clause(NamedTuple):
    # `requires`, `ensures`, or `ghost` for a member of a trait or its impl
    kind: str
    name: str
    text: str


class Function(NamedTuple):
    crate: str
    # the modules of its file, lowest last
    modules: Tuple[str, ...]
    # its type or trait, if any
    of: str
    name: str
    file: pathlib.Path
    line: int
    # the comment above it
    above: Tuple[str, ...]
    text: Tuple[str, ...]
    clauses: Tuple[Clause, ...]
    # the file's imports of definitions
    imports: Tuple[Import, ...]
    public: bool

    def shown(self) -> Tuple[str, ...]:
        """Its name in users' code."""
        return tuple(one for one in (self.crate, self.of, self.name) if one)

    def whole(self) -> Tuple[str, ...]:
        """Its name with its modules."""
        return tuple(one for one in (self.crate, *self.modules, self.of, self.name) if one)


def without_comments(line: str) -> str:
    """A line of code up to its comment."""
    return re.sub(r"//.*$", "", line)


def clauses_of(lines: List[str]) -> Iterator[Clause]:
    """The clauses between a function's head and its body."""
    kind, name, text = "", "", [""]
    for line in lines:
        match = CLAUSE.match(line)
        if match is not None:
            if kind:
                yield Clause(kind, name, "\n".join(text))
            kind, name, text = match["kind"], match["name"] or "", [match["rest"] or ""]
        elif kind:
            text.append(without_comments(line))
    if kind:
        yield Clause(kind, name, "\n".join(text))


def head_of(lines: List[str], place: int) -> List[str]:
    """The lines of a function from its name to its body."""
    depth = depth_of(lines[place])
    clauses = False
    for number in range(place, len(lines)):
        line = without_comments(lines[number]).rstrip()
        clauses = clauses or CLAUSE.match(line) is not None
        if line.strip() in ("{", "{}") and depth_of(line) == depth:
            return lines[place:number]
        if not clauses and line.endswith((" {", ";", "}")) or clauses and line.endswith("};"):
            return lines[place : number + 1]
    return lines[place:]


def comment_above(lines: List[str], place: int) -> List[str]:
    """The comment above a line, without attributes."""
    first = place
    while first > 0 and lines[first - 1].strip().startswith(("///", "#[")):
        first -= 1
    return [line for line in lines[first:place] if line.strip().startswith("///")]


def name_of_block(rest: str) -> str:
    """The type or trait of a block; for `impl Trait for Type` the type."""
    rest = re.sub(r"\bwhere\b.*$", "", rest.rstrip("{ "))
    while re.search(r"<[^<>]*>", rest):
        rest = re.sub(r"<[^<>]*>", "", rest)
    rest = rest.split(" for ")[-1].split(":")[0]
    found = re.search(r"(\w+)\s*$", rest.strip())
    return found[1] if found else ""


class Block(NamedTuple):
    depth: int
    of: str
    # whether it is a trait or an impl of one
    is_of_trait: bool
    # the ghost members of a trait or its impl, which the contracts of its functions cite
    ghosts: Tuple[Clause, ...]


def ghosts_in(lines: List[str], place: int) -> Iterator[Clause]:
    """The ghost members, except laws, of the block that begins at a line."""
    depth = depth_of(lines[place])
    text: List[str] = []
    name = ""
    for line in lines[place + 1 :]:
        if line.strip() and depth_of(line) <= depth:
            return
        match = GHOST.match(line)
        if match is not None:
            name, text = match["name"], [match["rest"]]
        elif name:
            text.append(without_comments(line))
        if name and line.rstrip().endswith(";"):
            yield Clause("ghost", name, "\n".join(text))
            name = ""


class SourceFile:
    """A file of code: its functions and its imports of definitions."""

    def __init__(self, crate: str, modules: Tuple[str, ...], file: pathlib.Path) -> None:
        self.crate, self.modules, self.file = crate, modules, file
        self.lines = file.read_text(encoding="utf-8").split("\n")
        found = (import_of(line) for line in self.lines if line.strip().startswith("ghost use"))
        self.imports = tuple(one for one in found if one is not None)

    def functions(self) -> Iterator[Function]:
        """Its functions, with their blocks."""
        blocks: List[Block] = []
        for place, line in enumerate(self.lines):
            while blocks and line.strip() and depth_of(line) <= blocks[-1].depth:
                blocks.pop()
            block, function = BLOCK.match(line), FUNCTION.match(line)
            if block is not None and line.rstrip().endswith("{"):
                blocks.append(self._block(place, block))
            elif function is not None:
                yield self._function(place, function, blocks)

    def _block(self, place: int, match: "re.Match[str]") -> Block:
        is_of_trait = match["kind"] == "trait" or " for " in match["rest"]
        ghosts = tuple(ghosts_in(self.lines, place)) if is_of_trait else ()
        return Block(depth_of(self.lines[place]), name_of_block(match["rest"]), is_of_trait, ghosts)

    def _function(self, place: int, match: "re.Match[str]", blocks: List[Block]) -> Function:
        """The function whose name is in a line."""
        block = blocks[-1] if blocks else Block(-1, "", False, ())
        head = head_of(self.lines, place)
        return Function(
            self.crate,
            self.modules,
            block.of,
            match["name"],
            self.file,
            place + 1,
            tuple(comment_above(self.lines, place)),
            tuple(head),
            tuple(clauses_of(head)) + block.ghosts,
            self.imports,
            bool(match["public"]) or block.is_of_trait,
        )


class Sources:
    """The functions of all crates."""

    def __init__(self, root: pathlib.Path = HERE) -> None:
        """Reads the sources of all crates except tests."""
        self.root = root
        self.crates = read_crates(root)
        tests = self.crates.layers.get("Tests", ())
        self.functions: List[Function] = []
        # each crate's re-exported names, with the crates that they come from
        self.handed: Dict[str, Dict[str, str]] = {}
        for crate in self.crates.order():
            if crate not in tests:
                self._read(crate)

    def _read(self, crate: str) -> None:
        folder = self.root / "crates" / crate / "src"
        shown: List[str] = []
        hidden: List[Tuple[str, ...]] = []
        found: List[Function] = []
        for file in sorted(folder.glob("**/*.rt")):
            modules = tuple(one for one in file.relative_to(folder).with_suffix("").parts if one not in ("lib", "main"))
            source = SourceFile(crate, modules, file)
            found.extend(source.functions())
            text = "\n".join(source.lines)
            shown.extend(self._handed_on(crate, text))
            hidden.extend(modules + (one["name"],) for one in SUBMODULE.finditer(text) if not one["public"])
        for one in found:
            inside = any(one.modules[: len(path)] == path for path in hidden)
            self.functions.append(one._replace(public=one.public and (not inside or (one.of or one.name) in shown)))

    def _handed_on(self, crate: str, text: str) -> Iterator[str]:
        """The names re-exported by a text. Those of other crates are recorded with their crate."""
        for match in HANDED.finditer(text):
            first = match["path"].split("::")[0]
            names = match["names"] if match["names"] is not None else match["path"].split("::")[-1]
            for name in (one.strip().split(" as ")[0] for one in names.split(",") if one.strip()):
                if first in self.crates.listed:
                    self.handed.setdefault(crate, {})[name] = first
                yield name

    def public(self) -> List[Function]:
        """The functions with clauses that other crates can call."""
        return [one for one in self.functions if one.public and one.clauses]

    def named(self, name: str) -> List[Function]:
        """The public functions that a name can mean. If some match without further qualification, only those."""
        asked = tuple(name.split("::"))
        while len(asked) > 1 and asked[1] in self.handed.get(asked[0], {}):
            asked = (self.handed[asked[0]][asked[1]],) + asked[1:]
        found = [one for one in self.public() if is_within(asked, one.whole())]
        exact = [one for one in found if asked in (one.shown(), one.shown()[1:], one.whole())]
        return exact or found


def is_within(asked: Tuple[str, ...], whole: Tuple[str, ...]) -> bool:
    """Whether these names occur in a whole name in this order, the last one at its end."""
    if not asked or asked[-1] != whole[-1]:
        return False
    rest: Optional[Iterator[str]] = iter(whole[:-1])
    return all(any(one == other for other in rest or ()) for one in asked[:-1])
