"""Finds the functions of a crate's code, and the edits that change only the body of one of them."""

import bisect
import pathlib
import re
from typing import Dict, Iterator, List, NamedTuple, Optional, Sequence, Tuple

from checks.library.contracts import Function, SourceFile
from checks.library.modules import depth_of

CYCLE = re.compile(r"#\[cycle\b")
# A line of a body can't begin with these, because they would concern more than this function.
ITEM = re.compile(r"\s*(pub|use|ghost|requires|ensures|const|static|struct|enum|type|trait|impl|mod|fn|unsafe|macro_rules)\b|\s*#")
# The trait that an impl is of.
OF_TRAIT = re.compile(r"^impl\b.*?(?P<trait>\w+)(?:<[^{}]*>)? for ")


class Change(NamedTuple):
    """A text that a file contains once, and its replacement."""

    old: str
    new: str


class Edit(NamedTuple):
    """An edit: its name, its file in the crate, and its changes in order."""

    name: str
    file: str
    changes: Tuple[Change, ...]


class Body(NamedTuple):
    file: str
    modules: Tuple[str, ...]
    # its type or trait, if any; in an impl of a trait, that trait
    of: str
    trait: str
    name: str
    # the line numbers of its beginning with attributes, of the first line within its braces, and of its end
    line: int
    first: int
    last: int

    def holds(self, line: int) -> bool:
        """Whether a line is part of the function."""
        return self.line <= line <= self.last


def changes_in(text: str) -> Iterator[Tuple[str, Change]]:
    """The changes of an edit's text in order, each with its file."""
    name, old = "", ""
    for line in text.split("\n"):
        if line.startswith("file: "):
            name = line[len("file: ") :].strip()
        elif line.startswith("old: "):
            old = line[len("old: ") :]
        elif line.startswith("new:"):
            yield name, Change(old, re.sub(r"^ ", "", line[len("new:") :]))
            old = ""


def edit_in(name: str, text: str) -> Optional[Edit]:
    """The edit of this name in a text, if it changes a single file of code."""
    found = list(changes_in(text))
    names = sorted({name for name, _ in found})
    is_code = len(names) == 1 and names[0].startswith("src/") and names[0].endswith(".rt")
    return Edit(name, names[0], tuple(change for _, change in found)) if is_code else None


def applied(edit: Edit, text: str) -> Optional[str]:
    """A file's text after an edit, or nothing if it doesn't apply."""
    for change in edit.changes:
        if not change.old or text.count(change.old) != 1:
            return None
        text = text.replace(change.old, change.new)
    return text


def changed_lines(before: str, after: str) -> Iterator[Tuple[int, str]]:
    """The differing lines with their numbers, before and after."""
    for number, (old, new) in enumerate(zip(before.split("\n"), after.split("\n")), 1):
        if old != new:
            yield from ((number, old), (number, new))


class Code:
    """The code of a crate: its files, and their functions."""

    def __init__(self, folder: pathlib.Path) -> None:
        """Reads all files of code of a crate."""
        self.texts: Dict[str, str] = {}
        self.bodies: Dict[str, List[Body]] = {}
        for file in sorted(folder.glob("src/**/*.rt")):
            name = str(file.relative_to(folder))
            self.texts[name] = file.read_text(encoding="utf-8")
            self.bodies[name] = list(bodies_in(name, file))

    def body_of(self, edit: Edit) -> Optional[Body]:
        """The function that contains all changes of an edit in its body, if there is one."""
        before = self.texts.get(edit.file, "")
        after = applied(edit, before)
        if after is None or after == before or after.count("\n") != before.count("\n"):
            return None
        lines = list(changed_lines(before, after))
        if any(ITEM.match(line) for _, line in lines):
            return None
        found = {self.body_at(edit.file, number) for number, _ in lines}
        return found.pop() if len(found) == 1 else None

    def body_at(self, file: str, line: int) -> Optional[Body]:
        """The function with this line between its braces."""
        bodies = self.bodies[file]
        place = bisect.bisect([body.first for body in bodies], line) - 1
        return bodies[place] if place >= 0 and line < bodies[place].last else None


def bodies_in(name: str, file: pathlib.Path) -> Iterator[Body]:
    """A file's functions with a body and their own proof. Functions of a cycle of calls share one proof."""
    modules = tuple(one for one in pathlib.PurePath(name).with_suffix("").parts[1:] if one not in ("lib", "main"))
    source = SourceFile("", modules, file)
    for function in source.functions():
        lines = lines_of(function, source.lines)
        above = line_above(source.lines, function.line - 1)
        if lines is not None and not any(map(CYCLE.search, source.lines[above : function.line])):
            trait = trait_above(source.lines, function.line - 1)
            yield Body(name, modules, function.of, trait, function.name, above + 1, *lines)


def lines_of(function: Function, lines: Sequence[str]) -> Optional[Tuple[int, int]]:
    """The numbers of the first line between a function's braces and of the closing one, if it has several lines."""
    depth = depth_of(lines[function.line - 1])
    opens = function.line + len(function.text) - 1
    if not function.text[-1].endswith(" {"):
        opens += 1
    if not lines[opens - 1].endswith("{"):
        return None
    for number in range(opens + 1, len(lines) + 1):
        line = lines[number - 1]
        if line.strip() and depth_of(line) <= depth:
            return (opens + 1, number) if line.strip() == "}" else None
    return None


def trait_above(lines: Sequence[str], place: int) -> str:
    """The trait whose impl contains a function, if there is one."""
    depth = depth_of(lines[place])
    above = (line for line in reversed(lines[:place]) if line.strip() and depth_of(line) < depth)
    match = OF_TRAIT.match(next(above, "").strip())
    return match["trait"] if match is not None else ""


def line_above(lines: Sequence[str], place: int) -> int:
    """The position of the first of the comments and attributes directly above a function."""
    while place > 0 and lines[place - 1].strip() and not lines[place - 1].endswith(("{", "}", ";")):
        place -= 1
    return place
