"""Checks that each must-fail edit and each mutant applies in exactly one place."""

import pathlib
from typing import Dict, Iterator

from checks.library.mutant_files import FILE, faults_of_form, sections_of


def faults_of_edit(edit: str, crate: pathlib.Path) -> Iterator[str]:
    """The faults of an edit's text. Each of its changes applies after the previous ones."""
    texts: Dict[str, str] = {}
    name, old = "", ""
    for line in edit.split("\n"):
        word, _, rest = line.partition(": ")
        if word == "file":
            name = rest.strip()
            if not (crate / name).is_file():
                yield f"there is no {name}"
                return
            texts.setdefault(name, (crate / name).read_text(encoding="utf-8"))
        elif word == "old":
            old = rest
        elif word.rstrip(":") == "new" and old:
            count = texts.get(name, "").count(old)
            if count != 1:
                yield f"{count} places of {name or 'no file'} have {old}"
            texts[name] = texts.get(name, "").replace(old, rest, 1)
            old = ""


def mutant_faults(crate: pathlib.Path) -> Iterator[str]:
    sections = sections_of(crate)
    yield from faults_of_form(sections)
    for one in sections:
        yield from (f"{one.line}: {one.name}: {fault}" for fault in faults_of_edit(one.text(), crate) if one.name)


def edit_faults(root: pathlib.Path) -> Iterator[str]:
    """The edits that don't apply."""
    for edit in sorted(root.glob("crates/*/must-fail/*.edit")):
        for fault in faults_of_edit(edit.read_text(encoding="utf-8"), edit.parent.parent):
            yield f"{edit.relative_to(root)}: {fault}"
    for file in sorted(root.glob(f"crates/*/{FILE}")):
        yield from (f"{file.relative_to(root)}:{fault}" for fault in mutant_faults(file.parent))
