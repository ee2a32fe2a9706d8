"""The record of verdicts on mutants: a file out/mutants/NAME.tsv for each crate, which `checks/mutants --record`
writes.

A row has a mutant's name, the checksum of everything its verdict rests on, the toolchain's verdict with the number of
mutants tried with it, if any, and the time of the try. Git ignores these files, so each clone has its own. A row is
valid until something it rests on changes, so the rows of several runs add up.
"""

import datetime
import hashlib
import pathlib
import re
from typing import Dict, Iterable, Iterator, List, Mapping, NamedTuple, Tuple

from checks.library.contracts import SourceFile, without_comments
from checks.library.crates import read_crates
from checks.library.mutant_files import mutants_in

FOLDER = pathlib.Path("out", "mutants")
HEAD = "# by checks/mutants --record: each mutant, the checksum of what its verdict rests on, the verdict, its time\n"
PARTS = ("src", "specs", "proofs")
# The beginning of a comment line.
COMMENTS = {".rt": "//", ".antt": "--"}
LAWS = "laws"
# The sum of the toolchain's logic in its line, as `logic dac8208d650f15bf`. Kits for different hosts share a logic, and
# a verdict from one counts on all.
LOGIC = re.compile(r"\blogic \w+")


class Row(NamedTuple):
    """A mutant's verdict, its checksum, and when it was tried."""

    rests_on: str
    verdict: str
    # (earlier records have no times)
    at: str = ""


class Record:
    """The record in a repository, valid for the toolchain of this line."""

    def __init__(self, root: pathlib.Path, toolchain: str) -> None:
        """Reads nothing until asked."""
        self.root, self.toolchain = root, toolchain

    def mutants(self, crate: str) -> Dict[str, str]:
        return mutants_in(self.root / "crates" / crate)

    def file(self, crate: str) -> pathlib.Path:
        """The file with the rows of a crate, which may not exist yet."""
        return self.root / FOLDER / f"{crate}.tsv"

    def rows(self, crate: str) -> Dict[str, Row]:
        file = self.file(crate)
        lines = file.read_text(encoding="utf-8").splitlines() if file.exists() else []
        cells = [line.split("\t") for line in lines]
        return {row[0]: Row(*row[1:]) for row in cells if len(row) in (3, 4)}

    def known(self, crate: str) -> Dict[str, str]:
        """A crate's verdicts on the present text, by mutant."""
        today = checksums(self.root, crate, self.toolchain, self.mutants(crate))
        return {name: row.verdict for name, row in self.rows(crate).items() if today.get(name) == row.rests_on}

    def longest_ago(self, crate: str) -> str:
        """When that one of a crate's mutants without a verdict on the present text was tried whose try is longest ago: empty
        if one was never tried."""
        rows, known = self.rows(crate), self.known(crate)
        return min((rows[name].at if name in rows else "" for name in self.mutants(crate) if name not in known), default="")

    def add(self, crate: str, copy: pathlib.Path, mutants: Mapping[str, str], found: Mapping[str, str]) -> None:
        """Adds verdicts on mutants tried as these texts in a copy, and removes rows of missing mutants."""
        of_copy = checksums(copy, crate, self.toolchain, {name: mutants[name] for name in found})
        now = f"{datetime.datetime.now():%Y-%m-%dT%H:%M:%S}"
        rows = {**self.rows(crate), **{name: Row(of_copy[name], verdict.strip(), now) for name, verdict in found.items()}}
        kept = sorted(rows.keys() & self.mutants(crate).keys())
        lines = ["\t".join((name, *rows[name])) + "\n" for name in kept]
        self.file(crate).parent.mkdir(parents=True, exist_ok=True)
        self.file(crate).write_text(HEAD + "".join(lines), encoding="utf-8")


def checksums(root: pathlib.Path, crate: str, toolchain: str, mutants: Mapping[str, str]) -> Dict[str, str]:
    """The checksums of everything that the verdicts on these mutants of a crate rest on, by mutant.

    They cover the mutant itself, its crate's code, definitions and proofs, the toolchain's logic, and the definitions
    and public contracts of the crates that crates.txt lists for it. So neither a new proof in a lower crate nor a
    comment on its own line makes a row old. The types and laws of those crates aren't covered, nor are unlisted crates,
    whose definitions listed crates re-export only by name.
    """
    basis = hashlib.sha256(repr((logic_of(toolchain), list(basis_of(root, crate)))).encode("utf-8"))
    found = {}
    for name, text in mutants.items():
        whole = basis.copy()
        whole.update(text.encode("utf-8"))
        found[name] = whole.hexdigest()[:16]
    return found


def logic_of(toolchain: str) -> str:
    """The sum of the logic in a toolchain's line, or the whole line if it has none."""
    found = LOGIC.search(toolchain)
    return found[0] if found else toolchain


def basis_of(root: pathlib.Path, crate: str) -> Iterator[Tuple[str, object]]:
    """The part of a checksum that all mutants of a crate share: lines of files, and contracts."""
    listed = read_crates(root).listed
    yield "crates.txt", listed[crate]
    for part in PARTS:
        yield from lines_in(root, files_in(root / "crates" / crate / part))
    for below in listed[crate]:
        folder = root / "crates" / below
        yield from lines_in(root, (file for file in files_in(folder / "specs") if not is_law(file, folder / "specs")))
        yield from contracts_in(root, files_in(folder / "src"))


def files_in(folder: pathlib.Path) -> List[pathlib.Path]:
    """The files of a folder, also in its subfolders."""
    return sorted(file for file in folder.glob("**/*") if file.is_file())


def is_law(file: pathlib.Path, specs: pathlib.Path) -> bool:
    """Whether a file of `specs/` has laws, or re-exports them."""
    return file.relative_to(specs).with_suffix("").parts[0] == LAWS


def lines_in(root: pathlib.Path, files: Iterable[pathlib.Path]) -> Iterator[Tuple[str, object]]:
    """The lines of files, without comments and empty lines."""
    for file in files:
        sign = COMMENTS.get(file.suffix, "\n")
        lines = file.read_text(encoding="utf-8").split("\n")
        yield str(file.relative_to(root)), [line for line in lines if line.strip() and not line.strip().startswith(sign)]


def contracts_in(root: pathlib.Path, files: Iterable[pathlib.Path]) -> Iterator[Tuple[str, object]]:
    """The signatures and contracts of the public functions of files."""
    for file in files:
        for one in SourceFile("", (), file).functions():
            if one.public and one.clauses:
                lines = [without_comments(line).rstrip() for line in one.text]
                yield str(file.relative_to(root)), [line for line in lines if line]
