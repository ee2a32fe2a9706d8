"""Checks a crate of a copy of the repository with other texts of some files, as `rt ci` does for one edit.

No command of `rt` does that over the libraries that `rt ci` proves and reports for each function whether it is proved,
so this calls rattle, the tool that `rt ci` calls. The libraries are those that a gate left in a repository, if they are
of the copy's texts; otherwise `rt ci` first proves the copy. This file contains all assumptions about the toolchain's
parts, and `rounds.py` and `judging.py` contain those about its messages. If one fails, nothing is checked here, or
nothing counts.
"""

import pathlib
import shutil
from typing import Callable, Dict, List, Mapping, NamedTuple, Optional, Sequence, Tuple

from checks.library.crates import Crates, read_crates
from checks.library.verdicts import PARTS, files_in

# How a command run in a folder ends, and its output lines.
Run = Callable[[Sequence[str], pathlib.Path], Tuple[int, List[str]]]
# The part of a library that is written last, and the last line of a check of a proved crate.
LAST_PART = pathlib.Path("toolchain", "checked.a")
PROVED = "logic=proved"
KIT_PARTS = ("bin/rattle", "rattle/logic/antt-project.json", "logic_built", "rlibs/std.rlib")


class Toolchain(NamedTuple):
    """The toolchain: its folder, how its commands are run, and the number of jobs."""

    kit: pathlib.Path
    run: Run
    jobs: int


class JointChecks:
    """Checks of one crate. The first one checks the crate as it is, from nothing. Each further one reuses the parts
    that no change has affected."""

    def __init__(self, tools: Toolchain, root: pathlib.Path, crate: str, home: pathlib.Path) -> None:
        """Proves nothing until `begins` is called. A gate may have left libraries at home."""
        self.tools, self.root, self.crate, self.home = tools, root, crate, home
        self.folder = root / "crates" / crate
        # (outside the copy, which contains only files that a proof reads)
        self.room = root.parent / "joint"
        self.kept = root.parent / "kept"

    def begins(self) -> bool:
        """Whether the crate is proved as it is, over the libraries at home or else over those of the copy."""
        if not (self.folder / "src" / "lib.rt").is_file():
            return False
        return (self.serves() or self.is_made()) and self.is_sound()

    def serves(self) -> bool:
        """Whether home has complete libraries of all crates below, of the same texts as the copy."""
        ours, theirs = read_crates(self.root), read_crates(self.home)
        below = ours.below(self.crate)
        return all(ours.listed[one] == theirs.listed.get(one) for one in below) and all(map(self.is_of_copy, below))

    def is_of_copy(self, crate: str) -> bool:
        """Whether a crate's library is complete and no older than its sources, and its texts are those of the copy."""
        whole = self.library(crate) / LAST_PART
        if not whole.is_file() or bytes_of(self.home, crate) != bytes_of(self.root, crate):
            return False
        read = [file for one in (crate, *read_crates(self.home).below(crate)) for file in texts_of(self.home, one)]
        return all(file.stat().st_mtime <= whole.stat().st_mtime for file in (self.home / "crates.txt", *read))

    def is_made(self) -> bool:
        """Whether `rt ci` proves the crates of the copy, and leaves the libraries where they are looked for."""
        self.home = self.root
        # (the copy must be the top of a repository)
        (self.root / ".git").mkdir(exist_ok=True)
        status, _ = self.tools.run(["env", f"RT_JOBS={self.tools.jobs}", "rt", "ci"], self.root)
        return status == 0 and all(self.library(one).is_dir() for one in read_crates(self.root).below(self.crate))

    def library(self, crate: str) -> pathlib.Path:
        """The library of a crate that `rt ci` leaves."""
        return self.home / "crates" / crate / "out" / "rlib" / f"{crate}.rlib"

    def is_sound(self) -> bool:
        """Whether the crate is proved as it is, with the results of earlier checks."""
        status, said = self.check({})
        return status == 0 and bool(said) and said[-1].startswith(PROVED)

    def check(self, texts: Mapping[str, str], is_from_nothing: bool = False) -> Tuple[int, List[str]]:
        """The status and output of a check of the crate with these texts, with earlier results or from nothing."""
        shutil.rmtree(self.room, ignore_errors=True)
        for part in PARTS:
            if (self.folder / part).is_dir():
                shutil.copytree(self.folder / part, self.room / part)
        for name, text in texts.items():
            (self.room / name).write_text(text, encoding="utf-8")
        self.kept.mkdir(exist_ok=True)
        kept = [] if is_from_nothing else ["--incremental", str(self.kept)]
        status, said = self.tools.run([*self.words(read_crates(self.root)), *kept], self.room)
        return status, whole(said)

    def words(self, crates: Crates) -> List[str]:
        """The command that checks the crate: with libraries of the toolchain, its own, and those of crates below."""
        kit = self.tools.kit
        own = [one for one in crates.listed[self.crate] if one in crates.listed]
        of_kit = ["std"] + [one for one in crates.listed[self.crate] if one not in crates.listed]
        paths: Dict[str, pathlib.Path] = {one: kit / "rlibs" / f"{one}.rlib" for one in of_kit}
        paths.update({one: self.library(one) for one in own})
        words = [str(kit / "bin" / "rattle"), "check", "--crate-name", self.crate, "src/lib.rt"]
        words += ["-L", f"dependency={kit / 'rlibs'}"]
        for one, path in paths.items():
            words += ["--extern", f"{one}={path}"]
        for one in sorted(crates.below(self.crate)):
            words += ["-L", f"dependency={self.library(one).parent}"]
        words += ["--antt-project", str(kit / "rattle" / "logic" / "antt-project.json"), "--logic-built", str(kit / "logic_built")]
        return words + ["--jobs", str(self.tools.jobs), "--links", f"{self.crate}="]


def texts_of(root: pathlib.Path, crate: str) -> List[pathlib.Path]:
    """The files of a crate that its proof reads."""
    return [file for part in PARTS for file in files_in(root / "crates" / crate / part)]


def bytes_of(root: pathlib.Path, crate: str) -> Dict[pathlib.Path, bytes]:
    """The contents of these files, by path."""
    return {file.relative_to(root): file.read_bytes() for file in texts_of(root, crate)}


def whole(lines: Sequence[str]) -> List[str]:
    """The lines of a check, each joined with its continuation lines, which begin with two spaces."""
    found: List[str] = []
    for line in lines:
        if found and line.startswith("  "):
            found[-1] = f"{found[-1]} {line.strip()}"
        else:
            found.append(line)
    return found


def toolchain_by(run: Run) -> Optional[Toolchain]:
    """The toolchain next to its guide, for one job, if it is in the expected place."""
    status, said = run(["rt", "doc"], pathlib.Path(__file__).resolve().parent)
    kit = pathlib.Path(said[-1]).parent if status == 0 and said else pathlib.Path()
    return Toolchain(kit, run, 1) if all((kit / part).exists() for part in KIT_PARTS) else None
