"""The program compiled without proof and instrumented: for sanitizers, and for a coverage-guided fuzzer.

Compiling takes some minutes, and the Debian packages that crates/distac/compile-sanitized names. The programs are kept
in out/sanitized until a source is newer.
"""

from __future__ import annotations

import sys
import tempfile
from collections.abc import Iterator
from pathlib import Path

import folders
import processes

TOP = Path(__file__).resolve().parent.parent
FOLDER = TOP / "crates" / "distac"
KEPT = TOP / "out" / "sanitized"


def lines_of_crates() -> dict[str, str]:
    """The lines of crates.txt, by their first names."""
    lines = (TOP / "crates.txt").read_text().splitlines()
    return {line.partition(":")[0].strip(): line for line in lines if line and not line.startswith("#")}


def crates_below(name: str, lines: dict[str, str], seen: set[str]) -> Iterator[str]:
    """A crate and the crates below it, lowest first, without those seen before."""
    seen.add(name)
    for used in lines[name].partition(":")[2].split():
        if used in lines and used not in seen:
            yield from crates_below(used, lines, seen)
    yield name


def newest_source(crates: list[str]) -> float:
    """The time of the last change of the program's sources."""
    folders = [TOP / "crates" / name / part for name in crates for part in ("src", "specs")]
    return max(path.stat().st_mtime for folder in folders for path in folder.rglob("*") if path.is_file())


def made(path: Path, than: float, words: list[str], source: bytes = b"") -> Path:
    """A file newer than its sources: the kept one, or one that a command now makes."""
    if path.exists() and path.stat().st_mtime >= than:
        return path
    with tempfile.TemporaryDirectory(dir=folders.own(KEPT)) as room:
        print(f"compiling {path.name}", file=sys.stderr, flush=True)
        ran = processes.run([*words, str(path), room], source=source, is_joined=True)
    if ran.status:
        sys.exit(f"{path.name} wasn't compiled: {ran.output.decode(errors='replace')}")
    return path


def programs(*kinds: str) -> list[Path]:
    """The programs of some kinds of instrumentation."""
    lines = lines_of_crates()
    crates = list(crates_below("distac", lines, set()))
    source = "".join(f"{lines[name]}\n" for name in crates).encode()
    module = made(KEPT / "module.bc", newest_source(crates), [str(FOLDER / "compile-unproved")], source)
    sanitized = str(FOLDER / "compile-sanitized")
    return [made(KEPT / kind, module.stat().st_mtime, [sanitized, kind, str(module)]) for kind in kinds]
