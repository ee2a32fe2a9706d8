"""Counts the repository's lines by kind, and compares them with those of the last release."""

import argparse
import pathlib
from typing import Dict, Optional, Sequence

from checks.library.crates import HERE
from checks.library.document_checks import files_of
from checks.library.printed import printed
from checks.library.script_checks import python_scripts

WHAT = """Counts lines by kind, now and in the last release, whose counts are in checks/library/lines.txt.

Of crates whose name begins with dac_ or distac: src counts .rt files; specs the .antt files of specs/ without laws, laws those of
specs/laws with specs/laws.antt, proofs those of proofs/; program crates is the sum of these four. Tests counts .rt and .antt files
of all other crates, edits the files of must-fail/ and mutants.edits, Python the .py files and Python scripts of the repository. Each
line counts, also an empty one or a comment. Words are those of README.md, CHANGELOG.md and docs/*.md, between blanks.
Files that git ignores don't count.
"""
PROGRAM = ("dac_", "distac")
SUMMED = ("src", "specs", "laws", "proofs")
SUM, WORDS = "program crates", "words of documents"
KINDS = (*SUMMED, SUM, "tests", "edits", "Python", WORDS)
RELEASE = HERE / "checks" / "library" / "lines.txt"


def kind_of(path: pathlib.PurePath) -> Optional[str]:
    """The kind of a file, if its path tells it."""
    top, *rest = path.parts
    if path.suffix == ".md" and (not rest or top == "docs"):
        return WORDS
    if top != "crates" or len(rest) < 2:
        return None
    if path.suffix in (".edit", ".edits"):
        return "edits"
    if path.suffix not in (".rt", ".antt"):
        return None
    if not rest[0].startswith(PROGRAM):
        return "tests"
    return "laws" if rest[1] == "specs" and "laws" in path.with_suffix("").parts else rest[1]


def counts_of(root: pathlib.Path) -> Dict[str, int]:
    """The lines of each kind, and the words."""
    files = files_of(root)
    scripts = set(python_scripts(files))
    counts = dict.fromkeys(KINDS, 0)
    for file in files:
        kind = "Python" if file in scripts else kind_of(file.relative_to(root))
        if kind in counts:
            text = file.read_text(encoding="utf-8", errors="replace")
            counts[kind] += len(text.split()) if kind == WORDS else text.count("\n")
    counts[SUM] = sum(counts[kind] for kind in SUMMED)
    return counts


def read_release(file: pathlib.Path) -> Dict[str, int]:
    """The counts in a file, each behind its kind. A line with `#` is a comment."""
    lines = (line.rsplit(maxsplit=1) for line in file.read_text(encoding="utf-8").splitlines() if not line.startswith("#"))
    return {kind: int(count.replace(",", "")) for kind, count in lines}


def main(arguments: Sequence[str]) -> int:
    """Runs the command."""
    return printed("lines", lambda: ran(arguments))


def ran(arguments: Sequence[str]) -> int:
    """Prints the counts, or records them."""
    parser = argparse.ArgumentParser(prog="lines", description=WHAT, formatter_class=argparse.RawDescriptionHelpFormatter)
    parser.add_argument("--record", action="store_true", help="write the present counts into the file, for a release")
    asked = parser.parse_args(arguments)
    counts, before = counts_of(HERE), read_release(RELEASE)
    print(f"{'lines':<20}{'now':>8}{'release':>9}{'change':>8}")
    for kind, count in counts.items():
        print(f"{kind:<20}{count:>8,}{before.get(kind, 0):>9,}{count - before.get(kind, 0):>+8,}")
    if asked.record:
        said = RELEASE.read_text(encoding="utf-8").partition("\n")[0]
        RELEASE.write_text("\n".join((said, *(f"{kind} {count:,}" for kind, count in counts.items()), "")), encoding="utf-8")
    return 0
