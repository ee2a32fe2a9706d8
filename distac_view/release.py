#!/usr/bin/env python3
"""Makes the folder of a release: `python3 distac_view/release.py FOLDER`.

It contains distac-view.pyz, the proved program distac, the JSON Schema of the answers, the license, RELEASE with the
versions and the commit, and SHA256SUMS. It is made from a commit, from which no file may differ. If the program isn't
proved, no release is made, unless --without-program leaves it out.
"""

import argparse
import hashlib
import os
import platform
import subprocess
import sys
import tempfile
from pathlib import Path
from typing import Dict, Optional

sys.dont_write_bytecode = True
TOP = Path(__file__).resolve().parent.parent
sys.path.insert(0, str(TOP))

from distac_view.asking.program import launch
from distac_view.common.problems import Problem, Status
from distac_view.common.texts import text_of
from distac_view.common.version import CHANGED, UNKNOWN, VERSION, commit_of, git_says
from distac_view.pack import packed

SCHEMA = "distac-view.schema.json"
PROGRAMS = ("distac-view.pyz", "distac")
MOST_SECONDS = 60


def release(folder: Path, has_program: bool) -> None:
    """Makes the whole folder, or nothing of it."""
    if folder.exists() and (not folder.is_dir() or any(folder.iterdir())):
        raise Problem(f"{folder} is there already: name a folder that isn't, or an empty one")
    files = files_of(clean_commit(), proved_program() if has_program else None)
    try:
        folder.resolve().parent.mkdir(parents=True, exist_ok=True)
        with tempfile.TemporaryDirectory(dir=folder.resolve().parent, prefix=".release-") as room:
            fill(Path(room) / "release", files)
            os.replace(Path(room) / "release", folder)
    except OSError as error:
        raise Problem(f"{folder} can't be written: {error.strerror or error}") from error


def clean_commit() -> str:
    """The commit of this checkout, which must have no changes."""
    commit = commit_of(TOP)
    if commit.endswith(CHANGED) or (commit and git_says(TOP, "status", "--porcelain") != ""):
        raise Problem("files here differ from the commit, or aren't in it: commit them first")
    return commit or UNKNOWN


def proved_program() -> Path:
    """The program, if it is proved and made from the present sources."""
    state, _, path = text_of(launch("--which", "--proved")).strip().partition(": ")
    if state != "proved":
        raise Problem("there is no proved program of these sources: ./distac prove makes it, and --without-program leaves it out")
    return Path(path)


def files_of(commit: str, program: Optional[Path]) -> Dict[str, bytes]:
    """The files of a release by name, without the checksums."""
    files = {"distac-view.pyz": packed(commit)}
    if program:
        files["distac"] = program.read_bytes()
    files[SCHEMA] = (TOP / "docs" / SCHEMA).read_bytes()
    files["LICENSE"] = (TOP / "LICENSE").read_bytes()
    files["RELEASE"] = "".join(f"{name}: {value}\n" for name, value in facts(commit, program).items()).encode()
    return files


def facts(commit: str, program: Optional[Path]) -> Dict[str, str]:
    """The contents of RELEASE."""
    left_out = "left out: distac-view.pyz asks the models with --models, or a program that --distac names"
    proved = f"{said_by(str(program), '--version')}, proved, for {platform.system()} {platform.machine()}"
    toolchain = said_by("rt", "version")
    if program and not toolchain:
        raise Problem("the toolchain's command rt isn't in PATH, and a release with the program says its version")
    return {
        "distac-view": f"{VERSION}, for Python 3.8 or later",
        "commit": commit,
        "program": proved if program else left_out,
        "rt version": toolchain or UNKNOWN,
    }


def said_by(*words: str) -> str:
    """The first line of a command's output, if the command exists."""
    try:
        done = subprocess.run(words, stdin=subprocess.DEVNULL, capture_output=True, timeout=MOST_SECONDS, check=True)
    except (OSError, subprocess.SubprocessError):
        return ""
    return text_of(done.stdout).partition("\n")[0]


def fill(folder: Path, files: Dict[str, bytes]) -> None:
    """Writes the files with their checksums."""
    folder.mkdir()
    sums = "".join(f"{hashlib.sha256(data).hexdigest()}  {name}\n" for name, data in files.items())
    for name, data in {**files, "SHA256SUMS": sums.encode()}.items():
        (folder / name).write_bytes(data)
        (folder / name).chmod(0o755 if name in PROGRAMS else 0o644)


def main() -> int:
    parser = argparse.ArgumentParser(description="Makes the folder of a release: distac-view, the proved program, and what they are.")
    parser.add_argument("folder", metavar="FOLDER", type=Path, help="a folder that isn't there yet, or is empty")
    parser.add_argument("--without-program", action="store_true", help="leave the program distac out, and say so in RELEASE")
    words = parser.parse_args()
    try:
        release(words.folder, not words.without_program)
    except Problem as problem:
        sys.stderr.write(f"release: {problem.sentence}\n")
        return Status.TROUBLE
    return Status.FINE


if __name__ == "__main__":
    sys.exit(main())
