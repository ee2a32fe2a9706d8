"""The version of `distac-view`, and its commit."""

from __future__ import annotations

import os
import pkgutil
import subprocess
from pathlib import Path

VERSION = "distac-view 1"
# A release has this file in its folder `distac_view`, containing the commit.
COMMIT_FILE = "commit.txt"
UNKNOWN = "unknown"
# The suffix of a commit if files of the checkout differ from it.
CHANGED = "-changed"
TOP = Path(__file__).resolve().parents[2]
MOST_SECONDS = 10


def version_line() -> str:
    return f"{VERSION}, commit {commit()}"


def commit() -> str:
    """The commit of a release, or of this checkout."""
    return commit_within() or commit_of(TOP) or UNKNOWN


def commit_within() -> str:
    """The commit that was written into a release."""
    try:
        return (pkgutil.get_data("distac_view", COMMIT_FILE) or b"").decode("ascii").strip()
    except (OSError, UnicodeDecodeError):
        return ""


def commit_of(folder: Path) -> str:
    """The commit of a checkout. A folder that is only inside another checkout has none."""
    if not (folder / ".git").exists():
        return ""
    return git_says(folder, "describe", "--always", "--exclude=*", "--abbrev=40", f"--dirty={CHANGED}") or ""


def git_says(folder: Path, *words: str) -> str | None:
    """The output of git in a checkout, or none if it fails."""
    line = ["git", "-C", str(folder), *words]
    surroundings = {name: value for name, value in os.environ.items() if not name.startswith("GIT_")}
    try:
        done = subprocess.run(line, stdin=subprocess.DEVNULL, capture_output=True, env=surroundings, timeout=MOST_SECONDS, check=True)
    except (OSError, subprocess.SubprocessError):
        return None
    return done.stdout.decode("utf-8", "replace").strip()
