"""Folders for the output of scripts."""

import sys
import tempfile
from pathlib import Path


def own(folder: Path) -> Path:
    """This folder, created if missing. If it can't be written, the script ends with a message and status 1."""
    try:
        folder.mkdir(parents=True, exist_ok=True)
        with tempfile.TemporaryFile(dir=folder):
            return folder
    except OSError as why:
        script = Path(sys.argv[0]).name
        sys.exit(f"{script}: {folder} can't be written ({why.strerror}): clone into a folder that can be written")
