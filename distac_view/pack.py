#!/usr/bin/env python3
"""Packs `distac-view` into one file that runs with Python 3.8 or later: `python3 distac_view/pack.py -o
distac-view.pyz`.

It includes the models, for `--models`. The same sources yield the same bytes, on any machine and at any time. It
contains no commit; distac_view/release.py packs one that does.
"""

import argparse
import io
import os
import sys
import zipfile
from pathlib import Path
from typing import Iterator, Tuple

sys.dont_write_bytecode = True
TOP = Path(__file__).resolve().parent.parent
sys.path.insert(0, str(TOP))

from distac_view.common.problems import Problem, Status
from distac_view.common.version import COMMIT_FILE
from distac_view.common.writing import write_whole

FIRST_LINE = b"#!/usr/bin/env python3\n"
FIRST_MOMENT = (1980, 1, 1, 0, 0, 0)
PACKAGES = ("answering", "asking", "cli", "common", "reading", "showing")
PACKED = ("distac_view/__init__.py", *(f"distac_view/{name}/*.py" for name in PACKAGES), "models/*.py")


def members(commit: str) -> Iterator[Tuple[str, bytes]]:
    """The packed files: the launcher under the name that Python runs, the modules in name order, and the commit."""
    yield "__main__.py", (TOP / "distac-view").read_bytes()
    for pattern in PACKED:
        for path in sorted(TOP.glob(pattern)):
            yield path.relative_to(TOP).as_posix(), path.read_bytes()
    if commit:
        yield f"distac_view/{COMMIT_FILE}", f"{commit}\n".encode()


def packed(commit: str = "") -> bytes:
    """The bytes of the whole file. Nothing is compressed, because compressed bytes differ between machines."""
    stream = io.BytesIO(FIRST_LINE)
    stream.seek(0, os.SEEK_END)
    with zipfile.ZipFile(stream, "a", zipfile.ZIP_STORED) as archive:
        for name, data in members(commit):
            entry = zipfile.ZipInfo(name, FIRST_MOMENT)
            entry.create_system = 3
            entry.external_attr = 0o100644 << 16
            archive.writestr(entry, data)
    return stream.getvalue()


def main() -> int:
    """Writes the file, and makes it executable."""
    parser = argparse.ArgumentParser(description="Packs distac-view into one file that runs with Python 3.8 or later.")
    parser.add_argument("-o", "--output", metavar="FILE", default="distac-view.pyz", help="the file, distac-view.pyz if absent")
    path = parser.parse_args().output
    try:
        write_whole(path, packed(), [str(TOP / "distac-view")])
        os.chmod(path, 0o755)
    except Problem as problem:
        sys.stderr.write(f"pack: {problem.sentence}\n")
        return Status.TROUBLE
    return Status.FINE


if __name__ == "__main__":
    sys.exit(main())
