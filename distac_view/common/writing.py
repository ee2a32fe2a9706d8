"""Files that are written whole or not at all, and never over an input."""

import os
import shutil
from typing import Iterable

from distac_view.common.problems import Problem

PIPE = "-"


def write_whole(path: str, data: bytes, inputs: Iterable[str]) -> None:
    """Writes a file next to its place and then moves it there, so that a failed write leaves the previous file.

    Special files, such as pipes and devices, are written directly. No input is overwritten.
    """
    try:
        place = os.path.realpath(path)
        if any(is_same(place, source) for source in inputs):
            raise Problem(f"{path} is read by this command, and isn't written over: give -o another name")
        if os.path.exists(place) and not os.path.isfile(place):
            write_to(place, data)
        else:
            write_beside(place, data)
    except (OSError, ValueError) as error:
        raise Problem(f"{path} can't be written: {getattr(error, 'strerror', None) or error}") from error


def is_same(place: str, source: str) -> bool:
    """Whether a file is the one that an input names. A dash is standard input."""
    try:
        return os.path.samestat(os.stat(place), os.fstat(0) if source == PIPE else os.stat(source))
    except OSError:
        return False


def write_beside(place: str, data: bytes) -> None:
    """Writes a new file next to a place, and moves it there."""
    beside = os.path.join(os.path.dirname(place), f".distac-view-{os.urandom(6).hex()}")
    try:
        write_to(beside, data)
        if os.path.exists(place):
            shutil.copymode(place, beside)
        os.replace(beside, place)
    except BaseException:
        if os.path.exists(beside):
            os.unlink(beside)
        raise


def write_to(place: str, data: bytes) -> None:
    """Writes bytes to a place, and syncs a file to the disk."""
    with open(place, "wb") as file:
        file.write(data)
        file.flush()
        if os.path.isfile(place):
            os.fsync(file.fileno())
