"""Standard input and output of a script. It reports if they can't be read or written."""

from __future__ import annotations

import argparse
import io
import os
import sys
from typing import Callable, Collection

UNREAD = b"input fault 3 Read\n"


def run_model(name: str, play: Callable[[bytes], tuple[bytes, int]]) -> int:
    """Plays standard input, prints the output, and returns the status. As with the program a failed read is a fault of
    the input, and a failed write has a reason on standard error, unless a pipe's reader has gone."""
    try:
        with open(0, "rb", closefd=False) as opened:
            source = opened.read()
    except OSError:
        output, status = UNREAD, 1
    else:
        output, status = play(source)
    return written(name, output, status)


def print_input(name: str, make: Callable[..., bytes], kinds: Collection[str] = ()) -> int:
    """Prints what a generator makes of the command line's words: of a kind, if there are several, a seed and a number."""
    parser = argparse.ArgumentParser(prog=name)
    if kinds:
        parser.add_argument("kind", choices=list(kinds))
    parser.add_argument("seed", type=int)
    parser.add_argument("number", type=int)
    words = parser.parse_args()
    kind = [words.kind] if kinds else []
    return written(name, make(*kind, words.seed, words.number), 0)


def written(name: str, output: bytes, status: int) -> int:
    try:
        with open(1, "wb", closefd=False) as opened:
            opened.write(output)
    except BrokenPipeError:
        return 1
    except OSError as error:
        return failed(name, str(error.strerror))
    return status


def printed(name: str, work: Callable[[], int]) -> int:
    """Does a script's work and returns its status. It is 1 if the output can't be written, with the reason on standard
    error, unless a pipe's reader has gone."""
    if sys.stdout is None:
        return failed(name, "it is closed")
    if isinstance(sys.stdout, io.TextIOWrapper):
        # (in some locales the output has signs without a spelling)
        sys.stdout.reconfigure(errors="backslashreplace")
    try:
        try:
            return work()
        finally:
            sys.stdout.flush()
    except BrokenPipeError:
        drop()
        return 1
    except OSError as error:
        if error.filename is not None:
            raise
        drop()
        return failed(name, str(error.strerror))


def drop() -> None:
    """Drops what can't be written, because Python would try again at its end."""
    os.dup2(os.open(os.devnull, os.O_WRONLY), sys.stdout.fileno())


def failed(name: str, why: str) -> int:
    """Reports a failed write, and returns the status."""
    if sys.stderr is not None:
        sys.stderr.write(f"{name}: standard output can't be written: {why}\n")
    return 1
