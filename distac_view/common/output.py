"""Standard output and standard error of any kind."""

from __future__ import annotations

import errno
import os
import sys
import threading
import time
from typing import Callable, TextIO

from distac_view.common.texts import bytes_of

SILENT_SECONDS = 2.0


class Output:
    """Standard output for text and bytes, unchanged."""

    def __init__(self) -> None:
        self.stream = sys.stdout.buffer

    def line(self, text: str) -> None:
        """A line of text."""
        self.raw(bytes_of(text) + b"\n")

    def raw(self, data: bytes) -> None:
        """Bytes as they are."""
        self.stream.write(data)

    def flush(self) -> None:
        """Passes everything on."""
        self.stream.flush()


def open_streams() -> None:
    """Opens closed standard streams to nowhere, so that no file gets their numbers.

    Reading such a standard input or writing such a standard output fails. Standard error is lost.
    """
    for number, mode in enumerate((os.O_WRONLY, os.O_RDONLY, os.O_WRONLY)):
        try:
            os.fstat(number)
        except OSError:
            os.open(os.devnull, mode)
            os.set_inheritable(number, True)
    sys.stdout = sys.stdout or open(1, "w", encoding="utf-8", closefd=False)
    sys.stderr = sys.stderr or open(2, "w", encoding="utf-8", closefd=False)


def say(text: str) -> None:
    """A line on standard error."""
    data = bytes_of(text) + b"\n"
    try:
        sys.stderr.buffer.write(data)
        sys.stderr.buffer.flush()
    except OSError:
        drop(sys.stderr)


def why_not_written(error: OSError) -> str:
    """Why standard output can't be written."""
    if error.errno == errno.EBADF:
        return "it is closed, or open for reading alone"
    return error.strerror or str(error)


def drop(stream: TextIO) -> None:
    """Discards the rest of a stream that nobody reads any more."""
    nowhere = os.open(os.devnull, os.O_WRONLY)
    os.dup2(nowhere, stream.fileno())
    os.close(nowhere)


class Progress:
    """A line on a terminal's standard error with the progress, after more than two seconds."""

    def __init__(self) -> None:
        self.times_asked = 0
        self.cases: Callable[[], tuple[int, int]] = lambda: (0, 0)
        self.unit: Callable[[], str] = lambda: "case"
        self.start = time.monotonic()
        self.is_over = threading.Event()
        self.thread: threading.Thread | None = None
        self.stream = sys.stderr
        if self.stream.isatty():
            self.thread = threading.Thread(target=self.show, daemon=True)
            self.thread.start()

    def ask(self) -> None:
        """A question goes to `distac`."""
        self.times_asked += 1

    @property
    def what(self) -> str:
        """The progress: the case being played, or the number of questions to `distac`."""
        done, cases = self.cases()
        return f"{self.unit()} {min(done + 1, cases)} of {cases}" if cases else f"question {self.times_asked} to distac"

    def show(self) -> None:
        """Shows the progress twice a second."""
        has_shown = False
        while not self.is_over.wait(0.5):
            seconds = time.monotonic() - self.start
            if seconds > SILENT_SECONDS:
                has_shown = True
                self.stream.write(f"\r\033[Kdistac-view: {self.what}, {seconds:.0f} s")
                self.stream.flush()
        if has_shown:
            self.stream.write("\r\033[K")
            self.stream.flush()

    def end(self) -> None:
        """Nothing is shown any more."""
        self.is_over.set()
        if self.thread is not None:
            self.thread.join()
