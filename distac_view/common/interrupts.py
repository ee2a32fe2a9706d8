"""Ctrl-C as a wish to stop, for work whose results so far are worth printing."""

from __future__ import annotations

import signal
import threading
from types import FrameType, TracebackType


class Stop:
    """Whether Ctrl-C was pressed within a block. A second one ends the program as usual."""

    def __init__(self) -> None:
        self.is_wished = False
        self.before = signal.getsignal(signal.SIGINT)
        self.is_watched = threading.current_thread() is threading.main_thread() and callable(self.before)

    def __enter__(self) -> Stop:
        if self.is_watched:
            signal.signal(signal.SIGINT, self.wish)
        return self

    def __exit__(self, _: "type[BaseException] | None", __: BaseException | None, ___: TracebackType | None) -> None:
        if self.is_watched:
            signal.signal(signal.SIGINT, self.before)

    def wish(self, _: int, __: FrameType | None) -> None:
        """Notes the first Ctrl-C."""
        self.is_wished = True
        signal.signal(signal.SIGINT, self.before)
