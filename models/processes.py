"""The processes that a script starts. When a run of the script is ended, it ends all of them and leaves nothing.

Ctrl-C, SIGTERM and a closed terminal end a run. The script's work runs in a second thread, while the main one only
waits and handles signals, so no signal interrupts the start of a process.
"""

from __future__ import annotations

import contextlib
import os
import signal
import subprocess
import sys
import threading
import time
from collections.abc import Callable, Collection, Iterator, Mapping, Sequence
from concurrent.futures import ThreadPoolExecutor
from dataclasses import dataclass
from pathlib import Path
from types import FrameType
from typing import NoReturn, Union

from streams import printed

Word = Union[str, Path]
# The running processes. Each leads a session, which contains everything that it starts.
RUNNING: set[subprocess.Popen[bytes]] = set()
# The sessions that are asked to end before they are killed, and the seconds that they have for it.
ASKED: set[int] = set()
MOST_SECONDS = 10
LOCK = threading.Lock()
ENDED = threading.Event()
NO_END = -1


class Ended(Exception):
    """The run was ended before its work was done."""


@dataclass(frozen=True)
class Exit:
    """A process's output and its status: NO_END if it exceeded its time."""

    status: int
    output: bytes
    errors: bytes


def run(
    words: Sequence[Word],
    *,
    folder: Path | None = None,
    source: bytes = b"",
    variables: Mapping[str, str] | None = None,
    is_joined: bool = False,
    is_asked: bool = False,
    seconds: float | None = None,
) -> Exit:
    """Runs a command to its end. If joined, its errors are part of its output. A command that would leave something if
    killed, such as shared memory, is asked to end first."""
    started = start(words, folder, variables, is_joined, is_asked)
    try:
        output, errors = started.communicate(source, timeout=seconds)
        status = started.returncode
    except subprocess.TimeoutExpired:
        kill({started.pid})
        output, errors = started.communicate()
        status = NO_END
    finally:
        with LOCK:
            RUNNING.discard(started)
            ASKED.discard(started.pid)
    if ENDED.is_set():
        raise Ended
    return Exit(status, output, errors or b"")


def start(
    words: Sequence[Word], folder: Path | None, variables: Mapping[str, str] | None, is_joined: bool, is_asked: bool
) -> subprocess.Popen[bytes]:
    """Starts a command, unless this run was ended."""
    errors = subprocess.STDOUT if is_joined else subprocess.PIPE
    with LOCK:
        if ENDED.is_set():
            raise Ended
        started = subprocess.Popen(
            words,
            cwd=folder,
            env=variables,
            stdin=subprocess.PIPE,
            stdout=subprocess.PIPE,
            stderr=errors,
            start_new_session=True,
        )
        RUNNING.add(started)
        if is_asked:
            ASKED.add(started.pid)
    return started


def living(sessions: Collection[int]) -> Iterator[int]:
    """The processes of these sessions that haven't ended yet."""
    for folder in Path("/proc").glob("[0-9]*"):
        with contextlib.suppress(OSError):
            if os.getsid(int(folder.name)) in sessions and ") Z " not in (folder / "stat").read_text():
                yield int(folder.name)


def kill(sessions: Collection[int]) -> None:
    """Kills all processes of these sessions, including those that they start meanwhile."""
    while found := list(living(sessions)):
        for process in found:
            with contextlib.suppress(ProcessLookupError):
                os.kill(process, signal.SIGKILL)


def ask(sessions: Collection[int]) -> None:
    """Asks these sessions to end, and waits for a while."""
    for session in sessions:
        with contextlib.suppress(ProcessLookupError):
            os.killpg(session, signal.SIGTERM)
    until = time.monotonic() + MOST_SECONDS
    while any(living(sessions)) and time.monotonic() < until:
        time.sleep(0.05)


def end(number: int, _frame: FrameType | None) -> NoReturn:
    """Ends all running processes, and then this run."""
    with LOCK:
        ENDED.set()
        sessions = {started.pid for started in RUNNING}
        asked = sessions & ASKED
    ask(asked)
    kill(sessions)
    sys.exit(128 + number)


def handle_signals(handler: Callable[[int, FrameType | None], object]) -> None:
    """Sets a handler for the signals that ask a run to end. One that `nohup` has ignored stays ignored."""
    for number in (signal.SIGHUP, signal.SIGINT, signal.SIGTERM):
        if number != signal.SIGHUP or signal.getsignal(number) != signal.SIG_IGN:
            signal.signal(number, handler)


def work_until_ended(work: Callable[[], int]) -> int:
    """Does a script's work and returns its status. A signal ends the work and all that it started."""
    handle_signals(end)
    with ThreadPoolExecutor(1) as pool:
        return pool.submit(printed, Path(sys.argv[0]).name, work).result()
