"""Shared parts of comparisons with real nodes: where applications run, what is counted, and nodes that come up."""

from __future__ import annotations

import signal
import subprocess
import time
from collections import Counter
from contextlib import contextmanager
from dataclasses import dataclass, field
from typing import Callable, Iterator

from erlang_nodes import HOST, Cluster

NODES = tuple(f"{name}@{HOST}" for name in ("cp1", "cp2", "cp3"))
SINGLE = tuple((node,) for node in NODES)
LATE_SECONDS = 4.0
AGREE, DIFFER, ANNOUNCED, NO_ANSWER = "agree", "differ", "announced", "no answer"
KINDS = (AGREE, ANNOUNCED, DIFFER, NO_ANSWER)


class NoAnswer(Exception):
    """A comparison didn't end in its time. It is no OSError, because those of nodes that are gone are ignored."""


@contextmanager
def limit(seconds: int) -> Iterator[None]:
    """Ends what takes longer, in the main thread."""

    def end(*_: object) -> None:
        raise NoAnswer(f"{NO_ANSWER} in {seconds} s")

    before = signal.signal(signal.SIGALRM, end)
    signal.alarm(seconds)
    try:
        yield
    finally:
        signal.alarm(0)
        signal.signal(signal.SIGALRM, before)


def whole(nodes: str) -> str:
    """A list of nodes with their hosts."""
    for name in NODES:
        nodes = nodes.replace(name.split("@")[0], f"'{name}'")
    return nodes


@dataclass
class Score:
    """The counts of each comparison, and the lines printed."""

    counts: Counter[str] = field(default_factory=Counter)
    differing: list[str] = field(default_factory=list)
    group: str = ""
    rows: dict[str, Counter[str]] = field(default_factory=dict)

    def begin(self, group: str) -> None:
        """Further observations belong to a comparison."""
        self.group = group

    def add(self, what: str, row: str = "", count: int = 1) -> None:
        """One observation, or several equal ones. Any other kind than those of the table was announced by a note."""
        self.counts[what] += count
        kind = what if what in KINDS else ANNOUNCED
        self.rows.setdefault(self.group, Counter())[kind] += count
        if row:
            self.differing.append(row)

    def compare(self, where: str, wanted: object, found: object) -> None:
        """One observation, as expected or not."""
        self.add("agree" if wanted == found else "differ", "" if wanted == found else f"{where}: {wanted}, and OTP has {found}")

    def make(self, name: str, compare: Callable[[Score], None], seconds: int) -> None:
        """Makes a comparison, which has so much time."""
        try:
            with limit(seconds):
                compare(self)
        except subprocess.TimeoutExpired as late:
            self.add_late(f"{name}: {NO_ANSWER} by {late.cmd[0]} in {late.timeout:.0f} s")
        except (NoAnswer, TimeoutError) as late:
            self.add_late(f"{name}: {late}")

    def add_late(self, row: str) -> None:
        """A comparison without an answer, which is printed at once too."""
        self.add(NO_ANSWER, row)
        print(row, flush=True)

    @property
    def table(self) -> list[str]:
        """The rows of docs/OPERATORS.md: each comparison with its counts."""
        return [f"| {group} | {' | '.join(str(counts[kind]) for kind in KINDS)} |" for group, counts in self.rows.items()]


def bare(name: str | None) -> str | None:
    """A name without quotes."""
    return name.strip("'") if name else None


def seen(cluster: Cluster, names: list[str]) -> dict[str, str | None]:
    """The places of each application: none, one or several."""
    return {app: " and ".join(nodes) or None for app, nodes in cluster.where(names).items()}


def wait_for(cluster: Cluster, wanted: dict[str, str | None], seconds: float) -> tuple[dict[str, str | None], dict[str, float]]:
    """The places once they were as expected for half a second, or at the limit, and when each first ran."""
    start = time.monotonic()
    since: float | None = None
    when: dict[str, float] = {}
    while True:
        found, moment = seen(cluster, list(wanted)), time.monotonic()
        for app, node in found.items():
            if node:
                when.setdefault(app, moment)
        since = (since or moment) if found == wanted else None
        if moment - start > seconds or (since and moment - since > 0.5):
            return found, when
        time.sleep(0.02)


def boot(cluster: Cluster, nodes: tuple[str, ...], names: list[str]) -> None:
    """Nodes come up, and start all applications in turn, as a release does."""
    for node in nodes:
        cluster.boot(node, node).order("start " + " ".join(names))
    for node in nodes:
        cluster.nodes[node].answer("started", 15.0)
