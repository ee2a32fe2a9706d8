"""Real nodes that go down and come back one after another: each event is asked from where applications run then.

Chains of losses, permissions of single nodes, starts that fail, and splits, for real_erlang.py.
"""

from __future__ import annotations

import json
import tempfile
import time
from collections import Counter
from dataclasses import dataclass, field
from pathlib import Path
from typing import Any

from erlang_nodes import HOST, Cluster
from real_shared import LATE_SECONDS, NODES, Score, bare, seen, wait_for, whole
from support import run_view
import real_splits

START_SECONDS = 20.0
FILE = "[{kernel,[{distributed,[%s]},{permissions,[%s]},{sync_nodes_optional,[cp1,cp2,cp3]},{sync_nodes_timeout,6000},{logger_level,none}]}].\n"
# Events: a node goes down, or comes back.
DOWN, BACK = "down", "back"


@dataclass(frozen=True)
class Walk:
    """Applications with times and lists, and events: each with the nodes that it is about, in parts before the host.

    Also the applications forbidden at single nodes, the starts that fail, and how applications are started.
    """

    name: str
    apps: "tuple[tuple[str, int, str], ...]"
    events: "tuple[tuple[str, str], ...]"
    forbidden: "dict[str, str]" = field(default_factory=dict)
    fails: "dict[str, str]" = field(default_factory=dict)
    start_type: str = "temporary"

    @property
    def names(self) -> list[str]:
        return [app for app, _, _ in self.apps]

    def text(self, node: str) -> str:
        entries = ",".join("{%s,%d,%s}" % each for each in self.apps)
        return whole(FILE % (entries, ",".join("{%s,false}" % app for app in self.forbidden.get(node, "").split())))

    @property
    def words(self) -> list[str]:
        """The words about starts that fail."""
        pairs = [f"{app}={node}" for node, apps in self.fails.items() for app in apps.split()]
        temporary = ["--temporary", *self.names] if self.start_type == "temporary" else []
        return ["--fails", *pairs, *temporary] if pairs else []


LIST, TUPLE = "[cp1,cp2,cp3]", "[cp1,{cp2,cp3}]"
TWO = (("a1", 400, LIST), ("a2", 900, "[cp2,cp3]"))
THREE = (("a1", 300, LIST), ("a2", 700, "[cp2,cp3,cp1]"), ("a3", 1100, "[cp3,{cp1,cp2}]"))
CHAINS = (
    Walk("chain of two", TWO, ((DOWN, "cp1"), (DOWN, "cp2"), (BACK, "cp1"), (BACK, "cp2"))),
    Walk("chain of two, turned", THREE, ((DOWN, "cp2"), (DOWN, "cp3"), (BACK, "cp3"), (BACK, "cp2"))),
    Walk("chain of three nodes", THREE, ((DOWN, "cp3"), (DOWN, "cp1"), (BACK, "cp1"), (BACK, "cp3"), (DOWN, "cp2"), (BACK, "cp2"))),
)
PERMISSIONS = (
    Walk("forbidden at the second node", TWO, ((DOWN, "cp1"), (BACK, "cp1")), {"cp2": "a1"}),
    Walk("forbidden in a tuple", (("a1", 400, TUPLE),), ((DOWN, "cp1"), (BACK, "cp1")), {"cp2": "a1"}),
)
FAILING = (
    Walk("fails, list", TWO, ((DOWN, "cp1"), (BACK, "cp1")), {}, {"cp2": "a1"}),
    Walk("fails, list, permanent", TWO, ((DOWN, "cp1"),), {}, {"cp2": "a1"}, "permanent"),
    Walk("fails, list, transient", TWO, ((DOWN, "cp1"),), {}, {"cp2": "a1"}, "transient"),
    Walk("fails, tuple", (("a1", 400, TUPLE),), ((DOWN, "cp1"),), {}, {"cp2": "a1"}),
    Walk("fails, tuple, permanent", (("a1", 400, TUPLE),), ((DOWN, "cp1"),), {}, {"cp2": "a1"}, "permanent"),
    Walk("fails, then a later node", TWO, ((DOWN, "cp3"), (DOWN, "cp1"), (BACK, "cp3")), {}, {"cp2": "a1"}),
    Walk("fails, a tuple before it", (("a1", 400, "[{cp1,cp3},cp2]"),), ((DOWN, "cp3"), (DOWN, "cp1"), (BACK, "cp1")), {}, {"cp2": "a1"}),
    Walk("fails at the return", (("a1", 400, LIST),), ((DOWN, "cp1"), (BACK, "cp1")), {}, {"cp1": "a1"}),
    Walk("fails at the return, permanent", (("a1", 400, LIST),), ((DOWN, "cp1"), (BACK, "cp1")), {}, {"cp1": "a1"}, "permanent"),
)
WALKS = {"chains": CHAINS, "permissions": PERMISSIONS, "starts that fail": FAILING}


def take(walk: Walk, score: Score) -> None:
    longest = max(milliseconds for _, milliseconds, _ in walk.apps) / 1000
    with tempfile.TemporaryDirectory(prefix="distac-nodes-") as room, Cluster(Path(room), dict.fromkeys(walk.names, 0)) as cluster:
        config = gathered(walk, Path(room))
        boot(cluster, walk, list(NODES))
        time.sleep(LATE_SECONDS)
        tell_failures(cluster, walk)
        for what, short in walk.events:
            node, now = f"{short}@{HOST}", Path(room) / "now"
            now.write_text(places_now(cluster, walk.names))
            wanted = expected(walk, config, what, now, node)
            if what == DOWN:
                cluster.nodes[node].kill()
            else:
                boot(cluster, walk, [node])
            found, _ = wait_for(cluster, wanted, longest + 2 * LATE_SECONDS)
            for app, place in wanted.items():
                score.compare(f"{walk.name}, {short} {what}: {app}", place, found[app])
    print(f"{walk.name}: {walk.start_type}", flush=True)


def gathered(walk: Walk, room: Path) -> Path:
    """The configuration that `gather` makes of the nodes' files."""
    words = []
    for node in NODES:
        short = node.split("@")[0]
        (room / f"{short}.config").write_text(walk.text(short))
        words.append(f"{node}={room / short}.config")
    said = run_view("gather", *words, "-o", str(room / "cluster.config"))
    if said.status:
        raise SystemExit(f"gather: {said.output}{said.errors}")
    return room / "cluster.config"


def boot(cluster: Cluster, walk: Walk, nodes: list[str]) -> None:
    """Nodes come up, and start all applications in turn. A node where a start fails may end."""
    for node in nodes:
        short = node.split("@")[0]
        booted = cluster.boot(node, short)
        if len(nodes) == 1:
            booted.order(f"fails {walk.fails.get(short, '')}")
        booted.order(f"start-as {walk.start_type} " + " ".join(walk.names))
    for node in nodes:
        cluster.nodes[node].answer("started", START_SECONDS)


def tell_failures(cluster: Cluster, walk: Walk) -> None:
    """Each node is told the starts that fail there from now on."""
    for short, apps in walk.fails.items():
        cluster.nodes[f"{short}@{HOST}"].order(f"fails {apps}")


def places_now(cluster: Cluster, names: list[str]) -> str:
    """The file of `--now`: each node that is up, with what runs there."""
    places = seen(cluster, names)
    return "".join(f"{node.name} {' '.join(app for app in names if places[app] == node.name)}\n" for node in cluster.up())


def expected(walk: Walk, config: Path, what: str, now: Path, node: str) -> "dict[str, str | None]":
    """The place of each application after an event, by `what-if`."""
    said = run_view("what-if", str(config), "--json", "--now", str(now), f"--{what}", node, *walk.words)
    if said.status:
        raise SystemExit(f"what-if: {said.output}{said.errors}")
    fates: Any = json.loads(said.output)["cases"][0]["applications"]
    return {fate["application"]: bare(fate["then" if what == DOWN else "back"]) for fate in fates}


def compare_split(way: real_splits.Way, score: Score) -> None:
    counts: "Counter[str]" = Counter()
    real_splits.run_split(real_splits.SCENARIOS[0], real_splits.SPLITS[0], way, counts)
    for what, count in counts.items():
        is_equal = " agree" in what
        score.add("agree" if is_equal else "differ", "" if is_equal else f"splits: {count} {what}", count)
