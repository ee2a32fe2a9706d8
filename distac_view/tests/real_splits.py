#!/usr/bin/env python3
"""Compares `what-if --split` with four real nodes of Erlang/OTP on the loopback interface.

python3 distac_view/tests/real_splits.py [--only NAME ..]

It requires `erl`, `erlc` and `epmd` in PATH, and runs the program that the environment variable DISTAC names, or else
the models. It isn't part of the tests. Nodes are separated by different cookies and erlang:disconnect_node/1, with the
parameter prevent_overlapping_partitions false and true. Then the cookies are restored, and the nodes connect again. At
the end the nodes of all sides but the first are restarted.
"""

import argparse
import json
import sys
import tempfile
import time
from collections import Counter
from dataclasses import dataclass
from pathlib import Path
from typing import Any, Dict, List

sys.dont_write_bytecode = True
sys.path.insert(0, str(Path(__file__).resolve().parent))

from support import run_view
from erlang_nodes import HOST, Cluster, is_installed, release_of_otp

SHORT = ("cp1", "cp2", "cp3", "cp4")
NODES = tuple(f"{name}@{HOST}" for name in SHORT)
LATE_SECONDS = 3.0
CONFIG = """\
[{{kernel,
  [{{distributed, [{entries}]}},
   {{sync_nodes_optional, [{nodes}]}}, {{sync_nodes_timeout, 15000}},
   {{prevent_overlapping_partitions, {prevents}}},
   {{logger_level, critical}}]}}].
"""

Places = Dict[str, List[str]]


@dataclass(frozen=True)
class Scenario:
    """Applications with their times and lists, and the splits to try, each a word per side."""

    name: str
    apps: "tuple[tuple[str, int, str], ...]"
    splits: "tuple[tuple[str, ...], ...]"

    def text(self, prevents: bool) -> str:
        """The configuration."""
        entries = ", ".join("{%s,%d,%s}" % (app, milliseconds, whole(nodes)) for app, milliseconds, nodes in self.apps)
        nodes = ",".join(f"'{node}'" for node in NODES)
        return CONFIG.format(entries=entries, nodes=nodes, prevents=str(prevents).lower())


def whole(nodes: str) -> str:
    """A list of nodes with their hosts."""
    for name, node in zip(SHORT, NODES):
        nodes = nodes.replace(name, f"'{node}'")
    return nodes


@dataclass(frozen=True)
class Way:
    """How nodes are separated: whether OTP prevents overlaps, and whether all connections break at once."""

    name: str
    prevents: bool
    at_once: bool


WAYS = (Way("plain", False, True), Way("prevented, at once", True, True), Way("prevented, one by one", True, False))
SPLITS = (("cp1 cp2", "cp3 cp4"), ("cp1", "cp2 cp3 cp4"), ("cp2 cp4", "cp1 cp3"), ("cp1 cp4", "cp2", "cp3"))
SCENARIOS = (
    Scenario("lists", (("a1", 400, "[cp1,cp2,cp3,cp4]"), ("a2", 700, "[cp3,cp1,cp4,cp2]"), ("a3", 1000, "[cp4,cp3]")), SPLITS),
    Scenario("tuples", (("a1", 400, "[cp1,{cp2,cp3},cp4]"), ("a2", 800, "[{cp2,cp3},{cp1,cp4}]"), ("a3", 1200, "[cp4,{cp1,cp2,cp3}]")), SPLITS),
    Scenario("short lists", (("a1", 0, "[cp1,cp3]"), ("a2", 300, "[cp2]"), ("a3", 600, "[cp4,cp1]"), ("a4", 900, "[cp3,cp2,cp1]")), SPLITS),
    Scenario("one tuple", (("a1", 400, "[{cp1,cp2,cp3,cp4}]"), ("a2", 900, "[{cp1,cp2,cp3,cp4}]"), ("a3", 1400, "[{cp1,cp2,cp3,cp4}]")), SPLITS[:2]),
)


def expected_of(config: Path, sides: "tuple[str, ...]", now: Places) -> Any:
    """The answer of `what-if --split`, from the applications' present places."""
    words = [f"{app}={nodes[0]}" for app, nodes in now.items() if nodes]
    said = run_view("what-if", str(config), "--json", "--split", *" / ".join(sides).split(" "), "--now", *words)
    if said.status:
        raise SystemExit(f"what-if: {said.output}{said.errors}")
    return json.loads(said.output)


def cut(cluster: Cluster, sides: "tuple[str, ...]", is_cut: bool, at_once: bool) -> None:
    """Separates or reconnects sides: all connections at once, or one after another."""
    others = {f"{name}@{HOST}": others_of(sides, side) for side in sides for name in side.split()}
    for node, away in others.items():
        cookie = f"'cut off at {node}'" if is_cut else f"'{cluster.cookie}'"
        cluster.nodes[node].order(f"eval [erlang:set_cookie(N,{cookie}) || N <- {away}].")
    answered(cluster, list(others))
    action = "erlang:disconnect_node(N)" if is_cut else "net_kernel:connect_node(N)"
    for node, away in others.items():
        cluster.nodes[node].order(f"eval [{action} || N <- {away}].")
        if not at_once:
            answered(cluster, [node])
    if at_once:
        answered(cluster, list(others))


def others_of(sides: "tuple[str, ...]", side: str) -> str:
    """The nodes of the other sides, as an Erlang list."""
    return "[%s]" % ",".join(f"'{name}@{HOST}'" for other in sides if other != side for name in other.split())


def answered(cluster: Cluster, nodes: "list[str]") -> None:
    """Nodes have done as they were told."""
    for node in nodes:
        cluster.nodes[node].answer("evaluated", 20.0)


def boot(cluster: Cluster, nodes: "list[str]", names: "list[str]") -> None:
    """Nodes come up and start all applications."""
    for node in nodes:
        cluster.boot(node, "cluster").order("start " + " ".join(names))
    for node in nodes:
        cluster.nodes[node].answer("started", 20.0)
    time.sleep(LATE_SECONDS)


def run_split(scenario: Scenario, sides: "tuple[str, ...]", way: Way, counts: "Counter[str]") -> None:
    """One split with its own nodes."""
    names, longest = [app for app, _, _ in scenario.apps], max(milliseconds for _, milliseconds, _ in scenario.apps)
    with tempfile.TemporaryDirectory(prefix="distac-nodes-") as room, Cluster(Path(room), dict.fromkeys(names, 0)) as cluster:
        config = Path(room) / "cluster.config"
        config.write_text(scenario.text(way.prevents))
        boot(cluster, list(NODES), names)
        now = cluster.where(names)
        answer = expected_of(config, sides, now)
        cut(cluster, sides, True, way.at_once)
        time.sleep(longest / 1000 + LATE_SECONDS)
        during, heard = cluster.where(names), hearing(cluster)
        formed = sides_formed(heard)
        if sorted(formed) != sorted(" ".join(sorted(side.split())) for side in sides):
            answer = expected_of(config, formed, now)
        cut(cluster, sides, False, True)
        time.sleep(LATE_SECONDS)
        healed, heard_again = cluster.where(names), hearing(cluster)
        others = [f"{name}@{HOST}" for side in formed[1:] for name in side.split()]
        for node in others:
            cluster.nodes[node].kill()
        time.sleep(longest / 1000 + LATE_SECONDS)
        boot(cluster, others, names)
        back = cluster.where(names)
    print(f"{scenario.name}, {' / '.join(sides)}, {way.name}: formed {' / '.join(formed)}, then {' / '.join(sides_formed(heard_again))}", flush=True)
    tell(way, answer, {"during": during, "healed": healed, "back": back}, counts)


def hearing(cluster: Cluster) -> "dict[str, list[str]]":
    """The nodes that each node hears, including itself."""
    found = {}
    for name, node in zip(SHORT, NODES):
        nodes = cluster.nodes[node].ask("nodes") or []
        found[name] = sorted([name, *(other.split("@")[0] for other in nodes)])
    return found


def sides_formed(heard: "dict[str, list[str]]") -> "tuple[str, ...]":
    """The sides of a split, as nodes hear each other. Each node of a side must hear all others of it."""
    if any(heard[other] != nodes for nodes in heard.values() for other in nodes):
        raise SystemExit(f"nodes hear each other in part: {heard}")
    return tuple(dict.fromkeys(" ".join(nodes) for nodes in heard.values()))


def tell(way: Way, answer: Any, seen: "dict[str, Places]", counts: "Counter[str]") -> None:
    """Counts agreement, and prints each difference. After the restart one copy is expected if one was left."""
    for each in answer["healed"]:
        app, left = each["application"], seen["healed"][each["application"]]
        wanted = {"during": sorted(each["copies"]), "healed": sorted(each["copies"]), "back": [each["back"]] if each["back"] else []}
        for moment, nodes in wanted.items():
            found = sorted(seen[moment][app])
            counts[f"{moment} {'agree' if found == nodes else 'differ'}, {way.name}"] += 1
            if found != nodes:
                print(f"  {app} {moment}: {short(nodes)}, and OTP has {short(found)}, behind {short(left)}", flush=True)


def short(nodes: "list[str]") -> str:
    """Some nodes without their host."""
    return " ".join(node.split("@")[0] for node in nodes) or "nowhere"


def main() -> int:
    """Tries all splits, and counts agreement."""
    parser = argparse.ArgumentParser(description="Compares what-if --split with real nodes.")
    parser.add_argument("--only", nargs="*", default=[], help="the scenarios that are tried")
    words = parser.parse_args()
    if not is_installed():
        print("erl, erlc and epmd aren't in PATH: nothing is compared")
        return 2
    print(release_of_otp(), flush=True)
    counts: "Counter[str]" = Counter()
    for scenario in SCENARIOS:
        for sides in scenario.splits if not words.only or scenario.name in words.only else ():
            for way in WAYS:
                run_split(scenario, sides, way, counts)
    for kind, count in sorted(counts.items()):
        print(f"{count} {kind}")
    return 0


if __name__ == "__main__":
    sys.exit(main())
