#!/usr/bin/env python3
"""Compares `gather`, `what-if`, `rolling` and warnings with three or four real nodes of Erlang/OTP on the loopback interface.

python3 distac_view/tests/real_erlang.py [--only NAME ..] [--groups NAME ..] [--runs N] [--seconds N] [--most N]

The last lines are a table: how many observations of each group agree, were announced by a note, or differ, and how many
comparisons had no answer in their time. The status is 1 if any differ, and else 2 if one had no answer.

It requires `erl`, `erlc` and `epmd` in PATH, as in Debian's package erlang-base, and runs the program that the
environment variable DISTAC names, or else the models. It isn't part of the tests, because it takes minutes and depends
on the release of OTP. Each case has its own nodes, which are started, killed and started again.
"""

from __future__ import annotations

import argparse
import json
import signal
import sys
import tempfile
import time
from collections import Counter
from dataclasses import dataclass
from functools import partial
from pathlib import Path
from typing import Any, Callable, Dict, Iterable, Tuple

sys.dont_write_bytecode = True
sys.path.insert(0, str(Path(__file__).resolve().parent))

from erlang_nodes import Cluster, is_installed, release_of_otp
import real_splits
from real_events import WALKS, compare_split, take
from real_shared import DIFFER, KINDS, LATE_SECONDS, NO_ANSWER, NODES, SINGLE, Score, bare, boot, seen, wait_for, whole
from support import run_view
from arguments import at_least
from distac_view.reading.configuration import configuration_of
from distac_view.reading.equal_times import pairs_among

NEVER = 3_600_000
# The time after which a node won't boot any more, on a very busy machine.
MOST_SECONDS = 60.0
# The time until a node starts its applications, on a busy machine.
BOOT_SECONDS = 1.5
# The time that a comparison may take. Most of them take half a minute, and several minutes on a very busy machine.
COMPARISON_SECONDS = 600


@dataclass(frozen=True)
class Scenario:
    """Applications with their times and lists, the duration of their starts, where they are forbidden, and the nodes
    that go down."""

    name: str
    apps: tuple[tuple[str, str, str], ...]
    start_takes: int = 0
    forbidden: tuple[str, ...] = ()
    cases: tuple[tuple[str, ...], ...] = SINGLE

    @property
    def names(self) -> list[str]:
        return [app for app, _, _ in self.apps]

    def distributed(self) -> str:
        entries = ["{%s,%s,%s}" % (app, milliseconds, whole(nodes)) for app, milliseconds, nodes in self.apps]
        return "[%s]" % ",\n      ".join(entries)


LIST, TUPLE, OTHER_WAY = "[cp1,cp2,cp3]", "[cp1,{cp2,cp3}]", "[cp1,cp3,cp2]"
FIRST_DOWN = (NODES[:1],)
SCENARIOS = (
    Scenario("ladder", (("a1", "400", LIST), ("a2", "700", "[cp2,cp3,cp1]"), ("a3", "1000", "[cp3,cp1,cp2]")), cases=(*SINGLE, NODES[:2], NODES[1:])),
    Scenario("short lists", (("a1", "0", "[cp1,cp2]"), ("a2", "300", "[cp2]"), ("a3", "600", "[cp3,cp1]"))),
    Scenario("tuples apart", (("a1", "400", TUPLE), ("a2", "900", TUPLE), ("a3", "1400", TUPLE)), cases=FIRST_DOWN),
    Scenario("tuple first", (("a1", "400", "[{cp1,cp2},cp3]"), ("a2", "900", "[{cp2,cp3},cp1]")), cases=SINGLE),
    Scenario("forbidden", (("a1", "300", LIST), ("a2", "500", "[cp2,cp1]")), forbidden=("a2",)),
    Scenario("infinity", (("a1", "infinity", LIST), ("a2", "500", LIST)), cases=FIRST_DOWN),
    Scenario("equal times, tuples", (("a1", "400", TUPLE), ("a2", "400", TUPLE)), cases=FIRST_DOWN),
    Scenario("equal times, three tuples", (("a1", "5000", TUPLE), ("a2", "5000", TUPLE), ("a3", "5000", TUPLE)), cases=FIRST_DOWN),
    Scenario("equal times, a tuple and a list", (("a1", "400", TUPLE), ("a2", "400", LIST)), cases=FIRST_DOWN),
    Scenario("equal times, a list and a tuple", (("a1", "400", LIST), ("a2", "400", TUPLE)), cases=FIRST_DOWN),
    Scenario("equal times, lists", (("a1", "400", LIST), ("a2", "400", LIST), ("a3", "400", LIST)), cases=FIRST_DOWN),
    Scenario("equal times, lists of other orders", (("a1", "400", LIST), ("a2", "400", OTHER_WAY)), cases=FIRST_DOWN),
    Scenario("equal times, one node of a tuple left", (("a1", "400", "[{cp1,cp2},cp3]"), ("a2", "400", "[cp1,cp2,cp3]")), cases=FIRST_DOWN),
    Scenario("equal times, a tuple behind a list", (("a1", "400", "[cp1,cp2,{cp3}]"), ("a2", "400", "[cp1,cp2]")), cases=FIRST_DOWN),
    Scenario("equal times, and a later list", (("a1", "400", TUPLE), ("a2", "400", TUPLE), ("a3", "2000", LIST)), cases=FIRST_DOWN),
    Scenario("equal times, no node in both lists", (("a1", "400", "[cp1,cp2]"), ("a2", "400", "[cp1,cp3]")), cases=FIRST_DOWN),
    Scenario("20 ms apart", (("a1", "400", TUPLE), ("a2", "420", TUPLE)), cases=FIRST_DOWN),
    Scenario("100 ms apart, starts of 1000 ms", (("a1", "400", TUPLE), ("a2", "500", TUPLE)), start_takes=1000, cases=FIRST_DOWN),
)
NODE_FILE = """\
%% {node}, as its own node has it
[
 {{kernel,
  [{{distributed,
     {distributed}}},
   {{permissions, [{permissions}]}},
   {{sync_nodes_optional, [{others}]}},
   {{sync_nodes_timeout, 15_000}},
   {{logger_level, critical}},
   {{logger, [{{handler, default, logger_std_h, #{{level => critical}}}}]}}]}},
 {{stage, [{{watermark, 0.6}}, {{word, <<"guest">>}}, {{separator, $,}}]}}
].
"""


# the fields of an application in `what-if --json`
Fate = Dict[str, Any]


@dataclass(frozen=True)
class Case:
    """A scenario in which some nodes go down, with its files in a folder, and the answer of `what-if`."""

    scenario: Scenario
    down: tuple[str, ...]
    folder: Path
    fates: list[Fate]
    may_hang: bool


def write_files(scenario: Scenario, folder: Path) -> list[str]:
    """A configuration file for each node, each with the other nodes in its sync list. Returns the words of `gather`."""
    permissions = ",".join("{%s,false}" % app for app in scenario.forbidden)
    words = []
    for node in NODES:
        others = ",".join(f"'{other}'" for other in NODES if other != node)
        text = NODE_FILE.format(node=node, distributed=scenario.distributed(), permissions=permissions, others=others)
        (folder / f"{node}.config").write_text(text)
        words.append(f"{node}={folder / node}.config")
    return words


def prepared(scenario: Scenario, down: tuple[str, ...], folder: Path, now: dict[str, str]) -> Case:
    """A case with its files, its one configuration by `gather`, and the answer of `what-if`."""
    config = folder / "cluster.config"
    said = run_view("gather", *write_files(scenario, folder), "-o", str(config))
    if said.status:
        raise SystemExit(f"gather: {said.output}{said.errors}")
    fates = fates_by_what_if(config, down, now)
    configuration = configuration_of(next(line for line in config.read_text().splitlines() if line.startswith("[")))
    lost = [each for each, fate in zip(configuration.applications, fates) if fate["how"] == "failover"]
    left = [node for node in configuration.nodes if bare(node) not in down]
    return Case(scenario, down, folder, fates, bool(pairs_among(lost, left)))


def fates_by_what_if(config: Path, down: tuple[str, ...], now: dict[str, str]) -> list[Fate]:
    """The answer of `what-if` for each application, in file order, from the present places if there are any."""
    places = ["--now", *(f"{app}={node}" for app, node in now.items())] if now else []
    said = run_view("what-if", str(config), "--json", "--down", *down, *places)
    if said.status == 2 or not said.output.startswith("{"):
        raise SystemExit(f"what-if: {said.output}{said.errors}")
    fates: list[Fate] = json.loads(said.output)["cases"][0]["applications"]
    return fates


def expected(fates: list[Fate], moment: str) -> dict[str, str | None]:
    """The place of each application. One whose time is weeks isn't waited for."""
    is_never = {fate["application"]: moment == "then" and (fate["milliseconds"] or 0) >= NEVER for fate in fates}
    return {fate["application"]: None if is_never[fate["application"]] else bare(fate[moment]) for fate in fates}


def run_case(scenario: Scenario, down: tuple[str, ...], score: Score) -> None:
    apps = {app: scenario.start_takes for app in scenario.names}
    with tempfile.TemporaryDirectory(prefix="distac-nodes-") as room, Cluster(Path(room), apps) as cluster:
        case = prepared(scenario, down, Path(room), {})
        boot(cluster, NODES, scenario.names)
        now, _ = wait_for(cluster, expected(case.fates, "now"), LATE_SECONDS)
        if now != expected(case.fates, "now"):
            case = prepared(scenario, down, Path(room), {app: node for app, node in now.items() if node})
        killed = time.monotonic()
        for node in down:
            cluster.nodes[node].kill()
        longest = max(fate["milliseconds"] or 0 for fate in case.fates if (fate["milliseconds"] or 0) < NEVER)
        then, when = wait_for(cluster, expected(case.fates, "then"), longest / 1000 + scenario.start_takes / 1000 + LATE_SECONDS)
        boot(cluster, down, scenario.names)
        back, _ = wait_for(cluster, expected(case.fates, "back"), LATE_SECONDS)
    outages = {app: moment - killed for app, moment in when.items()}
    tell_case(case, {"now": now, "then": then, "back": back}, outages, score)


def head_of(scenario: Scenario, down: tuple[str, ...]) -> str:
    """The name of a case."""
    return f"{scenario.name}, without {shortened(down, ' and ')}"


def shortened(nodes: Iterable[str], between: str) -> str:
    """The names of some nodes without their host."""
    return between.join(node.split("@")[0] for node in nodes)


def tell_case(case: Case, observed: dict[str, dict[str, str | None]], outages: dict[str, float], score: Score) -> None:
    """Counts agreement, and prints a line."""
    head = head_of(case.scenario, case.down)
    kinds: Counter[str] = Counter()
    for app, moment in ((app, moment) for app in case.scenario.names for moment in observed):
        wanted, found = expected(case.fates, moment)[app], observed[moment][app]
        kind = kind_of(case, observed, wanted, found, moment)
        kinds[kind] += 1
        score.add(kind, f"{head}: {app} {moment} {wanted}, and OTP has {found}: {kind}" if kind != "agree" else "")
    moved = (fate for fate in case.fates if fate["milliseconds"] is not None and fate["application"] in outages)
    moves = [(fate["application"], fate["milliseconds"]) for fate in moved]
    returns = [f"{app} {outages[app] * 1000:.0f} ms ({milliseconds})" for app, milliseconds in moves]
    warned = "; warned of a hang" if case.may_hang else ""
    print(f"{head}: {', '.join(f'{count} {kind}' for kind, count in kinds.items())}{warned}; back after {', '.join(returns) or 'nothing'}", flush=True)


def kind_of(case: Case, observed: dict[str, dict[str, str | None]], wanted: str | None, found: str | None, moment: str) -> str:
    """The kind of one observation: agreement, controllers that hang as predicted, or applications started elsewhere."""
    if wanted == found:
        return "agree"
    is_lost = any(place and not observed["then"][app] for app, place in expected(case.fates, "then").items())
    if case.may_hang and moment != "now":
        return "hang as warned" if is_lost else "differ by the order at equal times"
    if case.scenario.start_takes and is_lost:
        return "hang by starts that take longer than the times are apart"
    return "started elsewhere" if observed["now"] != expected(case.fates, "now") else "differ"


QUICK = Scenario("restarts of 2 s", (("a1", "5000", TUPLE), ("a2", "6000", TUPLE), ("a3", "7000", "[cp2,cp3,cp1]")))
HALF = Scenario("restarts of 4 s", (("a1", "1000", TUPLE), ("a2", "9000", TUPLE), ("a3", "12000", "[cp2,cp3,cp1]")))
SHARED = Scenario(
    "restarts of 2 s, tuples",
    (("a1", "5000", "[{cp1,cp2},cp3]"), ("a2", "7000", "[{cp1,cp2},cp3]"), ("a3", "6000", "[{cp2,cp3},cp1]"), ("a4", "8000", "[{cp1,cp2,cp3}]")),
)
ROLLED = (
    ("ladder", (0, 1, 2), None),
    ("ladder", (2, 0, 1), None),
    ("short lists", (1, 2, 0), None),
    (QUICK.name, (0, 1, 2), 2_000),
    (SHARED.name, (2, 1, 0), 2_000),
    (HALF.name, (1, 0, 2), 4_000),
)
# the fields of a step, or of a move, in `rolling --json`
Said = Dict[str, Any]


def roll(scenario: Scenario, order: list[str], takes: int | None, score: Score) -> None:
    """One rolling restart with its own nodes: each application is at its place in each step of `rolling`. A node is back
    after its time, or once all waits are over."""
    head = f"{scenario.name}, rolling {shortened(order, ' > ')}"
    with tempfile.TemporaryDirectory(prefix="distac-nodes-") as room, Cluster(Path(room), dict.fromkeys(scenario.names, 0)) as cluster:
        config = prepared(scenario, NODES[:1], Path(room), {}).folder / "cluster.config"
        boot(cluster, NODES, scenario.names)
        time.sleep(LATE_SECONDS)
        places = seen(cluster, scenario.names)
        now = [f"{app}={node}" for app, node in places.items() if node]
        said = run_view("rolling", str(config), "--json", "--order", *order, "--now", *now, *(["--takes", str(takes)] if takes else []))
        steps: list[Said] = json.loads(said.output)["steps"]
        for step, node in zip(steps, order):
            ended = time.monotonic()
            cluster.nodes[node].kill()
            places = {app: None if place == node else place for app, place in places.items()}
            places = moved(places, step["down"])
            tell_step(f"{head}: without {node}", wait_for(cluster, places, takes / 1000 if takes else LATE_SECONDS + 2)[0], places, score)
            time.sleep(max(0.0, ended + (takes or 0) / 1000 - BOOT_SECONDS - time.monotonic()))
            boot(cluster, (node,), scenario.names)
            places = moved({**places, **dict.fromkeys(step["waiting"], node)}, step["back"])
            tell_step(f"{head}: {node} back", wait_for(cluster, places, LATE_SECONDS + 2)[0], places, score)
    score.add("agree" if len(steps) == len(order) else "differ", "" if len(steps) == len(order) else f"{head}: {said.output}{said.errors}")
    print(f"{head}: {json.loads(said.output)['moves']} moves by rolling", flush=True)


def moved(places: dict[str, str | None], moves: list[Said]) -> dict[str, str | None]:
    return {**places, **{move["application"]: move["to"] for move in moves}}


def tell_step(head: str, found: dict[str, str | None], places: dict[str, str | None], score: Score) -> None:
    """Counts agreement on the places in a step."""
    for app, place in places.items():
        score.add("agree" if found[app] == place else "differ", "" if found[app] == place else f"{head}: {app} {place}, and OTP has {found[app]}")


def compare_answers(score: Score) -> None:
    """The remote shell's answers of running nodes are equivalent to their files for `gather`."""
    scenario = SCENARIOS[0]
    with tempfile.TemporaryDirectory(prefix="distac-nodes-") as room, Cluster(Path(room), {}) as cluster:
        files = write_files(scenario, Path(room))
        line = run_view("gather", "--print-command").output.strip()
        words = []
        for node in NODES:
            cluster.boot(node, node)
        for node in NODES:
            cluster.nodes[node].order(f"eval {line}")
            cluster.nodes[node].answer("evaluated", 30.0)
            (Path(room) / f"{node}.answer").write_text("".join(cluster.nodes[node].noise))
            words.append(f"{node}={room}/{node}.answer")
        from_files, from_nodes = run_view("gather", *files), run_view("gather", *words)
    is_equal = from_files.status == from_nodes.status == 0 and from_files.output.splitlines()[-1] == from_nodes.output.splitlines()[-1]
    score.add("agree" if is_equal else "differ", "" if is_equal else f"gather by answers: {from_nodes.output}{from_nodes.errors}")
    print(f"answers of the remote shell say what the files say: {'yes' if is_equal else 'NO'}", flush=True)


BOOTS = (
    ("plain", "[{kernel,[{distributed,[{a1,[DISTRIBUTED]}]}]}].", True),
    ("a sync time of 0", "[{kernel,[{distributed,[{a1,[DISTRIBUTED]}]},{sync_nodes_timeout,0}]}].", False),
    ("a section twice", "[{sasl,[]},{kernel,[{distributed,[{a1,[DISTRIBUTED]}]}]},{sasl,[]}].", False),
    ("a parameter twice", "[{kernel,[{net_ticktime,20},{distributed,[{a1,[DISTRIBUTED]}]},{net_ticktime,30}]}].", False),
    ("infinity", "[{kernel,[{distributed,[{a1,infinity,[DISTRIBUTED]}]}]}].", True),
    ("a bare word among parameters", "[{kernel,[{distributed,[{a1,[DISTRIBUTED]}]},net_ticktime]}].", False),
)


def compare_boot(what: str, text: str, boots: bool, score: Score) -> None:
    """A node boots with a file exactly if `gather --strict` has no objection to it other than infinity."""
    listed = ",".join(f"'{node}'" for node in NODES)
    with tempfile.TemporaryDirectory(prefix="distac-nodes-") as room, Cluster(Path(room), {}) as cluster:
        path = Path(room) / "node.config"
        path.write_text(text.replace("DISTRIBUTED", listed))
        said = run_view("gather", *(f"{node}={path}" for node in NODES), "--strict")
        is_fine = said.status == 0 or "InfiniteTime" in said.errors
        has_booted = cluster.boot(NODES[0], "node").ask("nodes", MOST_SECONDS) is not None
    is_equal = is_fine == has_booted == boots
    score.add("agree" if is_equal else "differ", "" if is_equal else f"boot with {what}: gather {is_fine}, OTP {has_booted}")
    print(f"boot with {what}: gather says {is_fine}, OTP {has_booted}", flush=True)


MIXED = (
    ("equal files", "{a1,500,[cp1,cp2]}", "{a1,500,[cp1,cp2]}"),
    ("other times", "{a1,500,[cp1,cp2]}", "{a1,900,[cp1,cp2]}"),
    ("another order in a tuple", "{a1,500,[{cp1,cp2}]}", "{a1,500,[{cp2,cp1}]}"),
    ("other lists", "{a1,500,[cp1,cp2]}", "{a1,500,[cp2,cp1]}"),
    ("an application added", "{a1,500,[cp1,cp2]}", "{a1,500,[cp1,cp2]},{a2,500,[cp1,cp2]}"),
    ("an application removed", "{a1,500,[cp1,cp2]},{a2,500,[cp1,cp2]}", "{a1,500,[cp1,cp2]}"),
)
MIXED_FILE = "[{kernel,[{distributed,[%s]},{sync_nodes_optional,[cp1,cp2]},{sync_nodes_timeout,6000},{logger_level,critical}]}].\n"


def compare_mixed(what: str, entries: tuple[str, str], score: Score) -> None:
    """Of two nodes with different files one ends if `what-if --then` reports different lists, and applications of one
    file run twice if it reports that."""
    with tempfile.TemporaryDirectory(prefix="distac-nodes-") as room, Cluster(Path(room), {"a1": 0, "a2": 0}) as cluster:
        paths = [Path(room) / f"{node}.config" for node in NODES[:2]]
        for path, entry in zip(paths, entries):
            path.write_text(whole(MIXED_FILE % entry))
        notes = json.loads(run_view("what-if", str(paths[0]), "--then", str(paths[1]), "--json").output)["notes"]
        ids = {note["id"] for note in notes}
        nodes = [cluster.boot(node, node) for node in NODES[:2]]
        for node in nodes:
            node.ask("nodes", MOST_SECONDS)
        for node in nodes:
            node.order("start a1 a2" if "a2" in "".join(entries) else "start a1")
        for node in nodes:
            node.answer("started", LATE_SECONDS)
        time.sleep(LATE_SECONDS)
        has_ended = len(cluster.up()) < 2
        runs_twice = len(cluster.where(["a2"])["a2"]) > 1
    is_twice = bool({"AddedMayRunTwice", "GoneRunsEverywhere"} & ids)
    is_equal = (has_ended, runs_twice) == ("NoRollingChange" in ids, is_twice)
    row = f"{what}: what-if --then has {', '.join(ids) or 'no note'}, and in OTP a node ends: {has_ended}, a2 runs twice: {runs_twice}"
    score.add("agree" if is_equal else "differ", "" if is_equal else row)
    print(row, flush=True)


# A comparison's name, and itself: it counts its observations.
Comparison = Tuple[str, Callable[[Score], None]]


def groups_of(only: list[str]) -> dict[str, list[Comparison]]:
    """The comparisons of each group: if scenarios are named, only the losses of these."""
    chosen = [each for each in SCENARIOS if not only or any(each.name.startswith(name) for name in only)]
    losses: dict[str, list[Comparison]] = {"losses": [(head_of(each, down), partial(run_case, each, down)) for each in chosen for down in each.cases]}
    if only:
        return losses
    named = {each.name: each for each in (*SCENARIOS, QUICK, SHARED, HALF)}
    return {
        "answers": [("answers of the remote shell", compare_answers)],
        "boots": [(f"boot with {each[0]}", partial(compare_boot, *each)) for each in BOOTS],
        "changes of files": [(what, partial(compare_mixed, what, (old, new))) for what, old, new in MIXED],
        "rolling restarts": [(f"{name}, rolling", partial(roll, named[name], [NODES[number] for number in order], takes)) for name, order, takes in ROLLED],
        **{name: [(walk.name, partial(take, walk)) for walk in walks] for name, walks in WALKS.items()},
        "splits": [(way.name, partial(compare_split, way)) for way in real_splits.WAYS],
        **losses,
    }


def words_of(arguments: list[str]) -> argparse.Namespace:
    """The command line's arguments."""
    parser = argparse.ArgumentParser(description=(__doc__ or "").split("\n")[0])
    parser.add_argument("--only", metavar="NAME", nargs="+", default=[], help="the scenarios of losses whose name begins so")
    names = list(groups_of([]))
    parser.add_argument("--groups", metavar="NAME", nargs="+", choices=names, default=names, help=f"of {', '.join(names)}")
    parser.add_argument("--runs", metavar="N", type=int, default=1, help="how often each comparison is made, once if absent")
    parser.add_argument("--seconds", metavar="N", type=int, default=3_600, help="none begins later, 3600 if absent")
    about = f"a comparison that takes longer has no answer, {COMPARISON_SECONDS} if absent"
    parser.add_argument("--most", metavar="N", type=at_least(1), default=COMPARISON_SECONDS, help=about)
    words = parser.parse_args(arguments)
    unknown = [name for name in words.only if not any(each.name.startswith(name) for each in SCENARIOS)]
    if unknown:
        parser.error(f"no scenario begins with {', '.join(unknown)}")
    return words


def compare_all(words: argparse.Namespace, score: Score) -> None:
    """Makes all comparisons, until the time is over."""
    end = time.monotonic() + words.seconds
    for name, comparisons in words.runs * list(groups_of(words.only).items()):
        score.begin(name)
        for title, compare in comparisons if name in words.groups else ():
            if time.monotonic() > end:
                print("no time is left for the other comparisons")
                return
            score.make(title, compare, words.most)


def main(arguments: list[str]) -> int:
    """Makes all comparisons, and counts."""
    words = words_of(arguments)
    if not is_installed():
        print("real_erlang.py wants erl, erlc and epmd in PATH: install Erlang (Debian: apt-get install erlang-base)")
        return 2
    signal.signal(signal.SIGTERM, lambda *_: sys.exit(128 + signal.SIGTERM))
    score, release = Score(), release_of_otp()
    print(release, flush=True)
    compare_all(words, score)
    print("\n".join(score.differing))
    print(", ".join(f"{count} {kind}" for kind, count in sorted(score.counts.items())))
    head = f"| {release}, {time.strftime('%Y-%m-%d')} | {' | '.join(map(str.capitalize, KINDS))} |"
    print("\n".join([head, "|---" * (len(KINDS) + 1) + "|", *score.table]))
    return 1 if score.counts[DIFFER] else 2 if score.counts[NO_ANSWER] else 0


if __name__ == "__main__":
    sys.exit(main(sys.argv[1:]))
