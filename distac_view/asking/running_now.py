"""The present places of applications: read from a file or from the command line, and produced in a script.

A line of the file is a node that is up and the distributed applications that run there. Unnamed nodes are off. The file
can also contain nodes' answers to the line of `gather --print-command now`.
"""

from __future__ import annotations

import os
from dataclasses import dataclass, field

from distac_view.asking.cluster import Cluster, take_round
from distac_view.asking.openings import Side, new_story
from distac_view.asking.program import Distac
from distac_view.common.misspellings import near_to
from distac_view.common.names import bare_name, bare_names, node_meant, nodes_meant, spelled, unknown_node
from distac_view.common.problems import Problem
from distac_view.common.texts import cut, listed, shown, text_of
from distac_view.reading.configuration import Application, Checked, Configuration
from distac_view.reading.forbidden import forbidden_in
from distac_view.reading.script_file import MOST_INPUT, read_bytes

# The text that erl_call and shells print after a node's answer.
ANSWERED = ("{ok, ok}", "{ok,ok}", "ok", ":ok")


@dataclass(frozen=True)
class Placed:
    """The place of each running application, the nodes that are up, and the applications that are started everywhere
    but run nowhere yet."""

    places: dict[str, str]
    up: list[str]
    fresh: list[str] = field(default_factory=list)


def placed_by(words: list[str], configuration: Configuration) -> Placed:
    """The value of `--now`: a file name, or APP=NODE for each running application. In that form all nodes are up."""
    if names_a_file(words):
        return placed_in(words[0], text_of(read_bytes(words[0], MOST_INPUT)), configuration)
    places: dict[str, str] = {}
    for word in words:
        app, equals, node = parted(word)
        if not equals:
            raise Problem(f"--now takes one file, or APP=NODE for each application: {shown(word)} is neither")
        put(places, "--now", app, node, configuration)
    return Placed(places, configuration.nodes)


def names_a_file(words: list[str]) -> bool:
    return len(words) == 1 and ("=" not in words[0] or os.path.exists(words[0]))


def parted(word: str) -> tuple[str, str, str]:
    """A word split at its first equals sign outside quotes."""
    start = word.find("'", 1) if word.startswith("'") else 0
    place = word.find("=", max(start, 0))
    return (word, "", "") if place < 0 else (word[:place], "=", word[place + 1 :])


def placed_in(path: str, text: str, configuration: Configuration) -> Placed:
    """The contents of a file."""
    places: dict[str, str] = {}
    up = set()
    for number, line in enumerate(text.split("\n"), 1):
        words = line.split()
        if words and not words[0].startswith(("%", "#")) and line.strip() not in ANSWERED:
            where = f"{path}:{number}"
            up.add(named("node", words[0], configuration.nodes, where))
            for app in words[1:]:
                put(places, where, app, words[0], configuration)
    if not up:
        raise Problem(f"{path} names no node: each of its lines is a node and what runs there")
    return Placed(places, [node for node in configuration.nodes if node in up])


def put(places: dict[str, str], where: str, app_word: str, node_word: str, configuration: Configuration) -> None:
    """Notes the place of an application."""
    app = named("application", app_word, configuration.names, where)
    node = named("node", node_word, configuration.nodes, where)
    if places.setdefault(app, node) != node:
        raise Problem(f"{where}: {shown(bare_name(app))} can't run at {shown(bare_name(places[app]))} and at {shown(bare_name(node))}: name one of them")
    if node not in application_of(app, configuration).nodes:
        raise Problem(f"{where}: {shown(bare_name(node))} isn't in the list of {shown(bare_name(app))}: it can't run there")


def application_of(name: str, configuration: Configuration) -> Application:
    return next(each for each in configuration.applications if each.name == name)


def named(what: str, word: str, names: list[str], where: str) -> str:
    """A node or an application as the configuration spells it. For a node the part before or after @ suffices."""
    name = spelled(word)
    found = node_meant(word, names) if what == "node" else name
    if found in names:
        return found
    if what == "node" and nodes_meant(word, names):
        raise Problem(f"{where}: the configuration has {cut(shown(unknown_node(word, names)), 260)}")
    meant = near_to(name, names)
    cure = f"is {shown(bare_name(meant))} meant?" if meant else f"it has {cut(shown(listed(bare_names(names))), 200)}"
    raise Problem(f"{where}: the configuration has no {what} {cut(shown(bare_name(name)), 60)}: {cure}")


def opened_now(distac: Distac, checked: Checked, placed: Placed) -> Side:
    """A cluster with applications at their places. Those that would move at the next ticks haven't moved yet."""
    configuration = checked.configuration
    forbidden = forbidden_in(checked)
    idle = [each for each in configuration.applications if each.name not in placed.places and each.name not in placed.fresh]
    unused = [each.name for each in idle if may_run(each, placed.up, forbidden)]
    cluster = Cluster(new_story(checked), [], unused=unused, forbidden=forbidden)
    open_gates(distac, cluster, placed.up)
    for app, node in placed.places.items():
        if not application_of(app, configuration).is_permitted or (node, app) in cluster.forbidden:
            cluster.story.command(f"permit {cluster.hub} {app} {node} true")
    if placed.places:
        cluster.start_at(placed.places.items())
        take_round(distac, cluster)
    start_elsewhere(cluster, placed)
    page = cluster.page(distac)
    for app, node in placed.places.items():
        if page.held[app].runs_at != node:
            raise Problem(f"distac doesn't place {shown(bare_name(app))} at {shown(bare_name(node))}: it says {page.held[app].verdict}")
    return Side(cluster, page, configuration.nodes, unsaid=placed.fresh)


def may_run(application: Application, up: list[str], forbidden: list[tuple[str, str]]) -> bool:
    """Whether a node that is up could run an application. If none could, it was lost with its nodes."""
    return any(node in up and (node, application.name) not in forbidden for node in application.nodes)


def open_gates(distac: Distac, cluster: Cluster, up: list[str]) -> None:
    """All nodes come up and pass their start gates, and then those that are off now go down."""
    nodes = cluster.configuration.nodes
    cluster.boot(nodes, not_started=nodes)
    take_round(distac, cluster)
    off = [node for node in nodes if node not in up]
    if off:
        cluster.tell_all()
        cluster.crash(off)


def start_elsewhere(cluster: Cluster, placed: Placed) -> None:
    """Running applications are also started at all other nodes of their lists, and no node ticks."""
    apps = [*placed.places, *placed.fresh]
    listed_ones = [(app, node) for app in apps for node in application_of(app, cluster.configuration).nodes]
    others = [(app, node) for app, node in listed_ones if node in cluster.nodes and node != placed.places.get(app)]
    if others:
        cluster.start_at(others)
