"""Random clusters: one configuration, and equivalent files of all its nodes in other spellings."""

from __future__ import annotations

from dataclasses import dataclass
from pathlib import Path
from random import Random

from random_terms import random_term

NAMES = ("n1@h", "n2@h", "'n-3@10.0.0.3'", "'N4@h'")


@dataclass
class RandomCluster:
    """A configuration for all nodes: each application's time and groups, forbidden nodes, and the nodes that a starting
    node waits for."""

    random: Random
    nodes: list[str]
    apps: dict[str, tuple[int, list[list[str]]]]
    barred: list[str]
    sync: dict[str, list[str]]
    sync_time: int | None

    @property
    def text(self) -> str:
        """The one configuration, as a person writes it."""
        parts = ["{distributed,[%s]}" % ",".join(entry(name, str(time), groups) for name, (time, groups) in self.apps.items())]
        parts.append("{permissions,[%s]}" % ",".join("{%s,false}" % name for name in self.barred))
        parts += ["{%s,[%s]}" % (name, ",".join(nodes)) for name, nodes in self.sync.items()]
        parts += ["{sync_nodes_timeout,%d}" % self.sync_time] if self.sync_time else []
        return "[{kernel,[%s]}]." % ",".join(parts)

    def files_of(self, node: str, folder: Path) -> "list[Path]":
        """The files of a node: its parameters in other spellings, among those of others, in one file or several."""
        parameters = self.parameters_of(node)
        self.random.shuffle(parameters)
        parts = [parameters]
        if self.random.random() < 0.4:
            place = self.random.randrange(len(parameters) + 1)
            wrong = ["{distributed,[{other,[n1@h]}]}", "{permissions,x}"]
            parts = [[*parameters[:place], *(each for each in wrong if each[:6] not in str(parameters[:place]))], parameters[place:]]
        return [self.file_of(node, number, part, folder) for number, part in enumerate(parts)]

    def file_of(self, node: str, number: int, parameters: "list[str]", folder: Path) -> Path:
        """A file with some parameters, among those of another application."""
        path = folder / "{}-{}.config".format(node.strip("'"), number)
        sections = ["{noise,[{p,%s}]}" % random_term(self.random, 3), "{kernel,[%s]}" % ",\n   ".join(parameters)]
        self.random.shuffle(sections)
        path.write_text("[%s]." % ",\n ".join(sections), "utf-8")
        return path

    def parameters_of(self, node: str) -> "list[str]":
        entries = [entry(name, spelled(self.random, time), turned(self.random, groups)) for name, (time, groups) in self.apps.items()]
        parts = ["{distributed,[%s]}" % ",".join(entries), "{logger_level,%s}" % random_term(self.random, 1)]
        parts.append("{permissions,[%s]}" % ",".join("{%s,%s}" % (name, str(name not in self.barred).lower()) for name in self.apps))
        for name, nodes in self.sync.items():
            listed = [other for other in nodes if other != node or self.random.random() < 0.3]
            self.random.shuffle(listed)
            parts += ["{%s,[%s]}" % (name, ",".join(listed))] if listed or self.random.random() < 0.5 else []
        parts += ["{sync_nodes_timeout,%s}" % spelled(self.random, self.sync_time)] if self.sync_time else []
        return parts


def random_cluster(random: Random) -> RandomCluster:
    """A cluster of two to four nodes."""
    nodes = list(NAMES[: random.randint(2, 4)])
    apps = {"app%d" % number: (random.choice((0, 5, 300, 5000)), random_groups(random, nodes)) for number in range(random.randint(1, 4))}
    for node in set(nodes).difference(other for _, groups in apps.values() for group in groups for other in group):
        apps["only%d" % nodes.index(node)] = (0, [[node]])
    waited = random.sample(nodes, random.randint(0, len(nodes)))
    place = random.randint(0, len(waited))
    sync = {"sync_nodes_mandatory": waited[:place], "sync_nodes_optional": waited[place:]}
    barred = [name for name in apps if random.random() < 0.2]
    return RandomCluster(random, nodes, apps, barred, sync, random.choice((None, 1, 7000)) if not waited else random.choice((1, 7000)))


def random_groups(random: Random, nodes: list[str]) -> list[list[str]]:
    chosen, groups = random.sample(nodes, random.randint(1, len(nodes))), []
    while chosen:
        count = random.choice((1, 1, 2, 3))
        groups.append(chosen[:count])
        chosen = chosen[count:]
    return groups


def entry(name: str, time: str, groups: list[list[str]]) -> str:
    items = [group[0] if len(group) == 1 else "{%s}" % ",".join(group) for group in groups]
    return "{%s,[%s]}" % (name, ",".join(items)) if time == "0" else "{%s,%s,[%s]}" % (name, time, ",".join(items))


def turned(random: Random, groups: list[list[str]]) -> list[list[str]]:
    """Equal groups, each with its nodes in another order."""
    return [random.sample(group, len(group)) for group in groups]


def spelled(random: Random, number: int) -> str:
    ways = (str(number), f"16#{number:x}", f"+{number}", f"2#{number:b}", f"({number})", f"{number:_}")
    return random.choice(ways) if number else "0"
