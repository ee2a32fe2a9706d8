"""The placement settings in one node's files: kernel's parameters as values, checked by OTP's rules."""

from __future__ import annotations

import re
from dataclasses import dataclass, field

from distac_view.common.names import name_of
from distac_view.common.texts import cut, shown
from distac_view.reading.erlang_terms import Atom, Other, Term, Way
from distac_view.reading.node_settings import NodeSettings, Setting
from distac_view.reading.templates import FILLED_IN, TEMPLATE

FOREVER = 4_294_967_295
SYNC_LISTS = ("sync_nodes_mandatory", "sync_nodes_optional")
UNSAYABLE = re.compile(r"['\\\x00-\x1f\x7f]")


@dataclass(frozen=True)
class Entry:
    """An entry of `distributed`: the application, its failover time, and its groups of nodes."""

    app: str
    timeout: int
    groups: tuple[tuple[str, ...], ...]

    @property
    def nodes(self) -> list[str]:
        return [node for group in self.groups for node in group]

    @property
    def list_text(self) -> str:
        """Its list as written, with a tuple's names in name order."""
        items = [group[0] if len(group) == 1 else "{%s}" % ",".join(sorted(group)) for group in self.groups]
        return "[%s]" % ",".join(items)

    @property
    def text(self) -> str:
        return "{%s,%d,%s}" % (self.app, self.timeout, self.list_text)


@dataclass
class Placement:
    """The contents of one node's files. A sync time is in milliseconds, infinity, or absent."""

    node: str
    settings: NodeSettings
    entries: list[Entry] = field(default_factory=list)
    permissions: dict[str, bool] = field(default_factory=dict)
    sync: dict[str, list[str]] = field(default_factory=dict)
    sync_time: float | None = None
    tick_time: int | None = None

    def entry_of(self, app: str) -> Entry | None:
        return next((entry for entry in self.entries if entry.app == app), None)

    def waits_for(self) -> list[str]:
        """All nodes of its sync lists."""
        return [node for nodes in self.sync.values() for node in nodes]


def placement_of(settings: NodeSettings) -> Placement:
    """The placement settings in a node's files. The first parameter that OTP would refuse is a fault."""
    placement = Placement(settings.node, settings)
    for name, taken in TAKEN.items():
        setting = settings.kernel.get(name)
        if setting is not None:
            taken(placement, setting)
    for name in SYNC_LISTS:
        setting = settings.kernel.get(name)
        placement.sync[name] = names_of(setting) if setting else []
    return placement


def take_distributed(placement: Placement, setting: Setting) -> None:
    for number, item in enumerate(listed_in(setting, "distributed")):
        entry = entry_of(placement, setting, number, item)
        if placement.entry_of(entry.app) is not None:
            raise setting.fault_in((number, 0), "TwiceApp", f"{shown(entry.app)} stands twice in distributed: take one of them out")
        placement.entries.append(entry)


def entry_of(placement: Placement, setting: Setting, number: int, item: Term) -> Entry:
    if not isinstance(item, tuple) or len(item) not in (2, 3) or not isinstance(item[0], Atom) or not isinstance(item[-1], list):
        raise setting.fault_in((number,), "BadEntry", "this is no entry of distributed, which is {APP,[NODES]} or {APP,MILLISECONDS,[NODES]}")
    app, last = spelled(setting, (number, 0), item[0]), len(item) - 1
    timeout = 0 if last == 1 else time_of(placement, setting, number, app, item[1])
    groups = tuple(group_of(setting, (number, last, place), node) for place, node in enumerate(item[-1]))
    if not groups:
        raise setting.fault_in((number, last), "EmptyList", f"{shown(app)} has no node: name one in its list")
    return Entry(app, timeout, groups)


def time_of(placement: Placement, setting: Setting, number: int, app: str, value: Term) -> int:
    """The failover time of an entry. `distac` expresses OTP's infinity by its greatest number."""
    way, path = (number, 1), setting.origin.file.path
    if value == Atom("infinity"):
        sentence = f"the failover time of {shown(app)} is infinity: OTP never fails it over; {FOREVER} ms (49 days) is written in its place"
        placement.settings.warnings.append(setting.remark_in(way, "InfiniteTime", sentence).told(path))
        return FOREVER
    if value == Other("number") or (isinstance(value, int) and value > FOREVER):
        sentence = f"the failover time of {shown(app)} is above {FOREVER} ms, which is 49 days: write a lesser one"
        raise setting.fault_in(way, "NumberTooLarge", sentence)
    if not isinstance(value, int) or value < 0:
        raise setting.fault_in(way, "BadTime", f"the failover time of {shown(app)} isn't a number of milliseconds from 0 on")
    return int(value)


def group_of(setting: Setting, way: Way, item: Term) -> tuple[str, ...]:
    """A group of a list of nodes, at a way."""
    if isinstance(item, tuple) and item:
        return tuple(spelled(setting, (*way, number), node) for number, node in enumerate(item))
    return (spelled(setting, way, item),)


def names_of(setting: Setting) -> list[str]:
    """The names in a parameter that is a list of atoms."""
    if not isinstance(setting.value, list):
        raise setting.fault_in((), "BadList", "a list of names is wanted here")
    return [spelled(setting, (number,), item) for number, item in enumerate(setting.value)]


def spelled(setting: Setting, way: Way, item: Term) -> str:
    if not isinstance(item, Atom):
        raise setting.fault_in(way, "BadName", "a name is wanted here: an atom, without double quotes around it")
    if TEMPLATE.search(item.name):
        raise setting.fault_in(way, "Template", f"{cut(shown(item.name), 60)} is left of {FILLED_IN}")
    if UNSAYABLE.search(item.name):
        sentence = f"distac reads no name with a quote, a backslash or a control character: {cut(shown(item.name), 60)}"
        raise setting.fault_in(way, "BadName", sentence)
    return name_of(f"'{item.name}'")


def take_permissions(placement: Placement, setting: Setting) -> None:
    """The parameter `permissions`. The first one of an application counts."""
    for number, item in enumerate(listed_in(setting, "permissions")):
        if not isinstance(item, tuple) or len(item) != 2 or item[1] not in (Atom("true"), Atom("false")):
            raise setting.fault_in((number,), "BadPermission", "this is no permission, which is {APP,true} or {APP,false}")
        placement.permissions.setdefault(spelled(setting, (number, 0), item[0]), item[1] == Atom("true"))


def take_sync_time(placement: Placement, setting: Setting) -> None:
    """The parameter `sync_nodes_timeout`. OTP doesn't boot with 0."""
    value = setting.value
    if value == Atom("infinity"):
        placement.sync_time = float("inf")
        return
    if value == 0:
        raise setting.fault_in((), "ZeroSyncTime", "with {sync_nodes_timeout,0} no node boots in OTP: write 1 or more, or take the parameter out")
    if not isinstance(value, int) or not 0 < value <= FOREVER:
        raise setting.fault_in((), "BadTime", f"sync_nodes_timeout is a number of milliseconds from 1 to {FOREVER}, or infinity")
    placement.sync_time = int(value)


def take_tick_time(placement: Placement, setting: Setting) -> None:
    """The parameter `net_ticktime`, which determines how long a lost host stays unnoticed."""
    if isinstance(setting.value, int) and setting.value > 0:
        placement.tick_time = int(setting.value)


def listed_in(setting: Setting, name: str) -> list[Term]:
    """The value of a parameter that is a list."""
    if not isinstance(setting.value, list):
        raise setting.fault_in((), "BadList", f"a list is wanted behind {name}")
    return setting.value


TAKEN = {
    "distributed": take_distributed,
    "permissions": take_permissions,
    "sync_nodes_timeout": take_sync_time,
    "net_ticktime": take_tick_time,
}
