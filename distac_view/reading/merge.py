"""One configuration from the files of all nodes: their differences, and the value written then."""

from __future__ import annotations

from dataclasses import dataclass, field
from typing import Iterable

from distac_view.common.diagnostics import Told
from distac_view.common.names import node_meant
from distac_view.common.problems import Problem
from distac_view.common.texts import cut, listed, shown
from distac_view.reading.command_flags import node_named
from distac_view.reading.configuration import name_order
from distac_view.reading.kernel_parameters import SYNC_LISTS, Entry, Placement
from distac_view.reading.node_settings import NO_NAME, Setting


@dataclass
class Gathered:
    """The one configuration, the permissions that it can't express (node by node), and warnings."""

    entries: list[Entry]
    nodes: list[str]
    barred: list[str] = field(default_factory=list)
    barred_at: list[tuple[str, str]] = field(default_factory=list)
    sync: dict[str, list[str]] = field(default_factory=dict)
    sync_time: float | None = None
    tick_time: int | None = None
    warnings: list[Told] = field(default_factory=list)

    @property
    def text(self) -> str:
        """The configuration as a text for `distac`."""
        parts = ["{distributed,[%s]}" % ",".join(entry.text for entry in self.entries)]
        parts.append("{permissions,[%s]}" % ",".join("{%s,false}" % app for app in self.barred))
        parts += ["{%s,[%s]}" % (name, ",".join(self.sync[name])) for name in SYNC_LISTS]
        if self.sync_time is not None:
            parts.append("{sync_nodes_timeout,%s}" % time_text(self.sync_time))
        return "[{kernel,[%s]}].\n" % ",".join(parts)


def gathered(placements: list[Placement]) -> Gathered:
    """One configuration from the contents of each node's files."""
    for placement in placements:
        if "distributed" not in placement.settings.kernel:
            raise without_distributed(placement, placements)
    entries = [merged_entry(entry, placements) for entry in placements[0].entries]
    for other in placements[1:]:
        want_same_applications(placements[0], other)
    found = Gathered(entries, nodes_named(entries, placements))
    resolve_nodes(found, placements)
    found.warnings += once_each(told for placement in placements for told in placement.settings.warnings)
    found.warnings += time_warnings(placements)
    gather_sync(found, placements)
    gather_permissions(found, placements)
    found.sync_time = greatest(found, placements, "sync_nodes_timeout", [placement.sync_time for placement in placements])
    tick_time = greatest(found, placements, "net_ticktime", [placement.tick_time for placement in placements])
    found.tick_time = None if tick_time is None else int(tick_time)
    found.warnings = list(dict.fromkeys([*found.warnings, *coverage_warnings(found, placements)]))
    return found


def once_each(warnings: Iterable[Told]) -> list[Told]:
    """Warnings without repetition: one on many files names only the first."""
    by_sentence: dict[str, Told] = {}
    for told in warnings:
        by_sentence.setdefault(told.sentence, told)
    return list(by_sentence.values())


def without_distributed(placement: Placement, placements: list[Placement]) -> Exception:
    """The fault of a node whose files name no distributed application."""
    files = listed([file.path for file in placement.settings.files])
    other = next((each for each in placements if "distributed" in each.settings.kernel), None)
    if other is not None:
        line = other.settings.kernel["distributed"].origin.line
        return Problem(f"kernel has distributed at {line}, and {files} has none: OTP wants it equal at all nodes", "Differs")
    advice = "name each node's files in the order of -config, or take the answer of the running node (gather --print-command)"
    return Problem(f"kernel has no distributed in {files}: {advice}", "NoDistributed")


def nodes_named(entries: list[Entry], placements: list[Placement]) -> list[str]:
    """All nodes of the lists of applications and of the sync lists, in name order."""
    found = {node for entry in entries for node in entry.nodes}
    found.update(node for placement in placements for node in placement.waits_for())
    return sorted(found, key=name_order)


def resolve_nodes(found: Gathered, placements: list[Placement]) -> None:
    """Each node by its whole name. On the command line the part before @ suffices if it names one."""
    for placement in placements:
        if placement.node not in found.nodes:
            resolve(placement, found)
        others = [file.answered_by for file in placement.settings.files if file.answered_by not in ("", NO_NAME)]
        if any(node_named(other) != placement.node for other in others):
            what = f"an answer of {shown(listed(others))} is taken for {shown(placement.node)}"
            found.warnings.append(Told("OtherNode", f"{what}: each node has to be asked itself"))
    names = [placement.node for placement in placements]
    twice = next((name for name in names if names.count(name) > 1), None)
    if twice is not None:
        raise Problem(f"{shown(twice)} is named twice: write it once, with all its files behind one =")


def resolve(placement: Placement, found: Gathered) -> None:
    """A node's whole name by the part of it before @, if there is one such node."""
    meant = node_meant(placement.node, found.nodes)
    if meant is not None:
        placement.node = meant
        return
    some = cut(shown(", ".join(found.nodes)), 200)
    found.warnings.append(Told("UnknownNode", f"{shown(placement.node)} is in no list of the files, which name {some}"))


def merged_entry(entry: Entry, placements: list[Placement]) -> Entry:
    """An entry with the greatest of its times on all nodes."""
    others = [placement.entry_of(entry.app) or entry for placement in placements]
    return Entry(entry.app, max(other.timeout for other in others), entry.groups)


def want_same_applications(first: Placement, other: Placement) -> None:
    """OTP requires equal lists at all nodes, except for the order within tuples."""
    here, there = first.settings.kernel["distributed"], other.settings.kernel["distributed"]
    for entry in other.entries:
        own = first.entry_of(entry.app)
        if own is None:
            raise differs(there, f"{shown(entry.app)} is in distributed here and isn't at {here.origin.line}")
        if own.list_text != entry.list_text:
            own_list, its_list = shown(own.list_text), shown(entry.list_text)
            raise differs(there, f"the list of {shown(entry.app)} is {its_list} here and {own_list} at {here.origin.line}")
    for entry in first.entries:
        if other.entry_of(entry.app) is None:
            raise differs(here, f"{shown(entry.app)} is in distributed here and isn't at {there.origin.line}")


def differs(setting: Setting, what: str) -> Exception:
    """The fault of different `distributed` settings, at one of the two places."""
    return setting.fault("Differs", f"{what}: OTP wants distributed equal at all nodes")


def time_warnings(placements: list[Placement]) -> list[Told]:
    """Failover times that differ."""
    found = []
    for entry in placements[0].entries:
        each = [(placement, placement.entry_of(entry.app)) for placement in placements]
        times = [(own.timeout, placement.settings.kernel["distributed"]) for placement, own in each if own is not None]
        if len({time for time, _ in times}) > 1:
            most, least = max(times, key=lambda time: time[0]), min(times, key=lambda time: time[0])
            what = f"the failover time of {shown(entry.app)} is {least[0]} here, and {most[0]} at {most[1].origin.line}"
            found.append(told_at(least[1], "TimeDiffers", f"{what}: the greater one is written", entry.app))
    return found


def told_at(setting: Setting, name: str, sentence: str, *apps: str) -> Told:
    """A warning at a parameter, about some applications."""
    origin = setting.origin
    return Told(name, sentence, origin.file.path, origin.file.remark(origin.place, name, sentence).place, apps)


def greatest(found: Gathered, placements: list[Placement], name: str, values: list[float | None]) -> float | None:
    """The greatest value of a parameter, with a warning if nodes differ."""
    most = max((value for value in values if value is not None), default=None)
    for placement, value in zip(placements, values):
        if value != most:
            source = placements[values.index(most)].settings.kernel[name]
            what = f"{name} is {time_text(most)} at {source.origin.line}, and {shown(placement.node)} has {time_text(value)}"
            here = placement.settings.kernel.get(name, source)
            found.warnings.append(told_at(here, "TimeDiffers", f"{what}: {time_text(most)} is written"))
    return most


def time_text(value: float | None) -> str:
    """A time in a file's form."""
    return "none" if value is None else "infinity" if value == float("inf") else str(int(value))


def gather_sync(found: Gathered, placements: list[Placement]) -> None:
    """The sync lists of all nodes as one. A node's own entry is optional, because it counts itself as up."""
    for name in SYNC_LISTS:
        union = {node for placement in placements for node in placement.sync[name]}
        for placement in placements:
            missing = sorted(union.difference(placement.sync[name], [placement.node]), key=name_order)
            if missing:
                found.warnings.append(sync_differs(name, placement, missing, placements))
        found.sync[name] = sorted(union, key=name_order)
    for placement in placements:
        add_own(found, placement, placements)


def sync_differs(name: str, placement: Placement, missing: list[str], placements: list[Placement]) -> Told:
    """A node doesn't wait for nodes for which another one waits."""
    other = next(each for each in placements if missing[0] in each.sync[name])
    there = other.settings.kernel[name]
    what = f"{shown(placement.node)} doesn't wait for {shown(listed(missing))}, which {shown(other.node)} has in {name}"
    return told_at(placement.settings.kernel.get(name, there), "SyncDiffers", f"{what}: one list for all is written")


def add_own(found: Gathered, placement: Placement, placements: list[Placement]) -> None:
    """Adds a node to its own list if no file names it and a node without a file may wait for it."""
    known = {each.node for each in placements}
    is_waited_for = any(placement.node in found.sync[name] for name in SYNC_LISTS)
    has_others = any(node not in known for node in placement.waits_for())
    if is_waited_for or not has_others or placement.node not in found.nodes:
        return
    name = next(name for name in SYNC_LISTS if placement.sync[name])
    found.sync[name] = sorted([*found.sync[name], placement.node], key=name_order)
    sentence = f"{shown(placement.node)} waits for others and is in no list that was given: it is added to {name}, as the others' files may have it"
    found.warnings.append(told_at(placement.settings.kernel[name], "OwnAdded", sentence))


def gather_permissions(found: Gathered, placements: list[Placement]) -> None:
    """Permissions that are equal at all nodes of an application are written. Others hold at single nodes."""
    for entry in found.entries:
        here = [placement for placement in placements if placement.node in entry.nodes]
        barring = [placement for placement in here if not placement.permissions.get(entry.app, True)]
        if barring and len(barring) == len(here):
            found.barred.append(entry.app)
        elif barring:
            found.barred_at += [(placement.node, entry.app) for placement in barring]
            found.warnings.append(permission_differs(entry.app, barring[0], here, barring))


def permission_differs(app: str, first: Placement, here: Iterable[Placement], barring: list[Placement]) -> Told:
    """An application is forbidden only at some of its nodes."""
    nodes = shown(listed([placement.node for placement in barring]))
    others = shown(listed([placement.node for placement in here if placement not in barring]))
    cure = "true is written, and a comment above it by which what-if, rolling and load forbid it there"
    return told_at(first.settings.kernel["permissions"], "PermissionDiffers", f"{shown(app)} is forbidden at {nodes} and not at {others}: {cure}", app)


def coverage_warnings(found: Gathered, placements: list[Placement]) -> list[Told]:
    """Nodes of lists without a file, and sync lists without a time."""
    known = {placement.node for placement in placements}
    missing = [node for node in found.nodes if node not in known]
    warnings = []
    if missing:
        what = f"no file was given for {cut(shown(listed(missing)), 300)}"
        warnings.append(Told("NoFile", f"{what}: the configuration says of them what the other files say"))
    if any(found.sync.values()) and found.sync_time is None:
        warnings.append(Told("NoSyncTime", "no node waits for those of the sync lists, because sync_nodes_timeout is in no file"))
    return warnings
