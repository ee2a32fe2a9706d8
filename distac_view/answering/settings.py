"""The differences of two configurations in the settings of shared applications, and of all nodes."""

from __future__ import annotations

from dataclasses import dataclass
from typing import Iterator

from distac_view.answering.outages import tick_time_of
from distac_view.reading.configuration import Application, Checked
from distac_view.reading.forbidden import forbidden_in

LIST, TIME, PERMISSION, FORBIDDEN = "list", "time", "permission", "forbidden"
GATES = ("sync_nodes_mandatory", "sync_nodes_optional", "sync_nodes_timeout")


@dataclass(frozen=True)
class Differing:
    """A setting with its two values in the files' form: of an application, or of all nodes. None is an absent value."""

    name: str
    app: str | None
    old: str | None
    new: str | None


def differing_settings(old: Checked, new: Checked) -> list[Differing]:
    """All settings that differ: those of applications in the order of the old file, then those of all nodes."""
    others = {each.name: each for each in new.configuration.applications}
    pairs = [(each, others[each.name]) for each in old.configuration.applications if each.name in others]
    found = [differing for one, other in pairs for differing in of_application(one, other)]
    found += [Differing(FORBIDDEN, name, *each) for name, each in forbidden_of(old, new).items() if each[0] != each[1]]
    earlier, later = of_all_nodes(old), of_all_nodes(new)
    return found + [Differing(name, None, earlier[name], later[name]) for name in earlier if earlier[name] != later[name]]


def of_application(one: Application, other: Application) -> Iterator[Differing]:
    """The settings of an application that another configuration changes."""
    values = {
        LIST: (list_of(one.groups), list_of(other.groups)),
        TIME: (str(one.timeout), str(other.timeout)),
        PERMISSION: (truth_of(one.is_permitted), truth_of(other.is_permitted)),
    }
    return (Differing(name, one.name, old, new) for name, (old, new) in values.items() if old != new)


def forbidden_of(old: Checked, new: Checked) -> dict[str, tuple[str, str]]:
    """The single nodes at which each shared application is forbidden."""
    pairs = forbidden_in(old), forbidden_in(new)
    names = [name for name in old.configuration.names if name in new.configuration.names]
    return {name: (nodes_for(name, pairs[0]), nodes_for(name, pairs[1])) for name in names}


def nodes_for(name: str, pairs: list[tuple[str, str]]) -> str:
    """The nodes at which an application is forbidden."""
    return list_of([[node] for node, app in pairs if app == name])


def list_of(groups: list[list[str]]) -> str:
    """A list of nodes in a file's form."""
    return "[%s]" % ",".join(group[0] if len(group) == 1 else "{%s}" % ",".join(group) for group in groups)


def truth_of(value: bool) -> str:
    """A boolean in a file's form."""
    return "true" if value else "false"


def of_all_nodes(checked: Checked) -> dict[str, str | None]:
    """The settings for all nodes, by their names in the file."""
    configuration = checked.configuration
    lists = [list_of([[node] for node in nodes]) for nodes in (configuration.mandatory, configuration.optional)]
    return {**dict(zip(GATES, (*lists, configuration.sync_timeout))), "net_ticktime": str(tick_time_of(checked.text))}
