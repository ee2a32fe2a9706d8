"""The answer of `what-if --then`: a line for each setting and each answer that changes, and advice for the rollout."""

from __future__ import annotations

from typing import Iterator

from distac_view.answering.caveats import below, few_of
from distac_view.answering.changes import Answer, Changes
from distac_view.answering.notes import Failure, Note
from distac_view.answering.outages import seconds_of
from distac_view.answering.settings import GATES, Differing
from distac_view.common.names import Short, bare_name
from distac_view.common.texts import shown
from distac_view.showing.print_what_if import lines_of_rows


HARMFUL = ("NoRollingChange", "AddedMayRunTwice", "GoneRunsEverywhere")


def lines_of(changes: Changes) -> Iterator[str]:
    """The changes, and advice for their rollout."""
    rows = [*map(setting_row, changes.settings), *change_rows(changes)]
    yield from changes.short.lines if changes.changes else []
    yield from lines_of_rows([tuple(shown(cell) for cell in row) for row in rows])
    yield from alone_lines(changes)
    yield count_line(changes)
    yield from below(notes_on(changes))


def alone_lines(changes: Changes) -> Iterator[str]:
    """The applications, nodes and notes that only one file has."""
    for kind, (added, gone) in (("application", changes.apps), ("node", changes.nodes)):
        yield from (shown(f"+ {bare_name(name)} ({kind})") for name in added)
        yield from (shown(f"- {bare_name(name)} ({kind})") for name in gone)
    for sign, notes in zip("+-", changes.notes):
        yield from (shown(f"{sign} {note.text} (note)") for note in notes)


def count_line(changes: Changes) -> str:
    """The number of answers that change."""
    return f"{len(changes.changes)} of {changes.compared} answers change"


def setting_row(setting: Differing) -> tuple[str, ...]:
    """The row of a setting that differs."""
    values = " -> ".join("none" if value is None else value.replace("'", "") for value in (setting.old, setting.new))
    return (f"~ {bare_name(setting.app)}", setting.name, values) if setting.app else ("~ all nodes", setting.name, values)


def change_rows(changes: Changes) -> Iterator[tuple[str, ...]]:
    short = changes.short
    for each in changes.changes:
        down = " ".join(short.each(each.down))
        yield (f"~ {bare_name(each.app)}", f"{down} down" if down else "now", "; ".join(parts_of(each.old, each.new, short)))


def parts_of(old: Answer, new: Answer, short: Short) -> Iterator[str]:
    """The differences of two answers. Times are given only for one place, and an outage only if the wait is equal."""
    if (old.place, old.waits) != (new.place, new.waits):
        yield " -> ".join("it waits" if answer.waits else named(answer.place, short) for answer in (old, new))
    elif old.milliseconds != new.milliseconds:
        yield " -> ".join(timed(answer, short) for answer in (old, new))
    elif old.longest_outage != new.longest_outage:
        yield f"away for at most {seconds(old.longest_outage)} -> {seconds(new.longest_outage)}"
    if old.back != new.back:
        yield f"back: {named(old.back, short)} -> {named(new.back, short)}"
    if old.is_alone != new.is_alone:
        yield "one loss from nothing" if new.is_alone else "not one loss from nothing any more"


def named(place: str | None, short: Short) -> str:
    return short.one(place) if place else "nowhere"


def timed(answer: Answer, short: Short) -> str:
    """The place of an application, and the time until it gets there, if it moves at all."""
    place = named(answer.place, short)
    return f"{place}, where it stays" if answer.milliseconds is None else f"{place} after {answer.milliseconds} ms"


def seconds(milliseconds: int | None) -> str:
    """A longest outage."""
    return "no time" if milliseconds is None else f"{seconds_of(milliseconds)} s"


def change_faults(changes: Changes, fail_on: list[str]) -> Iterator[Failure]:
    """Violations of `--fail-on`: what makes a rollout node by node harmful, what runs nowhere by the new file, and files
    that it isn't of any more."""
    if "rollout" in fail_on:
        yield from (Failure("rollout", note.text) for note in notes_on(changes) if note.id in HARMFUL)
    if "stale" in fail_on and changes.stale:
        yield Failure("stale", shown(stale_line(changes)))
    lost = [each for each in changes.changes if each.old.place and not each.new.place and not each.new.waits]
    if "lost" in fail_on and lost:
        down = " ".join(bare_name(node) for node in lost[0].down) or "no node"
        yield Failure("lost", shown(f"{len(lost)} of {changes.compared} answers become nowhere, first {bare_name(lost[0].app)} with {down} down"))


def stale_line(changes: Changes) -> str:
    """The files that changed since the new configuration was gathered from them."""
    return f"{few_of([each.file for each in changes.stale])} changed since the new file was gathered from it: gather it again"


def notes_on(changes: Changes) -> Iterator[Note]:
    """Advice for a rollout: changed files, different lists, times alone, and applications of one file."""
    if changes.stale:
        yield Note("Stale", shown(f"{stale_line(changes)}."))
    if any(setting.name in GATES for setting in changes.settings):
        text = "Whom a starting node waits for differs: --down A B --back B says whether B comes back while A is down."
        yield Note("OtherGates", text)
    if changes.other_lists:
        text = f"The lists of {few_of(changes.other_lists)} differ: of two nodes with both files OTP ends one, so one new node may end all old ones."
        yield Note("NoRollingChange", shown(f"{text} Stop all nodes, and start them with the new file."))
    elif changes.other_times:
        text = f"The times of {few_of(changes.other_times)} differ: such a file can be rolled out node by node."
        yield Note("MixedTimes", shown(f"{text} Meanwhile each node counts the time of its own file."))
    added, gone = changes.apps
    if added:
        text = f"The new file alone has {few_of(added)}: a node with the old one starts it as its own, and it may run twice."
        yield Note("AddedMayRunTwice", shown(f"{text} Start it once all nodes have the new file."))
    if gone:
        text = f"The new file lacks {few_of(gone)}: each node that starts it then runs it as its own, at the end all of them."
        yield Note("GoneRunsEverywhere", shown(f"{text} Take it out of their releases, or stop it there."))
