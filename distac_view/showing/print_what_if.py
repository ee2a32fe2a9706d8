"""The answer to a what-if question as a table with notes."""

from __future__ import annotations

from typing import Iterable, Iterator

from distac_view.answering.caveats import notes_on
from distac_view.answering.outages import outage_of, seconds_of
from distac_view.answering.what_if import Answers, Case, Fate, Reply, nowhere_at_first
from distac_view.asking.snapshots import bare_marks
from distac_view.common.names import Short, bare_name, bare_names
from distac_view.common.texts import columns_of, listed, padded, shown
from distac_view.reading.configuration import Configuration
from distac_view.showing.headlines import what_if_headlines

HEADS = ("down", "application", "now", "then", "how", "after", "outage", "back")


def table_of(reply: Reply, shows_all: bool = False) -> Iterator[str]:
    """The headlines, the duration of the loss, a table for each side, and notes, with all rows if requested."""
    yield from what_if_headlines(reply)
    yield from reply.configuration.short.lines
    yield f"each loss lasts {lasting(reply.question.takes, reply.configuration)}"
    for number, answers in enumerate(reply.sides):
        if len(reply.sides) > 1:
            yield from [""] if number else []
            yield shown(f"side of {listed(bare_names(answers.side.members))}:")
        yield from lines_of_rows([HEADS, *rows_of_side(reply, answers, shows_all)])
    notes = [*nobody_lines(reply), *(f"- {note.text}" for note in notes_on(reply))]
    if notes:
        yield ""
        yield from notes


def lasting(takes: int | None, configuration: Configuration) -> str:
    """The actual or presumed duration of a restart."""
    return f"longer than {max(configuration.timeouts.values())} ms" if takes is None else f"{takes} ms"


def rows_of_side(reply: Reply, answers: Answers, shows_all: bool) -> Iterator[tuple[str, ...]]:
    """The rows of one side. Applications that run nowhere from the start are listed below them."""
    nowhere = [held.app for held in nowhere_at_first(answers.side)]
    for case in answers.cases:
        yield from case_rows(case, nowhere, reply, shows_all)


def case_rows(case: Case, nowhere: list[str], reply: Reply, shows_all: bool) -> Iterator[tuple[str, ...]]:
    """The rows of a case: the applications that move, and the number that stays, except nowhere."""
    short = reply.configuration.short
    down, shown_ones = " ".join(short.each(case.down)), case.fates if shows_all else [fate for fate in case.fates if not fate.stays]
    for fate in shown_ones:
        yield tuple(shown(text) for text in (down, *cells_of(fate, reply, short)))
    count = sum(fate.app not in nowhere for fate in case.fates if fate.stays)
    if count and not shows_all:
        stay = "stays" if count == 1 else "stay"
        yield ("" if shown_ones else shown(down), f"+ {count} {stay}")


def cells_of(fate: Fate, reply: Reply, short: Short) -> tuple[str, ...]:
    """The row of an application, without the nodes that are down."""
    takes = reply.question.takes
    app, (now, then, back) = bare_name(fate.app), map(short.one, (fate.now, fate.then, fate.back))
    if fate.waits:
        return (app, now, then, "waits", "", f"{seconds_of(takes or 0)} s", back)
    after = "" if fate.milliseconds is None else f"{fate.milliseconds} ms"
    if fate.failed is not None:
        return (app, now, then, *failed_cells(fate, after, reply, short))
    outage = outage_in(fate, reply)
    how = "stays stopped" if fate.was_stopped and fate.how == "stays" else fate.how
    return (app, now, then, how, after, outage, back)


def failed_cells(fate: Fate, after: str, reply: Reply, short: Short) -> tuple[str, ...]:
    """The rest of the row of an application whose start fails, before or after the return."""
    fails = f"fails at {short.one(fate.failed.failing.node)}" if fate.failed else ""
    if fate.then is None:
        return (fails, after, "", short.one(fate.back))
    return (fate.how, after, outage_in(fate, reply), fails)


def outage_in(fate: Fate, reply: Reply) -> str:
    """The outage of an application that fails over. A node that a failed start ends is noticed at once."""
    if fate.wait is None:
        return ""
    if fate.since is not None:
        return f"{seconds_of(fate.wait - fate.since)} s"
    return outage_of(fate.wait, reply.tick_time, reply.question.takes)


def lines_of_rows(rows: Iterable[tuple[str, ...]]) -> Iterator[str]:
    """Rows as lines with columns of equal width. A row can end early; its last cell widens no column."""
    all_rows = list(rows)
    count = max(map(len, all_rows), default=0)
    whole = [row for row in all_rows if len(row) == count]
    widths = [max(columns_of(row[place]) for row in whole) for place in range(count)]
    widths[:1] = [max(columns_of(row[0]) for row in all_rows)] if all_rows else []
    for row in all_rows:
        yield "  ".join(padded(cell, width) for cell, width in zip(row, widths)).rstrip()


def nobody_lines(reply: Reply) -> Iterator[str]:
    """Why nobody has an application that ran before, by the marks of its list."""
    for case in reply.cases:
        for fate in case.fates:
            if fate.then is None and fate.now is not None and fate.marks and not fate.waits and fate.failed is None:
                yield shown(f"{bare_name(fate.app)} without {listed(bare_names(case.down))}: {bare_marks(fate.marks)}")
