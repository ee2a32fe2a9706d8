"""The answer of `load` as a table, with violations of a budget."""

from __future__ import annotations

from typing import Iterator

from distac_view.answering.caveats import few_of
from distac_view.answering.load import Load, Row
from distac_view.answering.notes import Failure
from distac_view.common.names import Short, bare_name
from distac_view.common.texts import columns_of, listed, shown
from distac_view.showing.print_what_if import lines_of_rows

MOST_COLUMNS = 8


def table_of(load: Load, most: int | None) -> Iterator[str]:
    """The table, and the applications that one more loss would end."""
    rows = shown_rows(load, most)
    yield from load.configuration.short.lines
    yield from lines_of_rows(wide_rows(load, rows) if is_wide(load) else narrow_rows(load, rows))
    yield from left_lines(load, rows)
    last = list(last_lines(load))
    if last:
        yield ""
        yield from last


def is_wide(load: Load) -> bool:
    """Whether each node has a column."""
    return len(load.side.nodes) <= MOST_COLUMNS


def left_lines(load: Load, rows: list[Row]) -> Iterator[str]:
    """The number of pairs that aren't shown, if any."""
    left = len(load.rows) + 1 - len(rows)
    if left:
        yield f"+ {left} {'pair that loses' if left == 1 else 'pairs that lose'} nothing more than each node alone"


def shown_rows(load: Load, most: int | None) -> list[Row]:
    """The rows shown: only those pairs that lose applications which neither node alone loses, or overload a node."""
    alone = {row.down[0]: row.lost for row in load.singles}
    pairs = [row for row in load.pairs if set(row.lost) - {app for node in row.down for app in alone[node]} or is_above(row, most)]
    return [load.start, *load.singles, *pairs]


def is_above(row: Row, most: int | None) -> bool:
    """Whether a node has more applications than allowed."""
    return most is not None and row.most > most


def wide_rows(load: Load, rows: list[Row]) -> Iterator[tuple[str, ...]]:
    """A column for each node."""
    nodes, short = load.side.nodes, load.configuration.short
    heads = [shown(name) for name in short.each(nodes)]
    widths = [max(columns_of(head), 3) for head in heads]
    yield ("down", *heads, "lost")
    for row in rows:
        counts = [str(row.counts[node]) if node in row.counts else "" for node in nodes]
        yield (down_of(row, short), *(count.rjust(width) for count, width in zip(counts, widths)), lost_of(row))


def narrow_rows(load: Load, rows: list[Row]) -> Iterator[tuple[str, ...]]:
    """A column for the greatest load, and one for the node that has it."""
    short = load.configuration.short
    yield ("down", "most", "at", "lost")
    for row in rows:
        yield (down_of(row, short), str(row.most).rjust(4), shown(short.one(row.most_at)), lost_of(row))


def down_of(row: Row, short: Short = Short({})) -> str:
    """The nodes that are down, by their whole names unless there are shorter ones."""
    return shown(" ".join(short.each(row.down))) or "-"


def lost_of(row: Row) -> str:
    """The number of lost applications, with some names."""
    return shown(f"{len(row.lost)}: {few_of(row.lost)}") if row.lost else "0"


def last_lines(load: Load) -> Iterator[str]:
    """The applications at the last node that can run them, which one more loss would end."""
    short = load.configuration.short
    for row in (load.start, *load.singles):
        last = row.last if row is load.start else [app for app in row.last if app not in load.start.last]
        if last:
            names = few_of([f"{bare_name(app)} ({short.one(row.places[app])})" for app in last])
            without = f"without {listed(short.each(row.down))}, " if row.down else ""
            yield shown(f"{without}one loss from nothing: {names}")


def budget_faults(load: Load, fail_on: list[str], most: int | None) -> Iterator[Failure]:
    """Violations of a budget in `--fail-on`, as sentences."""
    if "lost" in fail_on and load.nowhere:
        yield Failure("lost", shown(f"{few_of(load.nowhere)} {'runs' if len(load.nowhere) == 1 else 'run'} nowhere before any loss"))
    lost = [row for row in load.rows if row.lost] if "lost" in fail_on else []
    if lost:
        yield Failure("lost", f"{len(lost)} of {len(load.rows)} losses leave an application nowhere, first {down_of(lost[0])}")
    above = [row for row in (load.start, *load.rows) if is_above(row, most)] if "load" in fail_on else []
    if above:
        cases = f"{len(above)} of {len(load.rows) + 1} cases"
        yield Failure("load", f"a node has more than {most} applications in {cases}, first {down_of(above[0])}")
    hanging = [row for row in load.rows if row.may_hang] if "hang" in fail_on else []
    if hanging:
        yield Failure("hang", f"OTP may hang in {len(hanging)} of {len(load.rows)} losses, first {down_of(hanging[0])}")
