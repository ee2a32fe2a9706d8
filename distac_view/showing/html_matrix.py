"""Answers at a glance: sentences, and a square for each application under each loss, in each step, or on each side.

A square says everything in words too: its pattern and color repeat them, on paper without colors as well.
"""

from typing import Iterable, List, Tuple, Union

from distac_view.answering.outages import seconds_of
from distac_view.answering.rolling import Rolling, Step
from distac_view.answering.split import SplitReply
from distac_view.answering.what_if import Answers, Fate, Reply
from distac_view.common.names import Short, bare_name
from distac_view.common.texts import listed
from distac_view.showing.headlines import is_lost
from distac_view.showing.html_elements import Cells, Square, Table, paragraphs, section, text_in

MOST_COLUMNS, MOST_ROWS = 24, 32
STAYS, MOVES, WAITS, HANGS, GONE, TWICE, NONE = "stays", "moves", "waits", "hangs", "gone", "twice", "none"
STYLE = """
.glance { --soon: color-mix(in srgb, var(--said) 40%, var(--back)); --twice: color-mix(in srgb, var(--dead) 14%, var(--back)); }
.glance .wide table { border-collapse: separate; border-spacing: 4px; }
.glance .wide :is(td, th) { padding: 3px 8px; vertical-align: middle; }
.glance .wide tbody th { border-bottom: 0; }
.glance .wide tbody td { border: 1px solid var(--rule); border-radius: 4px; white-space: normal; min-width: 4em; }
.glance .wide td { -webkit-print-color-adjust: exact; print-color-adjust: exact; }
.glance .wide tbody .none { border-color: transparent; }
.glance .wide tbody .moves { border: 2px solid var(--line); background: var(--soon); }
.glance .wide tbody .hangs { border: 3px dotted var(--dead); background: var(--soon); }
.glance .wide tbody .waits { border: 2px dashed var(--text);
  background: repeating-linear-gradient(135deg, var(--back) 0 7px, var(--soon) 7px 9px); }
.glance .wide tbody .twice { border: 4px double var(--dead);
  background: repeating-linear-gradient(0deg, var(--back) 0 5px, var(--twice) 5px 7px); }
.glance .wide tbody .gone { border: 2px solid var(--dead); background: var(--dead); color: var(--back); font-weight: bold; }
@media screen and (max-width: 600px) {
  .glance .wide tbody th { padding: 0; }
  .glance .wide tbody td { display: block; margin: 0 0 4px; padding: 3px 8px; }
  .glance .wide tbody :is(.stays, .none) { display: inline-block; border: 0; margin: 0; padding: 0 12px 0 0; }
  .glance .wide .gone::before { color: inherit; }
}
@media print {
  .glance .wide table { border-spacing: 2px; table-layout: fixed; width: 100%; }
  .glance .wide :is(td, th), .glance .wide tr > :last-child { padding: 2px 3px; font-size: 8pt; overflow-wrap: anywhere; }
  .glance .wide tbody td { min-width: 0; }
}
"""


def glance(sentences: Iterable[str], tables: List[Table], short: Short) -> str:
    """The sentences, and the squares that fit."""
    squares = [table.text for table in tables if len(table.heads) <= MOST_COLUMNS and len(table.rows) <= MOST_ROWS]
    said = "".join(f"<p><strong>{text_in(sentence)}</strong></p>" for sentence in sentences)
    return section("At a glance", f'<div class="glance">{said}{"".join(squares)}</div>{paragraphs(short.lines)}')


def losses_of(answers: Answers, reply: Reply) -> Table:
    """The squares of one side of `what-if`: a column for each application, the first row for now."""
    short, takes = reply.configuration.short, reply.question.takes
    now = [fate.now for fate in answers.cases[0].fates] if answers.cases else []
    rows: List[Cells] = [("now", *(place_square(place, short) for place in now))]
    for case in answers.cases:
        squares = (hanging(fate_square(fate, reply.tick_time, takes, short), fate.app in case.may_hang) for fate in case.fates)
        rows.append((f"{' '.join(short.each(case.down))} down", *squares))
    side = f" on the side of {listed(short.each(answers.side.members))}" if len(reply.sides) > 1 else ""
    return Table(f"Where each application goes{side}", ("when", *map(bare_name, reply.configuration.names)), rows)


def place_square(place: "str | None", short: Short) -> Square:
    """The square of an application that stays."""
    return Square(STAYS if place else NONE, short.one(place))


def fate_square(fate: Fate, tick_time: int, takes: "int | None", short: Short) -> Square:
    """The square of an application under a loss."""
    if fate.failed is not None:
        fails = f"fails at {short.one(fate.failed.failing.node)}"
        return Square(GONE, f"nowhere: {fails}" if fate.then is None else f"{arrival(fate.then, fate.wait, short)}, then nowhere: {fails}")
    if fate.waits:
        return Square(WAITS, f"down {seconds_of(fate.longest_outage(tick_time, takes) or 0)} s")
    if is_lost(fate):
        return Square(GONE, "nowhere")
    return place_square(fate.then, short) if fate.then == fate.now else Square(MOVES, arrival(fate.then, fate.wait, short))


def hanging(square: Square, may_hang: bool) -> Square:
    """A square of an application that OTP may fail to restart says so."""
    return Square(HANGS, f"{square.text}, or OTP hangs") if may_hang else square


def arrival(place: "str | None", wait: "int | None", short: Short) -> str:
    """A move to a node, with its wait if it is a failover."""
    after = f" after {seconds_of(wait)} s" if wait else " at once"
    return f"-> {short.one(place)}{'' if wait is None else after}"


def steps_of(rolling: Rolling) -> Table:
    """The squares of `rolling`: a row for each application, a column for each step, the first one for the start."""
    short, held, rows = rolling.configuration.short, rolling.side.page.held, []
    for app in rolling.configuration.names:
        place = held[app].runs_at if app in held else None
        row: List[Union[str, Square]] = [bare_name(app), place_square(place, short)]
        for step in rolling.steps:
            square, place = step_square(app, place, step, rolling)
            row.append(square)
        rows.append(tuple(row))
    heads = (f"{number}. {short.one(step.node)} restarts" for number, step in enumerate(rolling.steps, 1))
    return Table("Where each application runs in each step, and when it is down", ("application", "before", *heads), rows)


def step_square(app: str, place: "str | None", step: Step, rolling: Rolling) -> "Tuple[Square, str | None]":
    """The square of an application in a step, and its place after it."""
    short = rolling.configuration.short
    drained, down, back = ([move for move in moves if move.app == app] for moves in (step.drained, step.down, step.back))
    texts = [arrival(move.node, None, short) for move in drained]
    texts += [arrival(move.node, move.milliseconds if move.how == "failover" else None, short) for move in down]
    if app in step.waiting:
        texts.append(f"down {seconds_of(rolling.takes or 0)} s" if app in step.resumed or back else "down")
    if app in step.nowhere:
        texts.append("nowhere")
    texts += [f"then {arrival(move.node, None, short)}" for move in back]
    if not texts:
        return place_square(place, short), place
    is_gone = app in step.nowhere or (app in step.waiting and app not in step.resumed)
    ends = [move.node for move in (*drained, *down, *back)]
    after = None if is_gone and not back else ends[-1] if ends else place
    square = Square(GONE if app in step.nowhere else WAITS if app in step.waiting else MOVES, ", ".join(texts))
    return hanging(square, app in step.may_hang), after


def sides_of(reply: SplitReply) -> Table:
    """The squares of a split: a row for each side, and one for the end."""
    short, copies = reply.configuration.short, {each.app: len(each.copies) for each in reply.healed}
    rows: List[Cells] = [("before", *(place_square(fate.now, short) for fate in reply.parts[0].case.fates if reply.parts))]
    for part in reply.parts:
        hung = part.case.may_hang
        squares = (hanging(side_square(fate, copies[fate.app], short), fate.app in hung) for fate in part.case.fates)
        rows.append((f"side of {' '.join(short.each(part.nodes))}", *squares))
    rows.append(("healed, once all have rebooted", *(place_square(each.back, short) for each in reply.healed)))
    return Table("Where each application runs on each side", ("when", *map(bare_name, reply.configuration.names)), rows)


def side_square(fate: Fate, copies: int, short: Short) -> Square:
    """The square of an application on a side, with the number of its copies on all sides."""
    if fate.then is None:
        return Square(NONE, "not here" if copies else "-")
    text = short.one(fate.then) if fate.then == fate.now else arrival(fate.then, fate.wait, short)
    if copies > 1:
        return Square(TWICE, f"{text}, runs {'twice' if copies == 2 else f'{copies} times'}")
    return Square(STAYS if fate.then == fate.now else MOVES, text)
