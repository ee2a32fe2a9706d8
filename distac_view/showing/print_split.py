"""The answer on a split: as tables with notes, and as JSON."""

from typing import Iterable, Iterator

from distac_view.answering.caveats import TEXTS, below, idle_notes, is_in_tuple, start_notes
from distac_view.answering.hangs import hang_notes
from distac_view.answering.notes import Note
from distac_view.answering.outages import notice_range, seconds_of
from distac_view.answering.split import Part, SplitReply
from distac_view.answering.what_if import Fate
from distac_view.asking.snapshots import bare_marks
from distac_view.common.names import Short, bare_name, bare_names
from distac_view.common.texts import listed, shown
from distac_view.showing.headlines import split_headlines
from distac_view.showing.json_answers import Fields, fate_fields, json_of, name_or_none, names_of, sums_of
from distac_view.showing.print_what_if import lasting, lines_of_rows

HEADS = ("side", "application", "before", "here", "how", "after")
HEALED_HEADS = ("healed", "copies", "greatest claim", "term", "then")
HEALED = (
    "Healed, here: all nodes were said to be down, and each does nothing until it has booted again. "
    "What stays of an application is its greatest claim; then is where it runs once all nodes are back and started, that one first."
)
KEPT_BOTH = "Healed, in OTP: nothing stops any copy, and all run on until somebody stops them, or restarts their nodes."
OVERLAPPING = (
    "OTP since 25 may break more connections than a split does, by prevent_overlapping_partitions: "
    "the sides may be smaller then, down to single nodes."
)


def lines_of(reply: SplitReply, notes: "list[Note]", shows_all: bool) -> Iterator[str]:
    """The headlines, the duration of the split, the applications of each side, the healed ones, and notes. Rows that
    stay are shown only if requested."""
    yield from split_headlines(reply)
    yield from reply.configuration.short.lines
    yield lasting_line(reply)
    yield from lines_of_rows([HEADS, *side_rows(reply, shows_all)])
    yield ""
    yield from lines_of_rows([HEALED_HEADS, *healed_rows(reply, shows_all)])
    yield from below(notes)


def lasting_line(reply: SplitReply) -> str:
    """The presumed duration of the split."""
    return f"the split lasts {lasting(None, reply.configuration)}"


def side_rows(reply: SplitReply, shows_all: bool) -> "Iterator[tuple[str, ...]]":
    for part in reply.parts:
        yield from part_rows(part, reply.configuration.short, shows_all)


def part_rows(part: Part, short: Short, shows_all: bool) -> "Iterator[tuple[str, ...]]":
    """The rows of a side: applications that come to it, and those that ran before and now run only at another side.
    Those that it keeps are counted."""
    side = " ".join(short.each(part.nodes))
    shown_ones = [fate for fate in part.case.fates if shows_all or not is_kept(part, fate)]
    for fate in shown_ones:
        yield tuple(shown(cell) for cell in (side, *cells_of(fate, short)))
        side = ""
    kept = sum(fate.then is not None for fate in part.case.fates) - sum(fate.then is not None for fate in shown_ones)
    if kept and not shows_all:
        yield (shown(side), f"+ {kept} {'stays' if kept == 1 else 'stay'}")


def is_kept(part: Part, fate: Fate) -> bool:
    """Whether an application stays at its node on this side, or runs neither before nor here."""
    return fate.then == fate.now and (fate.now is None or fate.now in part.nodes)


def cells_of(fate: Fate, short: Short) -> "tuple[str, ...]":
    """The row of an application, without the side."""
    app, before, here = bare_name(fate.app), short.one(fate.now), short.one(fate.then)
    after = "" if fate.milliseconds is None else f"{fate.milliseconds} ms"
    how = "stays stopped" if fate.was_stopped and fate.how == "stays" else fate.how
    return (app, before, here, "nobody" if fate.then is None and not fate.was_stopped else how, after)


def healed_rows(reply: SplitReply, shows_all: bool) -> "Iterator[tuple[str, ...]]":
    """A row for each application that runs twice, or doesn't end at its former place. The others are counted."""
    short = reply.configuration.short
    before = {fate.app: fate.now for part in reply.parts for fate in part.case.fates}
    shown_ones = [each for each in reply.healed if shows_all or len(each.copies) > 1 or each.back != before.get(each.app)]
    for each in shown_ones:
        copies = " ".join(short.each(each.copies)) or "-"
        row = (bare_name(each.app), copies, short.one(each.kept), str(each.term or ""), short.one(each.back))
        yield tuple(shown(cell) for cell in row)
    if len(shown_ones) < len(reply.healed):
        yield (f"+ {len(reply.healed) - len(shown_ones)} as before",)


def notes_on(reply: SplitReply) -> "list[Note]":
    """Further notes on a split."""
    fates = [fate for part in reply.parts for fate in part.case.fates]
    found = [*start_notes(reply.side, bool(reply.question.now)), *twice_notes(reply), *marks_notes(reply)]
    least, most = (seconds_of(each) for each in notice_range(reply.tick_time))
    text = f"The wait of a failover counts from when the split is noticed: after {least} to {most} s (net_ticktime {reply.tick_time})"
    found.append(Note("SplitNoticed", f"{text}, or at once if the connections are reset."))
    found += hang_notes((part.case.down, part.case.may_hang) for part in reply.parts)
    found += idle_notes(fates)
    if any(is_in_tuple(reply.configuration, fate) for fate in fates):
        found.append(Note("TupleLoad", TEXTS["TupleLoad"]))
    found.append(Note("Overlapping", OVERLAPPING))
    return list(dict.fromkeys(found))


def twice_notes(reply: SplitReply) -> Iterator[Note]:
    """Applications that run more than once, and the result here and in OTP."""
    twice = [f"{bare_name(each.app)} at {listed(bare_names(each.copies))}" for each in reply.twice]
    if twice:
        yield Note("RunsTwice", shown(f"While the split lasts these run more than once: {'; '.join(twice)}."))
        yield Note("OtpKeepsBoth", KEPT_BOTH)
    if len(reply.parts) > 1:
        yield Note("HealedByBoots", HEALED)


def marks_notes(reply: SplitReply) -> Iterator[Note]:
    """Why a side lacks applications that ran before."""
    for part in reply.parts:
        for fate in part.case.fates:
            if fate.then is None and fate.now is not None and fate.marks:
                text = f"{bare_name(fate.app)} runs nowhere on the side of {listed(bare_names(part.nodes))}: {bare_marks(fate.marks)}"
                yield Note("NotOnSide", shown(text))


def split_answer(reply: SplitReply, notes: Iterable[Note]) -> str:
    fields: Fields = {
        "nodes": names_of(reply.configuration.nodes),
        "net_ticktime": reply.tick_time,
        "gathered": sums_of(reply.configuration),
        "parts": [part_fields(part, reply.tick_time) for part in reply.parts],
        "healed": [
            {
                "application": bare_name(each.app),
                "copies": names_of(each.copies),
                "kept": name_or_none(each.kept),
                "term": each.term,
                "back": name_or_none(each.back),
            }
            for each in reply.healed
        ],
    }
    return json_of("split", fields, notes)


def part_fields(part: Part, tick_time: int) -> Fields:
    fates = [fate_fields(fate, tick_time) for fate in part.case.fates]
    return {"nodes": names_of(part.nodes), "applications": fates, "may_hang": names_of(part.case.may_hang)}
