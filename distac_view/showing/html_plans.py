"""The answers of `what-if`, `rolling` and `load` as pages, to be printed or kept with a change."""

from __future__ import annotations

from dataclasses import dataclass, field
from typing import Iterable, List

from distac_view.answering.changes import Changes
from distac_view.answering.load import Load
from distac_view.answering.notes import Failure, Note
from distac_view.answering.rolling import Rolling, Step
from distac_view.answering.split import SplitReply
from distac_view.answering.what_if import Answers, Reply
from distac_view.common.names import bare_names
from distac_view.common.texts import listed
from distac_view.showing.headlines import rolling_headlines, split_headlines, what_if_headlines
from distac_view.showing.html_elements import Cells, Table, bullets, paragraphs, section, text_in, wrapped
from distac_view.showing.html_frame import page_of
from distac_view.showing.html_matrix import STYLE, glance, losses_of, sides_of, steps_of
from distac_view.showing.print_changes import alone_lines, change_rows, count_line, setting_row
from distac_view.showing.print_load import is_wide, last_lines, left_lines, narrow_rows, shown_rows, wide_rows
from distac_view.showing.print_rolling import barred_by, cost_of, order_of, parts_of
from distac_view.showing.print_split import HEADS as SPLIT_HEADS
from distac_view.showing.print_split import HEALED_HEADS, healed_rows, lasting_line, side_rows
from distac_view.showing.print_what_if import HEADS, lasting, nobody_lines, rows_of_side
from distac_view.showing.provenance import Asked

FATES = "Where each application is now, then, when all waits are over, and once the nodes are back"
LOADS = "Applications at each node"


@dataclass(frozen=True)
class Verdict:
    """The requirements of `--fail-on` for an answer, and its failures."""

    words: list[str] = field(default_factory=list)
    failures: list[Failure] = field(default_factory=list)

    @property
    def section(self) -> str:
        """The part of a page about it, if there were requirements."""
        failed = "".join(f'<p class="no">{text_in(failure.what)}: {text_in(failure.text)}</p>' for failure in self.failures)
        passed = [word for word in self.words if word not in [failure.what for failure in self.failures]]
        return section("Budget", failed + paragraphs([f"{listed(passed)}: nothing found"] if passed else []))


def notes_section(notes: Iterable[Note]) -> str:
    return section("Notes", bullets(note.text for note in notes))


def what_if_page(reply: Reply, notes: Iterable[Note], shows_all: bool, asked: Asked) -> str:
    tables = [side_section(reply, answers, shows_all) for answers in reply.sides]
    nobody = section("Lost", bullets(nobody_lines(reply)))
    lasts = f"Each loss lasts {lasting(reply.question.takes, reply.configuration)}."
    squares = glance(what_if_headlines(reply), [losses_of(answers, reply) for answers in reply.sides], reply.configuration.short)
    parts = [squares, *tables, nobody, notes_section(notes)]
    return page_of(f"Losses of nodes: {asked.files[0].name}", asked, "".join(parts), lasts, STYLE)


def split_page(reply: SplitReply, notes: Iterable[Note], shows_all: bool, asked: Asked) -> str:
    sides: List[Cells] = list(side_rows(reply, shows_all))
    healed: List[Cells] = list(healed_rows(reply, shows_all))
    parts = [
        glance(split_headlines(reply), [sides_of(reply)], reply.configuration.short),
        section("Each side", Table("Each side", SPLIT_HEADS, sides).text),
        section("Healed", Table("Healed", HEALED_HEADS, healed).text),
        notes_section(notes),
    ]
    lasts = lasting_line(reply)
    return page_of(f"Split: {asked.files[0].name}", asked, "".join(parts), f"{lasts[:1].upper()}{lasts[1:]}.", STYLE)


def side_section(reply: Reply, answers: Answers, shows_all: bool) -> str:
    """The table of one side of a split, or of all nodes."""
    heading = f"Side of {listed(bare_names(answers.side.members))}" if len(reply.sides) > 1 else "Each loss"
    rows: List[Cells] = list(rows_of_side(reply, answers, shows_all))
    return section(heading, paragraphs([FATES]) + Table(heading, HEADS, rows).text)


def changes_page(changes: Changes, verdict: Verdict, notes: Iterable[Note], asked: Asked) -> str:
    parts = [
        verdict.section,
        differing("What the files say", ("of", "setting", "old -> new"), map(setting_row, changes.settings)),
        differing("What happens", ("application", "when", "old -> new"), change_rows(changes), changes.short.lines),
        section("In one file alone (- old, + new)", bullets(alone_lines(changes))),
        notes_section(notes),
    ]
    old, new = (file.name for file in asked.files[:2])
    return page_of(f"Change: {old} to {new}", asked, "".join(parts), f"{count_line(changes)}.")


def differing(heading: str, heads: tuple[str, ...], rows: Iterable[tuple[str, ...]], above: Iterable[str] = ()) -> str:
    """The differences, if any: rows of the printed answer without their first signs."""
    unsigned: List[Cells] = [(row[0].partition(" ")[2], *row[1:]) for row in rows]
    return section(heading, paragraphs(above) + Table(heading, heads, unsigned, wraps=True).text if unsigned else "")


def load_page(load: Load, most: int | None, verdict: Verdict, notes: Iterable[Note], asked: Asked) -> str:
    rows = shown_rows(load, most)
    heads, *rest = wide_rows(load, rows) if is_wide(load) else narrow_rows(load, rows)
    cells: List[Cells] = list(rest)
    numbers = range(1, len(heads) - 1) if is_wide(load) else range(1, 2)
    parts = [
        verdict.section,
        section(LOADS, paragraphs(load.configuration.short.lines) + Table(LOADS, heads, cells, numbers).text + paragraphs(left_lines(load, rows))),
        section("One loss from nothing", bullets(last_lines(load))),
        notes_section(notes),
    ]
    return page_of(f"Load: {asked.files[0].name}", asked, "".join(parts))


def rolling_page(rolling: Rolling, verdict: Verdict, notes: Iterable[Note], asked: Asked) -> str:
    steps = "\n".join(step_part(number, step, rolling) for number, step in enumerate(rolling.steps, 1))
    parts = [
        glance(rolling_headlines(rolling), [steps_of(rolling)], rolling.configuration.short),
        section("Order", paragraphs([order_of(rolling), cost_of(rolling)])),
        verdict.section,
        section("Steps", steps),
        notes_section(notes),
    ]
    return page_of(f"Rolling restart: {asked.files[0].name}", asked, "".join(parts), style=STYLE)


def step_part(number: int, step: Step, rolling: Rolling) -> str:
    """A step of a restart: its events, with their causes."""
    pairs = "".join(f"<dt>{when}</dt>{''.join(f'<dd>{wrapped(each)}</dd>' for each in what)}" for when, what in parts_of(step, rolling))
    faults = "".join(f'<p class="no">{text_in(sentence)}</p>' for sentence in barred_by(step, rolling.configuration))
    return f'<div class="step"><h3>{number}. {text_in(rolling.configuration.short.one(step.node))}</h3><dl>{pairs}</dl>{faults}</div>'
