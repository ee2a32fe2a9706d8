"""The answers of `rolling`, `load` and `what-if --then` as JSON, in the form described in docs/FORMATS.md."""

from __future__ import annotations

from typing import Iterable

from distac_view.answering.changes import Answer, Change, Changes
from distac_view.answering.load import Load, Row
from distac_view.answering.notes import Failure, Note
from distac_view.answering.rolling import Move, Rolling, Step
from distac_view.answering.settings import Differing
from distac_view.asking.cluster import Waiter
from distac_view.common.names import bare_name
from distac_view.showing.json_answers import Fields, json_of, name_or_none, names_of, notes_fields, sums_of


def rolling_answer(rolling: Rolling, failures: Iterable[Failure], notes: Iterable[Note]) -> str:
    fields: Fields = {
        "order": names_of(rolling.order),
        **{name: getattr(rolling, name) for name in ("moves", "waits", "restarts", "compared", "worst", "takes")},
        "gathered": sums_of(rolling.configuration),
        "steps": [step_fields(step) for step in rolling.steps],
        "failed": failed_fields(failures),
    }
    return json_of("rolling", fields, notes)


def failed_fields(failures: Iterable[Failure]) -> list[Fields]:
    return [{"what": failure.what, "text": failure.text} for failure in failures]


def step_fields(step: Step) -> Fields:
    """The fields of a step."""
    moves = {name: [move_fields(move) for move in getattr(step, name)] for name in ("drained", "down", "back")}
    waiters = [waiter_fields(waiter) for waiter in step.waiters]
    names = {name: names_of(getattr(step, name)) for name in ("nowhere", "waiting", "may_hang")}
    return {"node": bare_name(step.node), **moves, **names, "barred": waiters}


def move_fields(move: Move) -> Fields:
    places: Fields = {"application": bare_name(move.app), "from": name_or_none(move.source), "to": bare_name(move.node)}
    return {**places, "how": move.how, "milliseconds": move.milliseconds}


def waiter_fields(waiter: Waiter) -> Fields:
    """The fields of a node that waits at its start gate."""
    return {"node": bare_name(waiter.node), "mandatory": names_of(waiter.mandatory), "optional": names_of(waiter.optional)}


def load_answer(load: Load, failures: Iterable[Failure], notes: Iterable[Note]) -> str:
    rows = [row_fields(row) for row in (load.start, *load.rows)]
    fields: Fields = {"nodes": names_of(load.configuration.nodes), "nowhere": names_of(load.nowhere), "losses": rows}
    return json_of("load", {**fields, "gathered": sums_of(load.configuration), "failed": failed_fields(failures)}, notes)


def row_fields(row: Row) -> Fields:
    """The fields of a loss."""
    counts = [{"node": bare_name(node), "applications": count} for node, count in row.counts.items()]
    names = {name: names_of(getattr(row, name)) for name in ("lost", "last", "may_hang")}
    return {"down": names_of(row.down), "load": counts, **names}


def changes_answer(changes: Changes, failures: Iterable[Failure], notes: Iterable[Note]) -> str:
    fields: Fields = {"compared": changes.compared, "changes": [change_fields(change) for change in changes.changes]}
    fields["applications_added"], fields["applications_gone"] = map(names_of, changes.apps)
    fields["nodes_added"], fields["nodes_gone"] = map(names_of, changes.nodes)
    fields["settings"] = [setting_fields(setting) for setting in changes.settings]
    fields["notes_added"], fields["notes_gone"] = map(notes_fields, changes.notes)
    fields["gathered_old"], fields["gathered_new"] = (sums_of(reply.configuration) for reply in (changes.old, changes.new))
    fields["failed"] = failed_fields(failures)
    return json_of("then", fields, notes)


def change_fields(change: Change) -> Fields:
    answers: Fields = {"old": place_fields(change.old), "new": place_fields(change.new)}
    return {"application": bare_name(change.app), "down": names_of(change.down), **answers}


def place_fields(answer: Answer) -> Fields:
    return {
        "node": name_or_none(answer.place),
        "milliseconds": answer.milliseconds,
        "longest_outage": answer.longest_outage,
        "back": name_or_none(answer.back),
        "last": answer.is_alone,
        "waits": answer.waits,
    }


def setting_fields(setting: Differing) -> Fields:
    return {"setting": setting.name, "application": name_or_none(setting.app), "old": setting.old, "new": setting.new}
