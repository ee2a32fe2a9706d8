"""The answer of `rolling`: the order, each step with its moves, and obstacles."""

from __future__ import annotations

from typing import Iterator

from distac_view.answering.caveats import few_of, wait_of
from distac_view.answering.notes import Failure, Note
from distac_view.answering.rolling import Move, Rolling, Step
from distac_view.common.names import Short, bare_name
from distac_view.common.texts import listed, shown
from distac_view.reading.configuration import Configuration
from distac_view.showing.headlines import rolling_headlines
from distac_view.showing.print_what_if import lasting


def lines_of(rolling: Rolling) -> Iterator[str]:
    """The headlines, the order with its cost, and its steps."""
    short = rolling.configuration.short
    yield from rolling_headlines(rolling)
    yield from short.lines
    yield shown(f"order {order_of(rolling)}: {cost_of(rolling)}")
    for number, step in enumerate(rolling.steps, 1):
        parts = "; ".join(f"{when}: {listed(what)}" for when, what in parts_of(step, rolling))
        yield shown(f"{number} {short.one(step.node)}: {parts}")
        yield from (f"  fault: {sentence}" for sentence in barred_by(step, rolling.configuration))


def order_of(rolling: Rolling) -> str:
    """The nodes in the order of their restarts."""
    return " > ".join(rolling.configuration.short.each(rolling.order))


def cost_of(rolling: Rolling) -> str:
    """The cost of an order, the duration of restarts, and how the order was found."""
    lasts = f"restarts of {rolling.takes} ms" if rolling.takes is not None else f"restarts {lasting(None, rolling.configuration)}"
    waits = f"{rolling.waits} ms of waits" + (f" and {rolling.restarts} ms down with their nodes" if rolling.restarts else "")
    return f"{counted(rolling.moves, 'move')}, {waits}, {lasts}{found_how(rolling)}"


def barred_by(step: Step, configuration: Configuration) -> Iterator[str]:
    """The nodes that can't come back, and the nodes that they wait for."""
    for waiter in step.waiters:
        wait = wait_of(waiter, configuration)
        yield shown(f"{bare_name(waiter.node)} can't come back: it waits {wait}, and ends. The restart can't go on.")


def drain_notes(drains: bool) -> Iterator[Note]:
    """The equivalent of a drain in OTP."""
    if drains:
        text = "OTP has no drain: there it is permit(Application, false) at the node, for each application, before the restart."
        yield Note("NoDrain", text)


def hang_faults(rolling: Rolling, fail_on: list[str]) -> Iterator[Failure]:
    """Violations of `--fail-on`."""
    if "hang" in fail_on and rolling.hanging:
        count, first = len(rolling.hanging), bare_name(rolling.hanging[0].node)
        yield Failure("hang", shown(f"OTP may hang in {count} of {counted(len(rolling.steps), 'step')}, first {first}"))


def found_how(rolling: Rolling) -> str:
    if rolling.is_given:
        return ""
    if rolling.worst is None:
        return " (the node with the fewest applications goes next: another order may be better)"
    return f" (best of {rolling.compared} orders, the worst has {counted(rolling.worst or 0, 'move')})" if rolling.compared > 1 else ""


def parts_of(step: Step, rolling: Rolling) -> Iterator[tuple[str, list[str]]]:
    """The events of a step, with their causes. An application that waits runs nowhere meanwhile."""
    short = rolling.configuration.short
    if step.drained:
        yield "drained", [target_of(move, short) for move in step.drained]
    yield "down", [*(moved(move, short) for move in step.down), *(f"{bare_name(app)} waits" for app in step.waiting)] or ["nothing moves"]
    if step.may_hang:
        yield "OTP may hang", [few_of(step.may_hang)]
    if step.nowhere:
        yield "runs nowhere meanwhile", [few_of(step.nowhere)]
    resumed = (f"{bare_name(app)} starts again after {rolling.takes} ms" for app in step.resumed)
    yield "back", [*(moved(move, short) for move in step.back), *resumed] or ["nothing moves"]


def moved(move: Move, short: Short) -> str:
    """A move with its cause, and with the wait of a failover."""
    return f"{target_of(move, short)} after {move.milliseconds} ms" if move.how == "failover" else f"{target_of(move, short)} ({move.how})"


def target_of(move: Move, short: Short) -> str:
    """The destination of an application."""
    return f"{bare_name(move.app)} -> {short.one(move.node)}"


def counted(count: int, noun: str) -> str:
    return f"{count} {noun}" if count == 1 else f"{count} {noun}s"
