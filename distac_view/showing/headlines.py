"""The first sentences of an answer: what runs nowhere or twice, the longest outage, and where OTP may hang."""

from typing import Iterator, List

from distac_view.answering.caveats import few_of
from distac_view.answering.outages import seconds_of
from distac_view.answering.rolling import Rolling, Step
from distac_view.answering.split import SplitReply
from distac_view.answering.what_if import Fate, Reply
from distac_view.common.names import bare_name
from distac_view.common.texts import shown

UNTIL = " until its node is back"


def what_if_headlines(reply: Reply) -> Iterator[str]:
    """The sentences of `what-if`."""
    cases = reply.cases
    lost = sum(any(map(is_lost, case.fates)) for case in cases)
    outages = [fate.longest_outage(reply.tick_time, reply.question.takes) or 0 for case in cases for fate in case.fates]
    yield worst_of("loss", "losses", lost, len(cases), outages, UNTIL if reply.question.takes else "")
    yield from hang_line("In", sum(bool(case.may_hang) for case in cases), len(cases), "loss", "losses")


def is_lost(fate: Fate) -> bool:
    """Whether an application that ran before runs nowhere, and doesn't only wait for its node, or its start fails."""
    return fate.now is not None and ((fate.then is None and not fate.waits) or fate.failed is not None)


def rolling_headlines(rolling: Rolling) -> Iterator[str]:
    steps = rolling.steps
    for step in steps:
        if step.waiters:
            yield shown(f"The restart can't go on after {bare_name(step.node)}, which doesn't come back.")
    outages = [outage for step in steps for outage in outages_of(step, rolling.takes or 0)]
    yield worst_of("step", "steps", sum(bool(step.nowhere) for step in steps), len(steps), outages, UNTIL)
    yield from hang_line("In", len(rolling.hanging), len(steps), "step", "steps")


def outages_of(step: Step, takes: int) -> Iterator[int]:
    """The milliseconds for which applications are down in a step, without those that run nowhere."""
    yield from (move.milliseconds for move in step.down if move.how == "failover")
    yield from (takes + move.milliseconds for move in step.back if move.app in step.waiting)
    yield from (takes for _ in step.resumed)


def split_headlines(reply: SplitReply) -> Iterator[str]:
    twice, count = [each.app for each in reply.twice], len(reply.healed)
    if twice:
        yield shown(f"{len(twice)} of {count} applications {'runs' if len(twice) == 1 else 'run'} more than once while the split lasts: {few_of(twice)}.")
    else:
        yield "No application runs more than once while the split lasts."
    yield from hang_line("On", sum(bool(part.case.may_hang) for part in reply.parts), len(reply.parts), "side", "sides")


def worst_of(one: str, many: str, lost: int, count: int, outages: List[int], end: str = "") -> str:
    """The losses or steps that leave an application nowhere, and the longest outage of the others."""
    longest = max(outages, default=0)
    some = f"The {one}" if count == 1 else f"{lost} of {count} {many}"
    leaves = "leaves" if lost == 1 else "leave"
    none = "No application is left nowhere" if count == 1 else f"No {one} leaves an application nowhere"
    first = f"{some} {leaves} an application nowhere{end}" if lost else none
    second = f"; {'otherwise ' if lost else ''}the longest outage is {seconds_of(longest)} s" if longest else ""
    return f"{first}{second}."


def hang_line(where: str, hanging: int, count: int, one: str, many: str) -> Iterator[str]:
    """The number of losses, steps or sides in which OTP may hang, if there are any."""
    if hanging:
        yield f"{where} {f'the {one}' if count == 1 else f'{hanging} of {count} {many}'} OTP may hang: see the notes."
