"""Notes below an answer to a what-if question: nodes waiting at a start gate, and possible differences from OTP."""

from __future__ import annotations

from typing import Iterable, Iterator

from distac_view.answering.hangs import hang_notes
from distac_view.answering.notes import Note
from distac_view.answering.outages import notice_range, seconds_of
from distac_view.answering.what_if import Fate, Reply, nowhere_at_first
from distac_view.asking.cluster import Waiter
from distac_view.asking.failing import Failed
from distac_view.asking.openings import Side
from distac_view.asking.snapshots import bare_marks, marks_in
from distac_view.common.names import bare_name, bare_names
from distac_view.common.texts import listed, shown
from distac_view.reading.configuration import Configuration

MOST_NAMED = 8
TEXTS = {
    "FirstTick": "Each node counts the wait by itself, from when it heard of the loss.",
    "TupleLoad": "In a tuple the node with fewer of these applications is chosen, then the least name. "
    "OTP counts all that run.",
    "StartedAtOnce": "Now: applications were started in the order of the file. "
    "A release may have another order: --now says where each runs.",
    "StartedAgain": "Back: the node is up and everything of its list is started there again: "
    "a start isn't remembered over a reboot.",
    "StopMoves": "A stopped application fails over with its node. "
    "In OTP it stays stopped; here, stop it at every node.",
    "NoSplit": "These nodes are down. "
    "Were they cut off alone, both sides might run an application: --split says what.",
}


def notes_on(reply: Reply) -> list[Note]:
    """All notes, without repeated sentences."""
    found = [*opening_notes(reply), *gate_notes(reply), *time_notes(reply), *otp_notes(reply)]
    return list(dict.fromkeys(found))


def below(notes: Iterable[Note]) -> Iterator[str]:
    """Notes in the form below an answer."""
    lines = [f"- {note.text}" for note in notes]
    yield from ["", *lines] if lines else []


def opening_notes(reply: Reply) -> Iterator[Note]:
    """Notes on the beginning: the sides of a split, and nodes that can't act."""
    sides = [answers.side for answers in reply.sides]
    if len(sides) > 1:
        parts = "; ".join(listed(bare_names(side.members)) for side in sides)
        text = f"--after ends in a split: {parts}. Each side is asked by itself, and both may run an application."
        yield Note("EndsInSplit", shown(text))
    for side in sides:
        yield from start_notes(side, bool(reply.question.now))


def start_notes(side: Side, is_now: bool) -> list[Note]:
    """Notes on a start: applications that run nowhere, nodes that can't act, and applications that move at once or
    whose place is guessed."""
    guessed = [Note("StartedAtOnce", TEXTS["StartedAtOnce"])] if side.is_guessed else []
    return [*nowhere_notes(side), *side_notes(side), *(now_notes(side) if is_now else ()), *guessed]


def nowhere_notes(side: Side) -> Iterator[Note]:
    """Applications that run nowhere before any node goes down, and why."""
    for held in nowhere_at_first(side):
        yield Note("RunsNowhere", shown(f"{bare_name(held.app)} runs nowhere before any loss: {bare_marks(held.marks) or 'no node is up'}"))


def now_notes(side: Side) -> Iterator[Note]:
    """Applications that distac moves at once from their present node, and those that run nowhere."""
    for held in side.page.held.values():
        if held.verdict == "takeover":
            app, at, holder = bare_names((held.app, str(held.at), str(held.holder)))
            text = f"Here {at} takes over {app} at once: OTP leaves it at {holder} until {at} starts it."
            yield Note("MovesAtOnce", shown(text))
    unused = side.cluster.unused
    if unused:
        text = f"By --now {few_of(unused)} {'runs' if len(unused) == 1 else 'run'} nowhere"
        yield Note("NotRunning", shown(f"{text}. A node that comes back starts it if it is the first of its list that is up, and else waits for that one without end."))
    lost = [held.app for held in nowhere_at_first(side) if held.app not in unused]
    if lost:
        yield Note("LostWithNodes", shown(f"No node that is up can run {few_of(lost)}: one that comes back starts it."))


def side_notes(side: Side) -> Iterator[Note]:
    """Nodes of a side that can't act."""
    for node in side.said_down:
        yield Note("SaidDown", shown(f"{bare_name(node)} runs and was said to be down: it does nothing until it has booted again."))
    for waiter in side.cluster.ended:
        yield Note("GaveUp", shown(f"{bare_name(waiter.node)} is down: it waited {wait_of(waiter, side.cluster.configuration)}, and ended."))
    for waiter in side.cluster.waiting:
        yield Note("WaitsOn", shown(f"{bare_name(waiter.node)} does nothing yet: it waits {wait_of(waiter, side.cluster.configuration)}."))


def gate_notes(reply: Reply) -> Iterator[Note]:
    """Nodes that can't come back, or that still wait when all others are at rest."""
    for case in reply.cases:
        for waiter in case.waiters:
            wait = wait_of(waiter, reply.configuration)
            if waiter.gave_up:
                yield Note("CannotComeBack", shown(f"{bare_name(waiter.node)} can't come back: it waits {wait}, and ends."))
            else:
                yield Note("WaitsOn", shown(f"{bare_name(waiter.node)} does nothing when it is back: it waits {wait}."))


def wait_of(waiter: Waiter, configuration: Configuration) -> str:
    """How long a node waits at its start gate, and for which nodes."""
    time = configuration.sync_timeout
    groups = [(waiter.mandatory, "mandatory"), ([] if waiter.gave_up else waiter.optional, "optional")]
    names = ", and ".join(f"{listed(bare_names(nodes))}, {kind}" for nodes, kind in groups if nodes)
    return f"without end for {names}" if time == "infinity" else f"{time} ms for {names}"


def time_notes(reply: Reply) -> Iterator[Note]:
    """The start of the table's times."""
    lost = [fate for case in reply.cases for fate in case.fates if fate.how == "failover" and fate.milliseconds is not None]
    if lost:
        least, most = (seconds_of(each) for each in notice_range(reply.tick_time))
        text = "Outage: the wait, and before it the noticing. A node that ends is noticed at once"
        takes = reply.question.takes
        ends = "" if takes is None else f" It ends at the latest when its node is back, after {seconds_of(takes)} s."
        frozen = "One that only froze runs on once it thaws, as after a split: --split says what."
        yield Note("Outage", f"{text}, a host that dies without a word after {least} to {most} s (net_ticktime {reply.tick_time}).{ends} {frozen}")
    if any(fate.milliseconds for fate in lost):
        yield Note("FirstTick", TEXTS["FirstTick"])


def otp_notes(reply: Reply) -> Iterator[Note]:
    """Relevant differences from OTP."""
    fates = [fate for case in reply.cases for fate in case.fates]
    yield from failure_notes(reply)
    yield from hang_notes((case.down, case.may_hang) for case in reply.cases)
    yield from idle_notes(fates)
    if any(is_in_tuple(reply.configuration, fate) for fate in fates):
        yield Note("TupleLoad", TEXTS["TupleLoad"])
    if any(fate.back != fate.then for fate in fates):
        yield Note("StartedAgain", TEXTS["StartedAgain"])
    if any(fate.was_stopped and fate.how == "failover" for fate in fates):
        yield Note("StopMoves", TEXTS["StopMoves"])
    if any(len(case.down) > 1 for case in reply.cases):
        yield Note("NoSplit", TEXTS["NoSplit"])


def failure_notes(reply: Reply) -> Iterator[Note]:
    """Starts that fail, and named ones that no case tries."""
    failed = [each for case in reply.cases for each in case.failed]
    for each in failed:
        yield Note("StartFails", shown(sentence_on(each)))
    tried = [(each.failing.app, each.failing.node) for each in failed if each.waits_for is None]
    for failing in reply.failing:
        if (failing.app, failing.node) not in tried:
            yield Note("NeverTried", shown(f"No loss and no return here starts {bare_name(failing.app)} at {bare_name(failing.node)}: that failure isn't seen."))


def sentence_on(failed: Failed) -> str:
    """What a start that fails does with OTP 25."""
    app, node = bare_name(failed.failing.app), bare_name(failed.failing.node)
    if failed.waits_for is not None:
        return f"{node} waits for {bare_name(failed.waits_for)}, where {app} failed, to start it: without end, so it starts nothing after {app} either."
    takes_over = ", for which another node has stopped it" if failed.how == "takeover" else ""
    ends = f"{node} ends, since {app} is permanent" if failed.failing.ends else f"{node} stays up"
    return f"{app} fails to start at {node}{takes_over}: OTP tries no other node, so {app} runs nowhere, and {ends}."


def idle_notes(fates: list[Fate]) -> Iterator[Note]:
    """Applications that go elsewhere although a node of their list is up, because it hasn't started them."""
    found: dict[str, list[str]] = {}
    for fate in fates:
        if fate.how not in ("stays", "nobody"):
            idle = [node for node, mark in marks_in(fate.marks) if mark == "idle"]
            found.setdefault(fate.app, []).extend(node for node in idle if node not in found.get(fate.app, []))
    for app, nodes in found.items():
        if nodes:
            text = f"{bare_name(app)} isn't started at {few_of(nodes)}: OTP waits for {few_of(nodes)} to start it, without end: it runs nowhere."
            yield Note("NotStarted", shown(text))


def few_of(names: list[str]) -> str:
    """Some names in a sentence, or the first of many."""
    more, names = len(names) - MOST_NAMED, bare_names(names)
    return listed(names if more <= 0 else [*names[:MOST_NAMED], f"{more} more"])


def is_in_tuple(configuration: Configuration, fate: Fate) -> bool:
    """Whether an application moved to a node of a tuple."""
    application = next(each for each in configuration.applications if each.name == fate.app)
    return fate.milliseconds is not None and any(fate.then in group and len(group) > 1 for group in application.groups)
