#!/usr/bin/env python3
"""Properties of every output of `distac record`: a run of a live script, as a script of `distac sim`.

- The configuration is the live script's, in its canonical text.
- The first comments are the output of `distac live` for such a run: for a racing script with the properties of racing.py, and
  for one with one outcome by live.py.
- They are followed by `% phase P` for each phase, with its events, and by `page NODE` for each node in name order.
- `% caller C` precedes each event of a caller, and no other.
- In each phase each link ships five times, and the messages of these ships are heard in the same phase, in order, each once
  and after its ship.
- In each phase the events of a caller are its lines in order, each answered as in the first comments.
- The pages that the simulator's model prints at the end are those of these comments.

If a node's name has a space, no line can name the node, and only that fault's line is printed.

Usage: python3 recorded.py LIVE-SCRIPT < RECORDED
"""

from __future__ import annotations

import sys
from collections import Counter, defaultdict
from dataclasses import dataclass
from typing import Callable, Dict, List, Optional, Tuple

import live
import racing
from check import Config, Fault, spelled
from live import CALLERS, READ, LiveReader, Phase, Run, phases_of
from racing import OK, Broken, demand
from schedules import CALLER_MARK, COMMENT, PHASE_MARK, line_of
from simulator import InputFault, Line, LineReader, Player, ScriptFault, Value, parted, read_input

SHIP, HEAR, PAGE = b"ship", b"hear", b"page"
SHIPS_OF_PHASE = 5
LAST_OF_OUTPUT = b"\n% weave ok\n"
CALLER_MARKS = {CALLER_MARK % int(caller): int(caller) for caller in CALLERS}
UNSPELLED = (b"record fault 2 Unspelled\n", 1)
# A caller's line with its answer.
Told = Tuple[bytes, Tuple[Value, ...], bytes]
# The lines of each caller of each node, without reads.
Rows = Dict[Tuple[int, int], List[Told]]
# Of a live script and the comments: what is wrong, or nothing.
Judge = Callable[[bytes, bytes], Optional[str]]


@dataclass(frozen=True)
class Event:
    """An event with its answer, and the caller that a comment names, or 0."""

    line: Line
    caller: int
    answer: bytes


def is_pages_line(line: bytes) -> bool:
    """Whether a comment isn't about a phase."""
    return line.startswith((b"node ", b"heard ", b"app ", b"list"))


def printed_in(comments: bytes) -> bytes:
    """The output that comments contain."""
    lines = comments.split(b"\n")[:-1]
    demand(all(line.startswith(COMMENT) for line in lines), "an event precedes the output of distac live")
    return b"".join(line[len(COMMENT) :] + b"\n" for line in lines)


def told_in(printed: bytes, phases: List[Phase], config: Config) -> List[Rows]:
    """The lines of each phase with their answers."""
    lines = iter(printed.split(b"\n"))
    run = Run(config)
    told: List[Rows] = []
    for phase in phases:
        next(lines)
        rows: Rows = defaultdict(list)
        for asked in sorted(phase.asked, key=lambda it: (it.node, it.caller)):
            answer = next(lines)[len(run.named(asked)) :]
            if asked.word != READ:
                rows[asked.node, asked.caller].append((asked.word, asked.values, answer))
        for _ in phase.feeds:
            next(lines)
        told.append(rows)
    return told


def events_in(script: bytes, reader: LineReader, player: Player) -> List[List[Event]]:
    """The events of each phase, played."""
    phases: List[List[Event]] = []
    caller = 0
    for number, text in enumerate(script.split(b"\n")[:-1], 1):
        demand(bool(phases) or text == PHASE_MARK % 1, f"{text!r} precedes the first phase")
        if text in CALLER_MARKS or text.startswith(b"%"):
            demand(not caller, f"{text!r} parts an event from its caller")
        if text in CALLER_MARKS:
            caller = CALLER_MARKS[text]
        elif text.startswith(b"%"):
            demand(text == PHASE_MARK % (len(phases) + 1), f"{text!r} follows phase {len(phases)}")
            phases.append([])
        else:
            demand(bool(text), f"an empty line stands in phase {len(phases)}")
            line = reader.read(text, number)
            demand(text == line_of(player.world.config, line.word, line.values), f"{text!r} is spelled otherwise")
            phases[-1].append(Event(line, caller, answer_of(player.play(line))))
            caller = 0
    demand(not caller, "no event follows the last caller")
    return phases


def demand_callers(config: Config, number: int, events: List[Event], told: Rows) -> None:
    """Demands that the events of a phase are the lines of its callers, besides ships and hearings."""
    rows: Rows = defaultdict(list)
    for event in events:
        demand(bool(event.caller) == (event.line.word not in (SHIP, HEAR)), f"{event} has the wrong caller")
        if event.caller:
            rows[int(event.line.values[0]), event.caller].append((event.line.word, event.line.values, event.answer))
    for node, caller in {**told, **rows}:
        why = f"caller {caller} of {config.nodes[node]!r} has other lines or answers in phase {number}"
        demand(rows[node, caller] == told[node, caller], why)


def demand_links(config: Config, phases: List[List[Event]]) -> None:
    """Demands that in each phase each link ships as often as it must, and its messages are heard in order, each once."""
    nodes = range(len(config.nodes))
    wanted = {(a, b): SHIPS_OF_PHASE for a in nodes for b in nodes if a != b}
    links: list[tuple[Value, ...]] = []
    for number, events in enumerate(phases, 1):
        ships = Counter(event.line.values for event in events if event.line.word == SHIP)
        demand(dict(ships) == wanted, f"in phase {number} links shipped {dict(ships)}")
        sent: Dict[tuple[Value, ...], List[int]] = defaultdict(list)
        heard: Dict[tuple[Value, ...], List[int]] = defaultdict(list)
        for event in events:
            line = event.line
            demand(not event.answer.startswith(b"no "), f"{line} was answered {event.answer!r}")
            if line.word == SHIP and event.answer == OK:
                links.append(line.values)
                sent[line.values].append(len(links))
            elif line.word == HEAR:
                message = int(line.values[1])
                link = links[message - 1]
                demand(link[1] == line.values[0], f"{line} isn't of a link to that node")
                heard[link].append(message)
        demand(heard == sent, f"of {dict(sent)} in phase {number} there were heard {dict(heard)}")


def answer_of(said: List[bytes]) -> bytes:
    """The answer to a line with this output."""
    return said[0] if said[0].startswith((b"refused ", b"no ")) else OK


def demand_all(source: bytes, output: bytes, judge: Judge) -> None:
    config, asked = read_input(source, LiveReader)
    phases = phases_of(asked)
    try:
        found, lines = read_input(output, LineReader)
    except (Fault, InputFault, ScriptFault) as fault:
        raise Broken(f"the output is no script: {fault!r}") from fault
    parts = parted(output)
    demand(found == config and parts is not None and parts[0] == config.canonical_text, "the configuration is another one")
    comments, last, script = (parts[1] if parts else b"").partition(LAST_OF_OUTPUT)
    printed = printed_in(comments + last)
    wrong = judge(source, printed)
    demand(wrong is None, f"the comments: {wrong}")
    ends = b"".join(PAGE + b" " + spelled(name) + b"\n" for name in config.nodes)
    demand(script.endswith(ends), "the last lines aren't the page of each node")
    player = Player(config)
    played = events_in(script[: len(script) - len(ends)], LineReader(config), player)
    demand(len(played) == len(phases), f"{len(played)} of {len(phases)} phases stand there")
    demand_links(config, played)
    for number, (events, told) in enumerate(zip(played, told_in(printed, phases, config)), 1):
        demand_callers(config, number, events, told)
    shown = [text for line in lines[len(lines) - len(config.nodes) :] for text in player.play(line)]
    behind = printed.split(b"\n")
    last_lines = behind[len(behind) - len(shown) - 3 : len(behind) - 3]
    demand(shown == last_lines and all(map(is_pages_line, last_lines)), "the pages are others")


def by_races(source: bytes, printed: bytes) -> str | None:
    """The violation in the comments on a racing script."""
    return racing.fault_of_run(source, printed, 0)


def by_outcome(source: bytes, printed: bytes) -> str | None:
    """What is wrong with the comments on a script with one outcome."""
    return None if live.run_live(source) == (printed, 0) else "other ones than the model's"


def fault_of_record(judge: Judge, source: bytes, output: bytes, status: int) -> str | None:
    """The violation in an output, if there is one. A script that isn't run has the line of `distac live`."""
    expected, wanted = live.run_live(source) if judge is by_outcome else (b"", 0)
    if wanted:
        return None if (output, status) == (expected, wanted) else "the line of a fault is another one"
    if any(b" " in node for node in read_input(source, LiveReader)[0].nodes):
        return None if (output, status) == UNSPELLED else "a node that no line can name is named"
    try:
        demand(status == 0, f"the status is {status}")
        demand_all(source, output, judge)
    except Broken as broken:
        return str(broken)
    return None


def main() -> int:
    """Judges standard input as a run of a racing script."""
    with open(sys.argv[1], "rb") as file:
        wrong = fault_of_record(by_races, file.read(), sys.stdin.buffer.read(), 0)
    if wrong is not None:
        print(wrong)
    return 1 if wrong else 0


if __name__ == "__main__":
    sys.exit(main())
