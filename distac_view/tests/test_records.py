"""Recorded runs: the model refuses a wrong one, and the program prints none."""

from __future__ import annotations

import subprocess
import unittest
from collections.abc import Callable
from pathlib import Path

from support import EXAMPLES, IS_STAND_IN, PROGRAM, distac
from recorded import by_outcome, by_races, fault_of_record
from schedules import Record
from distac_view.asking.races import Race, load_race

RACES = ("race.live", "two-operators.live")
RUNS = 20
EACH_EVENT = EXAMPLES / "rows" / "record" / "each-event.distac"


def record_of(race: Race, number: int = 1, last: "int | None" = None) -> bytes:
    """The record of a schedule's run, or of its first phases."""
    run = [run for _, run in zip(range(number), race.runs(1))][-1]
    return Record(race.config, race.checked.canonical.encode(), race.phases[:last], run.phases[:last]).text


def event_lines(text: bytes) -> "tuple[bytes, list[bytes]]":
    """A record up to the first phase's number before its events, and the lines from there on."""
    head, mark, rest = text.partition(b"\n% weave ok\n")
    return head + mark, rest.split(b"\n")


def edited(text: bytes, change: Callable[[list[bytes]], object]) -> bytes:
    """A record with changed lines after the output of `distac live`."""
    head, lines = event_lines(text)
    change(lines)
    return head + b"\n".join(lines)


def moved(line: bytes, to: bytes, after: int = 0) -> Callable[[list[bytes]], object]:
    """Moves the last such line to another one, or some lines after it."""

    def change(lines: list[bytes]) -> None:
        lines.pop(len(lines) - 1 - lines[::-1].index(line))
        lines.insert(lines.index(to) + after, line)

    return change


def dropped(line: bytes) -> Callable[[list[bytes]], object]:
    return lambda lines: lines.remove(line)


def put(line: bytes, before: bytes) -> Callable[[list[bytes]], object]:
    return lambda lines: lines.insert(lines.index(before), line)


def replaced(line: bytes, by: bytes) -> Callable[[list[bytes]], object]:
    def change(lines: list[bytes]) -> None:
        lines[lines.index(line)] = by

    return change


def swapped(one: bytes, other: bytes) -> Callable[[list[bytes]], object]:
    def change(lines: list[bytes]) -> None:
        places = lines.index(one), lines.index(other)
        lines[places[0]], lines[places[1]] = other, one

    return change


# Changes of examples/race-kept.distac, and a part of the sentence on each.
WRONG: "tuple[tuple[Callable[[list[bytes]], object], str], ...]" = (
    (dropped(b"% phase 1"), "precedes the first phase"),
    (dropped(b"% phase 2"), "follows phase 1"),
    (swapped(b"% phase 2", b"% phase 3"), "follows phase 1"),
    (put(b"% phase 5", b"page east@h"), "5 of 4 phases"),
    (moved(b"% phase 2", b"% caller 1"), "in phase 1 links shipped"),
    (moved(b"% phase 2", b"% phase 3"), "in phase 1 links shipped"),
    # a hearing one phase later, and a ship one phase earlier
    (moved(b"hear east@h 2", b"% phase 2", 1), "in phase 1 there were heard"),
    (moved(b"ship main@h east@h", b"% phase 4"), "in phase 3 links shipped"),
    (replaced(b"hear main@h 4", b"hear main@h 3"), "in phase 2 there were heard"),
    (swapped(b"hear main@h 4", b"hear main@h 5"), "in phase 2 there were heard"),
    (dropped(b"hear main@h 6"), "in phase 2 there were heard"),
    (moved(b"hear main@h 1", b"% phase 1", 1), "no message"),
    (dropped(b"% caller 3"), "has the wrong caller"),
    (replaced(b"% caller 3", b"% caller 2"), "caller 2 of b'main@h' has other lines"),
    (replaced(b"% caller 3", b"% caller 5"), "follows phase 2"),
    (put(b"% caller 1", b"hear main@h 1"), "has the wrong caller"),
    (put(b"% caller 2", b"% caller 3"), "parts an event from its caller"),
    (put(b"% caller 1", b"page east@h"), "no event follows the last caller"),
    (put(b"% a comment", b"% phase 3"), "follows phase 2"),
    (put(b"", b"% phase 3"), "an empty line stands in phase 2"),
    (replaced(b"boot main@h 0", b"boot  main@h 0"), "is spelled otherwise"),
    (dropped(b"page east@h"), "aren't the page of each node"),
    (swapped(b"page east@h", b"page main@h"), "aren't the page of each node"),
    (put(b"page main@h", b"% phase 3"), "has the wrong caller"),
)


class Model(unittest.TestCase):
    """The properties of recorded runs."""

    def test_right_records(self) -> None:
        source, kept = (EXAMPLES / "race.live").read_bytes(), (EXAMPLES / "race-kept.distac").read_bytes()
        self.assertIsNone(fault_of_record(by_races, source, kept, 0))
        self.assertIsNone(fault_of_record(by_outcome, EACH_EVENT.read_bytes(), EACH_EVENT.with_suffix(".out").read_bytes(), 0))

    def test_wrong_records(self) -> None:
        source, kept = (EXAMPLES / "race.live").read_bytes(), (EXAMPLES / "race-kept.distac").read_bytes()
        for number, (change, sentence) in enumerate(WRONG):
            self.assertIn(sentence, fault_of_record(by_races, source, edited(kept, change), 0) or "accepted", number)

    def test_events_of_another_phase(self) -> None:
        source, output = EACH_EVENT.read_bytes(), EACH_EVENT.with_suffix(".out").read_bytes()
        for mark, change in ((b"% phase 2", 2), (b"% phase 3", -2)):
            text = edited(output, lambda lines: lines.insert(lines.index(mark) + change, lines.pop(lines.index(mark))))
            self.assertIn("caller 1 of b'b@h' has other lines", fault_of_record(by_outcome, source, text, 0) or "accepted")

    def test_names_outside_of_the_configuration(self) -> None:
        source, output = EACH_EVENT.read_bytes(), EACH_EVENT.with_suffix(".out").read_bytes()
        text = edited(output, replaced(b"down b@h unknown", b"down b@h nobody"))
        self.assertIn("is spelled otherwise", fault_of_record(by_outcome, source, text, 0) or "accepted")

    def test_records_of_schedules(self) -> None:
        for name in RACES:
            race, phases = load_race(distac(), str(EXAMPLES / name)), (EXAMPLES / name).read_text().split("phase\n")
            for number in range(1, 7):
                for last in range(1, len(phases) + 1):
                    source = "phase\n".join(phases[:last]).encode()
                    self.assertIsNone(fault_of_record(by_races, source, record_of(race, number, last), 0))

    def test_no_message_is_heard_twice(self) -> None:
        for name in RACES:
            lines = record_of(load_race(distac(), str(EXAMPLES / name))).split(b"\n")
            heard = [line for line in lines if line.startswith(b"hear ")]
            self.assertEqual(len(heard), len(set(heard)))


@unittest.skipIf(IS_STAND_IN, "the models aren't the program")
class Program(unittest.TestCase):
    def test_runs_in_threads(self) -> None:
        for name in RACES:
            source = Path(EXAMPLES, name).read_bytes()
            for _ in range(RUNS):
                done = subprocess.run([PROGRAM, "record"], input=source, capture_output=True, check=False)
                self.assertIsNone(fault_of_record(by_races, source, done.stdout, done.returncode))
