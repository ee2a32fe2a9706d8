#!/usr/bin/env python3
"""Runs the program and the models on the same random inputs, and prints the first difference whole.

Usage: python3 compare.py PROGRAM [--seed S] [--count N] [--scripts M] [--live L] [--racing R] [--recorded D] [--packets P]
       [--still T] [--reboots B] [--keys K] [--jobs J] [--only KIND..]

PROGRAM can be a command of several words in one argument, such as a loader with its arguments. The word `check`, `sim`,
`live` or `record` is appended. A live run that hasn't ended after some minutes is also a difference. Packets are fed to
`sim`, 500 per script. The output of racing live scripts depends on the order of the threads, so only properties of
every run are checked: see racing.py. These scripts and those with one outcome are also recorded: see recorded.py. Long
scripts have many ticks that change nothing, many reboots, or maps of many keys: see random_long.py. All inputs that
checks/fuzz found are played too: see found.py. With --only the kinds not named there, as in `--only count live`, have
no inputs. The last line counts, and says whether PROGRAM is the proved program. A
program elsewhere, such as a copy, counts as not proved.
"""

from __future__ import annotations

import argparse
import shlex
import subprocess
import sys
from collections import Counter
from collections.abc import Iterator
from concurrent.futures import ProcessPoolExecutor
from dataclasses import dataclass
from functools import partial
from typing import Callable, Optional, Tuple

import check
import found
import live
import programs
import racing
import recorded
import random_live
import random_long
import random_racing
import random_scripts
import random_texts
import simulator
from arguments import at_least
from streams import printed

Answer = Tuple[bytes, int]
Model = Callable[[bytes], Answer]
# Of an input and the program's output: what is wrong, or nothing.
Judge = Callable[[bytes, Answer], Optional[str]]
BATCH = 50
# The lines counted in long scripts, by their first words.
COUNTED = {"still": (b"tick ",), "reboots": (b"crash ",), "keys": (b"permit ", b"start ")}
MOST_SECONDS = 300
# The default count of each kind's inputs, and what they are.
COUNTS = {
    "count": (20_000, "texts for `check`"),
    "scripts": (2_000, "scripts for `sim`"),
    "live": (500, "scripts for `live`"),
    "racing": (300, "scripts for `live` whose output depends on the threads"),
    "recorded": (200, "scripts of either kind for `record`"),
    "packets": (20_000, "packets for `feed`, at least"),
    "still": (20, "scripts for `sim` of ticks that change nothing"),
    "reboots": (3, "scripts for `sim` of hundreds or thousands of reboots"),
    "keys": (20, "scripts for `sim` of 1 to 1,088 keys"),
}


@dataclass(frozen=True)
class Kind:
    """A kind of input: the command's word, the generator from a seed and a number, and the judge of outputs."""

    word: str
    make: Callable[[int, int], bytes]
    judge: Judge


@dataclass(frozen=True)
class Difference:
    """An input with a wrong output."""

    word: str
    number: int
    source: bytes
    program: Answer
    judged: str


@dataclass(frozen=True)
class Compared:
    """The differences among some inputs, and the counted lines of long scripts."""

    differences: list[Difference]
    lines: Counter[str]


def shown(who: str, answer: Answer) -> str:
    """An output as a text."""
    output, status = answer
    return f"the {who}, with status {status}:\n{output.decode(errors='backslashreplace')}"


def by_model(model: Model) -> Judge:
    """Judges by a model's output."""

    def judge(source: bytes, said: Answer) -> str | None:
        expected = model(source)
        return None if said == expected else shown("model", expected)

    return judge


def by_what_holds(source: bytes, said: Answer) -> str | None:
    """Judges by the properties of every run."""
    broken = racing.fault_of_run(source, *said)
    return None if broken is None else f"what doesn't hold: {broken}"


def by_recording(judge: recorded.Judge) -> Judge:
    """Judges by the properties of every recorded run, and its comments by this."""
    return lambda source, said: recorded.fault_of_record(judge, source, *said)


def judge_of(command: str) -> Judge:
    """Judges a command by its model, or a recorded run that no order of threads changes by its properties."""
    return by_model(found.MODELS[command]) if command in found.MODELS else by_recording(recorded.by_outcome)


KINDS = {
    "check": Kind("check", random_texts.random_text, by_model(check.check)),
    "sim": Kind("sim", random_scripts.random_script, by_model(simulator.simulate)),
    "live": Kind("live", random_live.random_live, by_model(live.run_live)),
    "racing": Kind("live", random_racing.random_racing, by_what_holds),
    "recorded": Kind("record", random_live.random_live, by_recording(recorded.by_outcome)),
    "recorded races": Kind("record", random_racing.random_racing, by_recording(recorded.by_races)),
    "packets": Kind("sim", random_scripts.random_packets, by_model(simulator.simulate)),
    **{kind: Kind("sim", partial(random_long.random_long, kind), by_model(simulator.simulate)) for kind in COUNTED},
    **{
        f"found {command}": Kind(word, partial(found.source, command), judge_of(command))
        for command, word in found.WORDS.items()
    },
}


def run_program(program: list[str], word: str, source: bytes) -> Answer:
    """The program's output for an input, and its exit status."""
    most = MOST_SECONDS if word in ("live", "record") else None
    try:
        done = subprocess.run([*program, word], input=source, stdout=subprocess.PIPE, check=False, timeout=most)
    except subprocess.TimeoutExpired:
        return b"(no end)\n", -1
    return done.stdout, done.returncode


def counted_in(word: str, source: bytes) -> int:
    """The number of counted lines in an input."""
    return sum(line.startswith(COUNTED[word]) for line in source.split(b"\n")) if word in COUNTED else 0


def compare_batch(program: list[str], word: str, seed: int, numbers: range) -> Compared:
    kind = KINDS[word]
    found = Compared([], Counter())
    for number in numbers:
        source = kind.make(seed, number)
        said = run_program(program, kind.word, source)
        judged = kind.judge(source, said)
        found.lines[word] += counted_in(word, source)
        if judged is not None:
            found.differences.append(Difference(word, number, source, said, judged))
    return found


def batches(word: str, count: int) -> Iterator[tuple[str, range]]:
    """The numbers of all inputs of a kind, in batches. A long input is a batch of its own."""
    size = 1 if word in COUNTED else BATCH
    for start in range(0, count, size):
        yield word, range(start, min(start + size, count))


def compare_all(program: list[str], seed: int, counts: dict[str, int], jobs: int) -> Compared:
    """The result for all inputs, from several processes at once."""
    work = [batch for word, count in counts.items() for batch in batches(word, count)]
    found = Compared([], Counter())
    with ProcessPoolExecutor(jobs) as pool:
        for task in [pool.submit(compare_batch, program, word, seed, numbers) for word, numbers in work]:
            found.differences.extend(task.result().differences)
            found.lines.update(task.result().lines)
    return found


def show(difference: Difference) -> None:
    print(f"{difference.word} {difference.number}, the input as bytes and as it is:")
    print(repr(difference.source))
    print(difference.source.decode(errors="backslashreplace"))
    print(shown("program", difference.program))
    print(difference.judged)


def arguments() -> argparse.Namespace:
    parser = argparse.ArgumentParser(description="Compares the program with the models on random inputs.")
    parser.add_argument("--seed", type=int, default=1)
    for kind, (count, what) in COUNTS.items():
        parser.add_argument(f"--{kind}", type=at_least(0), default=count, metavar="N", help=what)
    parser.add_argument("--only", nargs="+", choices=list(COUNTS), metavar="KIND", help="give the other kinds no inputs")
    parser.add_argument("--jobs", type=at_least(1), default=2)
    parser.add_argument("program", type=shlex.split, help="the program, or a command of several words")
    words = parser.parse_args()
    vars(words).update({kind: 0 for kind in COUNTS if words.only and kind not in words.only})
    return words


def of_long(lines: Counter[str]) -> str:
    """The counts of long scripts."""
    return f"{lines['still']} ticks, {lines['reboots']} reboots and {lines['keys']} keys given"


def main() -> int:
    """Compares, shows the first difference, and counts all."""
    words = arguments()
    feeds = -(-words.packets // random_scripts.PACKETS)
    counts = {"check": words.count, "sim": words.scripts, "live": words.live, "racing": words.racing, "packets": feeds}
    counts.update({"recorded": words.recorded, "recorded races": words.recorded})
    counts.update({"still": words.still, "reboots": words.reboots, "keys": words.keys})
    kept = {f"found {command}": len(found.kept(command)) for command in found.WORDS}
    compared = compare_all(words.program, words.seed, {**counts, **kept}, words.jobs)
    if compared.differences:
        show(compared.differences[0])
    state = "proved" if programs.is_proved(words.program) else "not proved"
    lives = f"{words.live} live scripts, {words.racing} racing live scripts, {2 * words.recorded} recorded runs"
    made = f"{words.count} texts, {words.scripts} scripts, {lives}, {feeds * random_scripts.PACKETS} packets"
    long = f"{words.still + words.reboots + words.keys} long scripts with {of_long(compared.lines)}"
    print(f"{made}, {long}, {sum(kept.values())} found inputs, {len(compared.differences)} differences; the program is {state}")
    return 1 if compared.differences else 0


if __name__ == "__main__":
    sys.exit(printed("compare.py", main))
