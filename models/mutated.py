#!/usr/bin/env python3
"""Changes the models of `distac sim` and `distac live` in one place at a time, and lists the changes that no row detects.

Usage: python3 mutated.py [--rows FOLDER] [--jobs J] [--list]

A mutant is one change of world.py, placement.py, meaning.py, simulator.py or live.py (see mutations.py): a wrong
definition, as an operator would see it. It falls if it changes the output of a row of examples/rows or of an example (see
row_files.py), fails, or takes more than some seconds. Those of live.py are played on the rows of `distac live` alone, in
two orders of the threads, the others on all rows. The texts of configurations (check.py) and the bytes (wire.py)
aren't changed, because they have rows and tests of their own; nor is command-line code.

unseen.txt lists the mutants that no row detects, each with a reason. Equivalent ones change no output. Those that a
test of the gate refuses name it, and fall. All others are left. An entry is a fault if it names no mutant, one that a
row detects, or no test.

Each survivor is printed with its place, before and after the change. The last line is `N mutants, K fall, S survive`,
without equivalent ones. The status is 0 if each survivor has a reason, and no entry is a fault.
"""

from __future__ import annotations

import argparse
import importlib
import operator
import signal
import sys
import types
from collections import Counter
from collections.abc import Iterator
from concurrent.futures import ProcessPoolExecutor
from contextlib import contextmanager
from dataclasses import dataclass
from functools import lru_cache
from pathlib import Path
from typing import Optional

from arguments import at_least
from kinds import Kinds
from mutations import Mutation, mutations_of
from row_files import LIVE, SIM, TOP, Row, all_rows
from streams import printed

MODELS = Path(__file__).resolve().parent
REASONS = MODELS / "unseen.txt"
# Each module after those that it imports.
MODULES = ("check", "meaning", "wire", "placement", "world", "simulator", "live")
CHANGED = ("world", "placement", "meaning", "simulator", "live")
MOST_SECONDS = 4.0
BATCH = 20
EQUIVALENT, LEFT, TESTED = "equivalent", "left", "tested by "


class TooSlow(BaseException):
    """A mutant takes too long."""


class BadReasons(Exception):
    """The list of reasons can't be read."""


@dataclass(frozen=True)
class Reason:
    """Why no row detects a mutant: it is equivalent, left, or refused by a named test."""

    kind: str
    text: str

    @property
    def test(self) -> str:
        """The crate, module and name of the test that refuses the mutant, or nothing."""
        return self.kind[len(TESTED) :] if self.kind.startswith(TESTED) else ""


# Playing


@lru_cache(None)
def source_of(module: str) -> str:
    return (MODELS / f"{module}.py").read_text(encoding="utf-8")


@lru_cache(None)
def code_of(module: str) -> types.CodeType:
    code: types.CodeType = compile(source_of(module), f"{module}.py", "exec")
    return code


def all_mutations() -> list[Mutation]:
    kinds = Kinds({module: source_of(module) for module in MODULES})
    return [mutation for module in CHANGED for mutation in mutations_of(f"{module}.py", source_of(module), kinds)]


@contextmanager
def loaded(mutation: Mutation) -> Iterator[None]:
    """The changed models. In this context the changed module and its users replace the original ones."""
    first = [f"{name}.py" for name in MODULES].index(mutation.file)
    kept = {name: importlib.import_module(name) for name in MODULES}
    try:
        for name in MODULES[first:]:
            is_changed = name == MODULES[first]
            code = compile(mutation.applied(source_of(name)), f"{name}.py", "exec") if is_changed else code_of(name)
            sys.modules[name] = module = types.ModuleType(name)
            exec(code, module.__dict__)
        yield
    finally:
        sys.modules.update(kept)


def give_up(_number: int, _frame: Optional[types.FrameType]) -> None:
    """The time limit has passed."""
    raise TooSlow


@contextmanager
def limited(seconds: float) -> Iterator[None]:
    """Ends a computation after so many seconds of processor time."""
    before = signal.signal(signal.SIGVTALRM, give_up)
    signal.setitimer(signal.ITIMER_VIRTUAL, seconds)
    try:
        yield
    finally:
        signal.setitimer(signal.ITIMER_VIRTUAL, 0)
        signal.signal(signal.SIGVTALRM, before)


def differs(row: Row) -> bool:
    """Whether the models don't print a row. The threads of a live script take turns from the first and from the last."""
    wanted = row.output, row.status
    if row.command == SIM:
        return bool(sys.modules["simulator"].simulate(row.source) != wanted)
    run = sys.modules["live"].run_live
    return bool(run(row.source) != wanted or run(row.source, operator.itemgetter(-1)) != wanted)


def seen_by(mutation: Mutation, rows: list[Row]) -> Optional[str]:
    """The first row whose output changes, or the mutant's failure, or None if nothing detects it."""
    name = "nothing yet"
    try:
        with limited(MOST_SECONDS), loaded(mutation):
            for row in rows:
                name = row.name
                if differs(row):
                    return name
    except (Exception, TooSlow) as fault:
        return f"{name}, by {type(fault).__name__}"
    return None


def seen_in(mutations: list[Mutation], rows: list[Row]) -> list[Optional[str]]:
    """The detection of each of some mutants, those of live.py by the rows of `distac live` alone."""
    of_live = [row for row in rows if row.command == LIVE]
    return [seen_by(mutation, of_live if mutation.file == "live.py" else rows) for mutation in mutations]


def survivors_of(mutations: list[Mutation], rows: list[Row], jobs: int) -> list[Mutation]:
    """The undetected mutants, found by several processes at once."""
    with ProcessPoolExecutor(jobs) as pool:
        batches = [mutations[at : at + BATCH] for at in range(0, len(mutations), BATCH)]
        tasks = [pool.submit(seen_in, batch, rows) for batch in batches]
        seen = [one for task in tasks for one in task.result()]
    return [mutation for mutation, name in zip(mutations, seen) if name is None]


# Reasons


def read_reasons(text: str) -> dict[str, Reason]:
    """The reason for each listed mutant. A reason is a line; the indented lines after it are its mutants."""
    found: dict[str, Reason] = {}
    reason: Optional[Reason] = None
    for line in text.splitlines():
        if line.startswith("  ") and reason is not None:
            if line.strip() in found:
                raise BadReasons(f"listed twice: {line.strip()}")
            found[line.strip()] = reason
        elif line and not line.startswith("%"):
            kind, _, why = line.partition(" because ")
            if not why or not (kind in (EQUIVALENT, LEFT) or kind.startswith(TESTED)):
                raise BadReasons(f"neither equivalent, nor left, nor tested by a test, because of something: {line}")
            reason = Reason(kind, why)
    return found


def is_test(top: Path, name: str) -> bool:
    """Whether this test exists in this crate and module."""
    crate, module, function = name.split("::")
    path = top / "crates" / crate / "src" / f"{module}.rt"
    return path.exists() and f"#[test]\nfn {function}(" in path.read_text(encoding="utf-8")


def faults_of(reasons: dict[str, Reason], mutations: list[Mutation], survivors: list[Mutation]) -> Iterator[str]:
    """The entries without a mutant, with a detected one, or with an unknown test."""
    names, surviving = set(map(str, mutations)), set(map(str, survivors))
    for name, reason in reasons.items():
        if name not in names:
            yield f"listed, but no mutant: {name}"
        elif name not in surviving:
            yield f"listed, but a row sees it: {name}"
    yield from (f"no test: {test}" for test in sorted({one.test for one in reasons.values()} - {""}) if not is_test(TOP, test))


# Printing


def shown(mutation: Mutation, reason: Optional[Reason]) -> str:
    """A mutant with its place, and why it is left, if known."""
    text = f"{mutation.file}:{mutation.line}: {mutation.function}: {mutation.old} -> {mutation.new}"
    return f"{text}\n    left because {reason.text}" if reason else text


def report(mutations: list[Mutation], survivors: list[Mutation], reasons: dict[str, Reason]) -> int:
    """Prints the survivors, the faults of the list and the counts, and returns the exit status."""
    faults = list(faults_of(reasons, mutations, survivors))
    known = {one: reasons[str(one)] for one in survivors if str(one) in reasons}
    equivalent = [one for one, reason in known.items() if reason.kind == EQUIVALENT]
    tested = [one for one, reason in known.items() if reason.test]
    left = [one for one in survivors if one not in equivalent and one not in tested]
    for mutation in left:
        print(shown(mutation, known.get(mutation)))
    for fault in faults:
        print(fault)
    count = len(mutations) - len(equivalent)
    print(f"{len(equivalent)} more are equivalent, {len(tested)} fall by tests of the gate, {len(faults)} faults of {REASONS.name}")
    print(f"{count} mutants, {count - len(left)} fall, {len(left)} survive")
    return 1 if faults or any(mutation not in known for mutation in left) else 0


def arguments() -> argparse.Namespace:
    parser = argparse.ArgumentParser(description="Lists the changes of the models of `distac sim` and `distac live` that no row sees.")
    parser.add_argument("--rows", type=Path, default=TOP, help="the clone whose rows and examples are played, this one if not given")
    parser.add_argument("--jobs", type=at_least(1), default=2)
    parser.add_argument("--list", action="store_true", help="list all mutants, and play none")
    return parser.parse_args()


def main() -> int:
    words = arguments()
    mutations = all_mutations()
    if words.list:
        print("\n".join(shown(mutation, None) for mutation in mutations))
        print(", ".join(f"{count} of {file}" for file, count in Counter(mutation.file for mutation in mutations).items()))
        return 0
    rows = all_rows(words.rows)
    return report(mutations, survivors_of(mutations, rows, words.jobs), read_reasons(REASONS.read_text(encoding="utf-8")))


if __name__ == "__main__":
    sys.exit(printed("mutated.py", main))
