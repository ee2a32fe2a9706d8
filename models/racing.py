"""Properties of every run of `distac live` whose answers depend on the order of the threads.

- It ends with status 0.
- Its lines are those that the script requires: each phase, each answer by node, caller and script, each feed, and each
  page.
- Each answer is `ok`, `fresh`, or a possible refusal of its line, and never `stale`. A line that is refused in any
  order is refused for the same reason in each.
- Some order of a node's callers explains their answers and preserves the order of each caller. In it the node was on or
  off as the answers say, and a tick was refused for its moment exactly if that went back. Each phase begins with the
  result of the previous one.
- At the end a node is on or off as such an order leaves it, and its incarnation counts the boots that weren't refused.
- All running nodes have the same page, and if no node went down, they have heard all operations.
- `close ok` and `weave ok` are the last lines.

A script that doesn't end with two phases without lines may leave operations unheard at the end. Its pages are checked
alone and not compared.
"""

from __future__ import annotations

import re
from collections import Counter, defaultdict
from collections.abc import Iterator
from dataclasses import dataclass, field
from typing import List, Tuple

from check import Config, spelled
from live import READ, Asked, LiveReader, Phase, Run, phases_of
from placement import FAILOVER, HALTED, KEPT, MOVE, NOBODY, START, TAKEOVER
from simulator import COMMANDS, HOW_NAMES, read_input
from world import REFUSALS

OK, FRESH = b"ok", b"fresh"
# The position in a line of the node that it is about, and of the application.
ABOUT = {b"permit": 2, b"start": 2, b"stop": 2, b"drain": 1, b"down": 1, b"takeover": 0}
APP = {b"permit": 1, b"start": 1, b"stop": 1, b"takeover": 1}
VERDICTS = [word.encode() for word in (START, FAILOVER, MOVE, TAKEOVER, KEPT, HALTED)]
HEARSAY = {b"stop": ("NotStarted",), b"takeover": ("NotEligible", "NotRunning", "AlreadyHolder", "LowerPriority")}

# Whether a node runs, and its last moment if so.
Moment = Tuple[bool, int]
OFF: Moment = (False, 0)
Row = List[Tuple[Asked, bytes]]


class Broken(Exception):
    """A property that a run violates."""


def demand(holds: bool, why: str) -> None:
    """Raises unless a property holds."""
    if not holds:
        raise Broken(why)


# Answers


def refusal(name: str) -> bytes:
    return f"refused {REFUSALS.index(name) + 1} {name}".encode()


def sure_refusal(config: Config, asked: Asked) -> str | None:
    """The refusal of a line whatever its node has heard, if there is one. The node is on and not declared down."""
    if asked.word not in ABOUT:
        return None
    about = int(asked.values[ABOUT[asked.word]])
    app = int(asked.values[APP[asked.word]]) if asked.word in APP else None
    if app == len(config.apps):
        return "UnknownApp"
    if about == len(config.nodes):
        return "UnknownNode"
    if asked.word == b"down" and about == asked.node:
        return "OnSelf"
    return "NotInList" if app is not None and config.apps[app].group_of(about) is None else None


def is_by_hearsay(asked: Asked, answer: bytes) -> bool:
    """Whether what a node has heard can explain an answer. One not declared down has heard of itself."""
    names = HEARSAY.get(asked.word, ())
    if asked.values[ABOUT[asked.word]] != asked.node:
        names += ("NotLive",)
    return answer == OK or answer in map(refusal, names)


def after_tick(config: Config, asked: Asked, answer: bytes, moment: Moment) -> Iterator[Moment]:
    """The possible states of a node after a tick with this answer, if it was on."""
    now = int(asked.values[1])
    if now < moment[1]:
        yield from [moment] if answer == refusal("MomentBack") else []
    elif answer == OK:
        yield True, now
        if isinstance(config.sync_timeout, int):
            # (it may have given up)
            yield OFF


def after(config: Config, asked: Asked, answer: bytes, moment: Moment) -> Iterator[Moment]:
    """The possible states of a node after a line with this answer, or none if it can't have it."""
    is_on = moment[0]
    refused = "AlreadyOn" if asked.word == b"boot" and is_on else sure_refusal(config, asked)
    if asked.word == READ:
        yield from [moment] if answer == FRESH else []
    elif asked.word == b"boot" and not is_on:
        yield from [(True, int(asked.values[1]))] if answer == OK else []
    elif asked.word != b"boot" and not is_on:
        yield from [moment] if answer == refusal("Off") else []
    elif asked.word == b"crash":
        yield from [OFF] if answer == OK else []
    elif refused is not None and answer == refusal(refused):
        yield moment
    elif asked.word != b"boot" and answer == refusal("DeclaredDown"):
        yield moment
    elif asked.word == b"tick":
        yield from after_tick(config, asked, answer, moment)
    elif refused is None and is_by_hearsay(asked, answer):
        yield moment


# Orders

# The number of answered lines of each caller.
Places = Tuple[int, ...]


def steps(config: Config, rows: list[Row], places: Places, moments: set[Moment]) -> Iterator[tuple[Places, set[Moment]]]:
    """The results of one more line, of any caller."""
    for at, row in enumerate(rows):
        if places[at] < len(row):
            found = {later for moment in moments for later in after(config, *row[places[at]], moment)}
            yield (*places[:at], places[at] + 1, *places[at + 1 :]), found


def after_all(config: Config, rows: list[Row], moments: set[Moment]) -> set[Moment]:
    """The possible states of a node after its callers' lines, in orders that explain answers and keep each caller's."""
    level: dict[Places, set[Moment]] = {(0,) * len(rows): moments}
    for _ in range(sum(map(len, rows))):
        following: defaultdict[Places, set[Moment]] = defaultdict(set)
        for places, found in level.items():
            for later, more in steps(config, rows, places, found):
                following[later] |= more
        level = {places: found for places, found in following.items() if found}
    return set().union(*level.values())


# Pages


def one_of(names: list[bytes]) -> bytes:
    return b"(?:%s)" % b"|".join(map(re.escape, names))


def shared_pattern(config: Config) -> bytes:
    """A pattern for a page after its first line, with the numbers of operations heard and known."""
    names = [spelled(name) for name in config.nodes]
    name, number = one_of(names), rb"[1-9]\d*"
    how = rb"(?:%s|(?:%s|%s) from %s)" % (*HOW_NAMES.values(), name)
    verdict = rb"(?:%s|%s %s)" % (NOBODY.encode(), one_of(VERDICTS), name)
    found = [rb"heard (%s) known (%s)\n" % (number, number)]
    found += [rb"node %s (?:unknown|down %s|up %s(?: drained)?)\n" % (re.escape(it), number, number) for it in names]
    for app in config.apps:
        marks = [rb" %s=(?:down|barred|drained|idle|ok)" % re.escape(names[node]) for node in app.nodes()]
        holder = rb"(?:none|%s %s term %s %s)" % (name, number, number, how)
        found.append(rb"app %s holder %s verdict %s\n" % (re.escape(spelled(app.name)), holder, verdict))
        found.append(rb"list%s\n" % b"".join(marks))
    return b"".join(found)


@dataclass
class Page:
    """A final page: the node's incarnation if it runs, the part shared by all pages, and how much it heard."""

    inc: int | None
    shared: bytes = b""
    heard: int = 0
    known: int = 0


# Runs


@dataclass
class Checked:
    """The output not checked yet, and the nodes' states so far."""

    config: Config
    rest: bytes
    moments: list[set[Moment]]
    boots: Counter[int] = field(default_factory=Counter)
    declared: set[int] = field(default_factory=set)
    issued: int = 0
    ticks: int = 0
    has_loss: bool = False

    def take(self, pattern: bytes, what: str) -> re.Match[bytes]:
        match = re.match(pattern, self.rest)
        if match is None:
            raise Broken(f"{what} was to be printed at {self.rest[:80]!r}")
        self.rest = self.rest[match.end() :]
        return match

    def phase(self, number: int, phase: Phase, run: Run) -> None:
        self.take(rb"phase %d\n" % number, f"phase {number}")
        rows: defaultdict[tuple[int, int], Row] = defaultdict(list)
        for asked in sorted(phase.asked, key=lambda it: (it.node, it.caller)):
            answer = self.take(re.escape(run.named(asked)) + rb"(ok|fresh|refused \d+ \w+)\n", f"the answer to {asked}")[1]
            self.note(asked, answer)
            rows[asked.node, asked.caller].append((asked, answer))
        for node in range(len(self.config.nodes)):
            of_node = [row for (other, _), row in rows.items() if other == node]
            self.moments[node] = after_all(self.config, of_node, self.moments[node])
            demand(bool(self.moments[node]), f"no order of the callers of {self.config.nodes[node]!r} explains phase {number}")
        for data in phase.feeds:
            self.take(re.escape(run.fed(data)) + b"\n", f"what feed {data.hex()} answers")

    def note(self, asked: Asked, answer: bytes) -> None:
        """Notes the effect of a line."""
        if answer != OK:
            return
        self.boots[asked.node] += asked.word == b"boot"
        self.ticks += asked.word == b"tick"
        self.issued += asked.word == b"boot" or asked.word in COMMANDS
        self.has_loss |= asked.word == b"crash" or (asked.word == b"tick" and isinstance(self.config.sync_timeout, int))
        if asked.word == b"down":
            self.declared.add(int(asked.values[1]))

    def page(self, node: int) -> Page:
        """Consumes a node's page, and checks it alone."""
        name = re.escape(spelled(self.config.nodes[node]))
        head = self.take(rb"node %s (off|[1-9]\d*)\n" % name, f"the header of {name!r}")[1]
        is_off = head == b"off"
        demand(is_off in {not is_on for is_on, _ in self.moments[node]}, f"{name!r} can't be as its header says")
        if is_off:
            return Page(None)
        demand(int(head) == self.boots[node], f"{name!r} booted {self.boots[node]} times")
        found = self.take(shared_pattern(self.config), f"the page of {name!r}")
        return Page(int(head), found[0], int(found[1]), int(found[2]))

    def pages(self, has_rest: bool) -> None:
        """Checks the pages of all nodes, and compares them if all was heard."""
        pages = [self.page(node) for node in range(len(self.config.nodes))]
        if has_rest:
            self.compare(pages)

    def compare(self, pages: list[Page]) -> None:
        running = [page for page in pages if page.inc is not None]
        demand(len({page.shared for page in running}) <= 1, "running nodes have different pages")
        for page in running[:1]:
            self.numbers(page)
            for node, other in enumerate(pages):
                self.life(node, other, page.shared)

    def numbers(self, page: Page) -> None:
        """Checks how much was heard: nothing that wasn't issued, and all of it if no node went down."""
        most = self.issued + self.ticks * len(self.config.apps)
        demand(page.heard <= page.known <= most, f"{most} operations at most were issued, and what is heard is known")
        demand(self.has_loss or page.heard >= self.issued, f"{self.issued} operations at least were issued")

    def life(self, node: int, page: Page, shared: bytes) -> None:
        """Checks a node's life on all pages: a running node is up, unless another one declared it down."""
        name = spelled(self.config.nodes[node])
        found = re.search(rb"^node %s (\w+) ?(\d*)" % re.escape(name), shared, re.MULTILINE)
        demand(found is not None and int(found[2] or 0) <= self.boots[node], f"{name!r} booted {self.boots[node]} times")
        if found is not None and page.inc is not None:
            demand(int(found[2] or 0) == page.inc, f"{name!r} runs under incarnation {page.inc}")
            demand(found[1] == b"up" or node in self.declared, f"nobody said that {name!r} is down")


def fault_of_run(source: bytes, output: bytes, status: int) -> str | None:
    """The violation of a run, if there is one."""
    config, lines = read_input(source, LiveReader)
    checked = Checked(config, output, [{OFF} for _ in config.nodes])
    try:
        demand(status == 0, f"the status is {status}")
        phases = phases_of(lines)
        for number, phase in enumerate(phases, 1):
            checked.phase(number, phase, Run(config))
        checked.pages(len(phases) > 1 and not any(phase.asked for phase in phases[-2:]))
        checked.take(rb"close ok\nweave ok\n\Z", "close ok and weave ok, and nothing behind them,")
    except Broken as broken:
        return str(broken)
    return None
