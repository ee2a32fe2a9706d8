"""A rolling restart: nodes go down and come back one after another, in the best order.

A step depends on where applications run, and not on how they got there. So when orders are compared, a step that began
with an equal page isn't played again. The order of the answer is played as a whole.
"""

from __future__ import annotations

from dataclasses import dataclass, field
from math import factorial
from typing import Iterable, Tuple

from distac_view.answering.hangs import names_that_hang
from distac_view.answering.what_if import Question, known_node, sides_of
from distac_view.asking.cases import Claimed, Loss, claims_in, course_of, first_pages
from distac_view.asking.cluster import Cluster, Waiter, take_rounds
from distac_view.asking.inputs import load_config
from distac_view.asking.openings import Side
from distac_view.asking.program import Distac
from distac_view.asking.snapshots import Page
from distac_view.common.problems import Problem
from distac_view.reading.configuration import Configuration

MOST_TRIED = 6

Cost = Tuple[int, int, int, int]


def sum_of(one: Cost, other: Cost) -> Cost:
    """The joint cost of two plans, part by part."""
    return (one[0] + other[0], one[1] + other[1], one[2] + other[2], one[3] + other[3])


@dataclass(frozen=True)
class Move:
    """An application's move to another node, or back: its cause, and the milliseconds until then."""

    app: str
    source: str | None
    node: str
    how: str
    milliseconds: int


@dataclass(frozen=True)
class Step:
    """A node that restarts: the moves by a drain before, those while it is down, those once it is back, and the
    applications that run nowhere meanwhile.

    A waiter is a node that gives up at its start gate, so that the restart can't go on. OTP may fail to restart some
    applications, and some wait because the node is back before their time is over.
    """

    node: str
    drained: list[Move]
    down: list[Move]
    back: list[Move]
    nowhere: list[str]
    waiters: list[Waiter]
    may_hang: list[str]
    waiting: list[str] = field(default_factory=list)

    @property
    def moves(self) -> int:
        return len(self.drained) + len(self.down) + len(self.back)

    @property
    def waits(self) -> int:
        """The total wait of applications for their failover, in milliseconds."""
        return sum(move.milliseconds for move in (*self.down, *self.back) if move.how == "failover")

    @property
    def resumed(self) -> list[str]:
        """The applications that run nowhere until the node is back, and start there again."""
        gone = [move.app for move in self.back]
        return [] if self.waiters else [app for app in self.waiting if app not in gone]

    @property
    def cost(self) -> Cost:
        """Its cost: first whether it can't go on, then applications that run nowhere, then moves, then waits."""
        return (len(self.waiters), len(self.nowhere), self.moves, self.waits)


@dataclass(frozen=True)
class Standing:
    """A cluster between two steps, with its nodes' knowledge."""

    cluster: Cluster
    page: Page

    @property
    def key(self) -> tuple[object, ...]:
        """The input of the next step: the nodes that are up, and each application's place, verdict and marks."""
        held = ((each.app, each.runs_at, each.verdict, each.at, each.marks) for each in self.page.held.values())
        return (tuple(sorted(self.cluster.nodes)), tuple(held))


@dataclass(frozen=True)
class Rolling:
    """The whole answer: the steps of an order, how it was found, and the moves of the worst order if all were compared.

    A restart takes a number of milliseconds, or longer than all waits.
    """

    configuration: Configuration
    side: Side
    order: list[str]
    steps: list[Step]
    is_given: bool
    compared: int
    worst: int | None
    story: list[str] = field(default_factory=list)
    takes: int | None = None

    @property
    def moves(self) -> int:
        """The number of moves of all steps."""
        return sum(step.moves for step in self.steps)

    @property
    def waits(self) -> int:
        """The total wait of applications in all steps, in milliseconds."""
        return sum(step.waits for step in self.steps)

    @property
    def restarts(self) -> int:
        """The total time of applications that run nowhere until their node is back, in milliseconds."""
        return (self.takes or 0) * sum(len(step.resumed) for step in self.steps)

    @property
    def hanging(self) -> list[Step]:
        """The steps in which OTP may fail to restart applications."""
        return [step for step in self.steps if step.may_hang]

    @property
    def is_barred(self) -> bool:
        """Whether a step can't go on."""
        return any(step.waiters for step in self.steps)


def rolling_of(distac: Distac, question: Question, order: list[str], drains: bool) -> Rolling:
    """The answer for a configuration: for a given order, or for the best one."""
    checked = load_config(distac, question.config)
    side = sides_of(distac, checked, question, [])[0]
    given = [known_node(word, checked.configuration) for word in order]
    if len(set(given)) != len(given):
        raise Problem("--order names a node twice")
    return rolling_on(distac, side, given, drains, question.takes)


def rolling_on(distac: Distac, side: Side, given: list[str], drains: bool, takes: int | None = None) -> Rolling:
    """The answer for a cluster at its start."""
    planner = Planner(distac, drains, takes)
    start = Standing(side.cluster, side.page)
    order, compared, worst = given, 1, None
    if not given and len(side.nodes) <= MOST_TRIED:
        plan = planner.best(start, frozenset(side.nodes))
        order, compared, worst = list(plan.order), plan.count, plan.most_moves
    steps, story = play_order(planner, start, order) if order else greedy(planner, start)
    names = order or [step.node for step in steps]
    return Rolling(side.cluster.configuration, side, names, steps, bool(given), compared, worst, story, takes)


def play_order(planner: Planner, start: Standing, order: Iterable[str]) -> tuple[list[Step], list[str]]:
    """The steps of an order, played as one script until one can't go on, and the script's lines."""
    standing, steps = start, []
    for node in order:
        step, standing = planner.play(standing, node)
        steps.append(step)
        if step.waiters:
            break
    return steps, standing.cluster.story.lines


def greedy(planner: Planner, start: Standing) -> tuple[list[Step], list[str]]:
    """The steps of an order that always takes the node with the fewest applications next, and the script's lines."""
    standing, rest = start, sorted(start.cluster.nodes)
    steps: list[Step] = []
    planner.distac.cases += len(rest)
    while rest and not (steps and steps[-1].waiters):
        places = [held.runs_at for held in standing.page.held.values()]
        node = min(rest, key=lambda each: (places.count(each), rest.index(each)))
        rest.remove(node)
        step, standing = planner.play(standing, node)
        planner.distac.cases_done += 1
        steps.append(step)
    return steps, standing.cluster.story.lines


@dataclass(frozen=True)
class Plan:
    """The best order of some nodes with its cost, the number of orders, and the moves of the worst one."""

    cost: Cost
    order: tuple[str, ...]
    count: int
    most_moves: int


class Planner:
    """Plays steps, and compares orders of them."""

    def __init__(self, distac: Distac, drains: bool, takes: int | None = None) -> None:
        self.distac = distac
        self.drains = drains
        self.takes = takes
        self.steps: dict[tuple[object, str], tuple[Step, Standing]] = {}
        self.plans: dict[tuple[object, frozenset[str]], Plan] = {}

    def best(self, standing: Standing, nodes: frozenset[str]) -> Plan:
        """The best order of some nodes; of equally good ones the first by name."""
        key = (standing.key, nodes)
        if key not in self.plans:
            self.plans[key] = self.compared(standing, nodes)
        return self.plans[key]

    def compared(self, standing: Standing, nodes: frozenset[str]) -> Plan:
        """The best of all orders of some nodes."""
        if not nodes:
            return Plan((0, 0, 0, 0), (), 1, 0)
        plans = [self.beginning_with(standing, node, nodes) for node in sorted(nodes)]
        best = min(plans, key=lambda plan: plan.cost)
        return Plan(best.cost, best.order, sum(plan.count for plan in plans), max(plan.most_moves for plan in plans))

    def beginning_with(self, standing: Standing, node: str, nodes: frozenset[str]) -> Plan:
        """The best of all orders that begin with a node. No order continues after a step that can't go on."""
        step, following = self.step(standing, node)
        rest = nodes - {node}
        plan = Plan((len(rest), 0, 0, 0), tuple(sorted(rest)), factorial(len(rest)), 0) if step.waiters else self.best(following, rest)
        return Plan(sum_of(step.cost, plan.cost), (node, *plan.order), plan.count, step.moves + plan.most_moves)

    def step(self, standing: Standing, node: str) -> tuple[Step, Standing]:
        """A step and its result, possibly from an earlier one that began with an equal page."""
        key = (standing.key, node)
        if key not in self.steps:
            self.steps[key] = self.play(standing, node)
        return self.steps[key]

    def play(self, standing: Standing, node: str) -> tuple[Step, Standing]:
        """Plays a step. At its end all nodes know everything, so that any of them may be the next one."""
        cluster, drained = standing.cluster.copy(), []
        if self.drains and node in cluster.nodes:
            drained = drain(self.distac, cluster, node)
        page = cluster.page(self.distac) if drained else standing.page
        loss = Loss([node], [node], [], self.takes)
        course = course_of(self.distac, cluster, loss, first_pages(self.distac, cluster, [loss])[0])
        end = course.cluster.copy()
        waiters = end.ended[len(cluster.ended) :]
        back = [move for move in moves_of(course.then, course.claims_back, page) if move.app not in course.waiting or move.source != move.node]
        moves = moves_of(standing.page, drained), moves_of(page, course.claims), back
        away = [held.app for held in page.held.values() if held.runs_at and not runs_at(course.then, held.app)]
        nowhere = [app for app in away if app not in course.waiting]
        may_hang = names_that_hang([course], cluster.nodes, cluster.configuration)
        return Step(node, *moves, nowhere, waiters, may_hang, course.waiting), Standing(end, course.back)


def drain(distac: Distac, cluster: Cluster, node: str) -> list[Claimed]:
    """Drains a node; applications that can run elsewhere move there."""
    start = len(cluster.story.lines)
    cluster.story.command(f"drain {cluster.hub} {node} true")
    cluster.is_untold = True
    take_rounds(distac, cluster)
    return claims_in(cluster, start)


def moves_of(page: Page, claims: list[Claimed], earlier: Page | None = None) -> list[Move]:
    """Claims as moves from each application's node on the page before, or on an earlier one if it ran nowhere."""
    found = []
    for claim in claims:
        source = runs_at(page, claim.app) or (runs_at(earlier, claim.app) if earlier else None)
        found.append(Move(claim.app, source, claim.node, claim.how, claim.milliseconds))
    return found


def runs_at(page: Page, app: str) -> str | None:
    held = page.held.get(app)
    return held.runs_at if held else None
