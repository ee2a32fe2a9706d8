"""`load`, `rolling` and `what-if --then`, each compared with other plays of their questions."""

from __future__ import annotations

import json
import re
import unittest
from typing import Sequence
from itertools import combinations, permutations
from pathlib import Path
from random import Random
from unittest import mock

from json_schema import documented
from support import IS_STAND_IN, InRoom, distac, view
from test_starts import checked_of, random_places
from test_what_if import random_config
from distac_view.answering import load as loads
from distac_view.answering.changes import changes_between
from distac_view.answering.load import load_on
from distac_view.answering.rolling import Planner, Standing, play_order, rolling_on
from distac_view.answering.what_if import Fate, Question, Reply, reply_on
from distac_view.asking.openings import Side, opened
from distac_view.asking.running_now import opened_now
from distac_view.asking.snapshots import marks_in
from distac_view.showing.print_load import budget_faults

COUNT = 16 if IS_STAND_IN else 200
SHOP = (
    "[{kernel,[{distributed,[{billing,8000,[shop1@h,shop2@h,shop3@h]},{reports,3000,[shop3@h,shop1@h]},"
    "{mail,5000,[shop2@h,{shop1@h,shop3@h}]},{audit,0,[shop1@h,shop2@h]}]}]}].\n"
)
QUOTED_SHOP = (
    "[{kernel,[{distributed,[{'Billing',5000,['shop1@10.0.0.1','shop-2@h']},{audit,0,['shop-2@h','shop1@10.0.0.1']},"
    "{'Once',['shop1@10.0.0.1']}]},{permissions,[{'Once',false}]}]}].\n"
)
FLEET = "[{kernel,[{distributed,[{a,5000,[n1@h,{n2@h,n3@h}]},{b,5000,[n1@h,{n2@h,n3@h}]},{c,5000,[n2@h,n3@h,n1@h]}]}]}].\n"
SYNC = "{sync_nodes_mandatory,[shop1@h,shop2@h,shop3@h]},{sync_nodes_timeout,5000}"
FULL_SHOP = SHOP.replace(
    "]}]}].",
    "]},{sync_nodes_mandatory,[shop1@h,shop2@h,shop3@h]},{sync_nodes_optional,[]},{sync_nodes_timeout,30000},{net_ticktime,20}]}].",
)
GATED_SHOP = SHOP.replace("]}]}].", f"]}},{SYNC}]}}].")


def random_side(random: Random) -> Side:
    """A random cluster that just came up, or one with applications at given places."""
    checked = checked_of(random_config(random))
    if random.random() < 0.5:
        return opened(distac(), checked, [])
    return opened_now(distac(), checked, random_places(random, checked))


class Files(InRoom):
    def setUp(self) -> None:
        super().setUp()
        self.shop = self.path("shop.config", SHOP)

    def path(self, name: str, text: str) -> str:
        return str(self.write(name, text))


class Loads(Files):
    """Applications on each node under each loss."""

    def test_rows_sum_to_the_applications(self) -> None:
        for number in range(COUNT):
            side = random_side(Random(f"load {number}"))
            found = load_on(distac(), side, True)
            names = found.configuration.names
            nowhere = [name for name in names if side.page.held[name].runs_at is None]
            for row in (found.start, *found.rows):
                with self.subTest(number=number, down=row.down):
                    later = [name for name in nowhere if name in row.places]
                    self.assertEqual(sum(row.counts.values()) + len(row.lost) + len(nowhere) - len(later), len(names))

    def test_rows_are_those_of_what_if(self) -> None:
        for number in range(COUNT):
            checked = checked_of(random_config(Random(f"load and what-if {number}")))
            found = load_on(distac(), opened(distac(), checked, []), True)
            for row in found.rows if number % 4 == 0 else found.singles:
                with self.subTest(number=number, down=row.down):
                    fates = reply_on(distac(), checked, Question("x", row.down)).cases[0].fates
                    self.assertEqual(row.places, {fate.app: fate.then for fate in fates if fate.then})
                    self.assertEqual(row.lost, [fate.app for fate in fates if fate.now and not fate.then])

    def test_pairs_that_are_put_together(self) -> None:
        for number in range(COUNT):
            side = wide_side(Random(f"pairs {number}"))
            with mock.patch.object(loads, "put_together", wraps=loads.put_together) as put_together:
                found = load_on(distac(), side, True)
            with mock.patch.object(loads, "can_touch", lambda *_: True):
                played = load_on(distac(), side, True)
            with self.subTest(number=number):
                self.assertTrue(put_together.called)
                self.assertEqual(found.pairs, played.pairs)
                self.assertEqual([tuple(row.down) for row in found.pairs], list(combinations(side.nodes, 2)))

    def test_the_table_and_the_budget(self) -> None:
        said = view("load", self.shop, "--pairs")
        rows = [re.split(r"\s{2,}", row) for row in said.output.splitlines()]
        self.assertEqual(rows[:3], [["Nodes are shown without @h."], ["down", "shop1", "shop2", "shop3", "lost"], ["-", "2", "1", "1", "0"]])
        self.assertEqual(rows[3], ["shop1", "3", "1", "0"])
        self.assertIn(["shop1 shop2", "3", "1: audit"], rows)
        self.assertIn(["+ 1 pair that loses nothing more than each node alone"], rows)
        self.assertIn(["without shop3, one loss from nothing: reports (shop1)"], rows)
        budgets = (("--fail-on lost", 0), ("--fail-on lost --pairs", 1), ("--most 2 --fail-on load", 1), ("--most 3 --fail-on lost,load", 0))
        for words, status in budgets:
            self.assertEqual(view("load", self.shop, *words.split()).status, status, words)
        for word in ("load", "everything"):
            self.assertEqual(view("load", self.shop, "--fail-on", word).status, 2)

    def test_what_never_runs_is_lost(self) -> None:
        forbidden = self.path("forbidden.config", SHOP.replace("]}]}].", "]},{permissions,[{audit,false}]}]}]."))
        now = (self.shop, "--now", "mail=shop2@h", "billing=shop1@h")
        for words, names in (((forbidden,), ["audit"]), (now, ["reports", "audit"]), ((self.shop,), [])):
            said, answer = view("load", *words, "--fail-on", "lost"), json.loads(view("load", *words, "--json").output)
            self.assertEqual((said.status, answer["nowhere"]), (1 if names else 0, names), said)
            self.assertEqual([note["text"].split(" ")[0] for note in answer["notes"] if note["id"] == "RunsNowhere"], names)
        self.assertIn("- audit runs nowhere before any loss: shop1@h=barred shop2@h=barred\n", view("load", forbidden).output)
        self.assertIn("distac-view: lost: audit runs nowhere before any loss\n", view("load", forbidden, "--fail-on", "lost").errors)

    def test_many_nodes_have_no_column_each(self) -> None:
        side = wide_side(Random("wide"), 12)
        self.assertEqual(list(budget_faults(load_on(distac(), side, False), ["lost"], None)), [])


def wide_side(random: Random, count: int = 7) -> Side:
    """A cluster with more nodes than each application has, so that some pairs of losses are independent."""
    nodes = [f"n{number:02d}@h" for number in range(count)]
    entries = []
    for number in range(random.randint(2, 5)):
        chosen = random.sample(nodes, random.choice((2, 2, 3)))
        items = chosen[0] if random.random() < 0.4 else "{%s}" % ",".join(chosen[:2])
        rest = chosen[1:] if items == chosen[0] else chosen[2:]
        entries.append("{a%d,%d,[%s]}" % (number, random.choice((0, 500, 1000)), ",".join([items, *rest])))
    sync = "{sync_nodes_optional,[%s]}" % ",".join(nodes)
    return opened(distac(), checked_of("[{kernel,[{distributed,[%s]},%s]}].\n" % (",".join(entries), sync)), [])


class Hangs(Files):
    """Applications that OTP may fail to restart, reported by each question about the loss."""

    def test_each_question_says_it(self) -> None:
        fleet, cured = self.path("fleet.config", FLEET), self.path("cured.config", FLEET.replace("b,5000", "b,6000"))
        for question, losses in (("what-if", "cases"), ("load", "losses"), ("rolling", "steps")):
            answer = json.loads(view(question, fleet, "--json").output)
            names = {str(loss.get("down") if question != "rolling" else [loss["node"]]): loss["may_hang"] for loss in answer[losses]}
            self.assertEqual(names.pop("['n1@h']"), ["a", "b"], question)
            self.assertFalse(any(names.values()), question)
            self.assertIn("EqualTimes", [note["id"] for note in answer["notes"]], question)
            self.assertIn("Without n1@h OTP 25 may hang, and restart only one of a and b: give each its own time", view(question, fleet).output)
            self.assertNotIn("hang", view(question, cured).output, question)
        self.assertIn("; OTP may hang: a and b; back:", view("rolling", fleet).output)

    def test_later_ones_stay_down_too(self) -> None:
        """As in OTP 25, if all nodes start all applications: also those that another node would restart."""
        for nodes in ("[n1@h,n2@h,n3@h]", "[n1@h,n4@h,n2@h]", "[n1@h,{n3@h,n4@h}]", "[n1@h,{n4@h,n5@h}]"):
            path = self.path("later.config", FLEET.replace("{c,5000,[n2@h,n3@h,n1@h]}", "{c,7000,%s},{d,3000,[n1@h,n5@h]}" % nodes))
            said = json.loads(view("what-if", path, "--down", "n1", "--json").output)
            self.assertEqual(said["cases"][0]["may_hang"], ["a", "b", "c"], nodes)
            text = next(note["text"] for note in said["notes"] if note["id"] == "EqualTimes")
            self.assertIn("may hang, and restart only some of a, b and c: ", text)
            self.assertIn("While it hangs, n1@h can't start its applications again.", text)

    def test_it_can_fail(self) -> None:
        fleet, cured = self.path("fleet.config", FLEET), self.path("cured.config", FLEET.replace("b,5000", "b,6000"))
        for words in (("load", "--pairs"), ("rolling",)):
            said = view(*words, fleet, "--fail-on", "hang")
            self.assertEqual((said.status, said.errors.count("distac-view: hang: OTP may hang in 1 of")), (1, 1), words)
            failed = json.loads(view(*words, fleet, "--fail-on", "hang", "--json").output)["failed"]
            self.assertEqual([each["what"] for each in failed], ["hang"])
            self.assertEqual(view(*words, fleet).status, 0)
            self.assertEqual(view(*words, cured, "--fail-on", "hang").status, 0)
        self.assertEqual(view("rolling", fleet, "--fail-on", "lost").status, 2)


class Rolls(Files):
    def test_moves_are_the_claims_of_the_script(self) -> None:
        for number in range(COUNT // 2):
            random = Random(f"rolling {number}")
            side = random_side(random)
            drains = random.random() < 0.3
            start = len(side.cluster.story.lines)
            with self.subTest(number=number, drains=drains):
                found = rolling_on(distac(), side, [], drains)
                output = distac().play(side.cluster.story.config, found.story)
                before = distac().play(side.cluster.story.config, found.story[:start])
                claims = [line for line in output[len(before) :] if line.startswith("claim ")]
                self.assertEqual(found.moves, len(claims))

    def test_the_best_of_all_orders(self) -> None:
        for number in range(COUNT // 4):
            random = Random(f"orders {number}")
            side = random_side(random)
            with self.subTest(number=number):
                found = rolling_on(distac(), side, [], False)
                costs = [cost_of(side, order) for order in permutations(sorted(side.nodes))]
                self.assertEqual(cost_of(side, tuple(found.order)), min(costs))
                self.assertEqual(found.compared, len(costs))
                if not found.is_barred:
                    self.assertEqual(found.worst, max(cost[2] for cost in costs))

    def test_what_is_printed(self) -> None:
        lines = view("rolling", self.shop).output.splitlines()
        self.assertEqual(lines[:2], ["No step leaves an application nowhere; the longest outage is 8 s.", "Nodes are shown without @h."])
        self.assertEqual(lines[2], "order shop1 > shop2 > shop3: 8 moves, 16000 ms of waits, restarts longer than 8000 ms (best of 6 orders, the worst has 8 moves)")
        self.assertEqual(lines[4], "2 shop2: down: mail -> shop3 after 5000 ms; back: mail -> shop2 (takeover)")
        drained = view("rolling", self.shop, "--drain", "--order", "shop2@h").output.splitlines()
        self.assertEqual((drained[0], drained[2]), ("No application is left nowhere.", "order shop2: 2 moves, 0 ms of waits, restarts longer than 8000 ms"))
        self.assertEqual(drained[3], "1 shop2: drained: mail -> shop3; down: nothing moves; back: mail -> shop2 (takeover)")
        self.assertEqual(view("rolling", self.shop, "--order", "shop2@h", "shop2@h").status, 2)

    def test_restarts_that_are_shorter_than_waits(self) -> None:
        waits = {"reports": 3000, "billing": 8000, "mail": 5000, "audit": 0}
        for takes, moving in ((1, ["audit"]), (3000, ["audit"]), (5500, ["reports", "mail", "audit"]), (8001, list(waits))):
            answer = json.loads(view("rolling", self.shop, "--takes", str(takes), "--json").output)
            moved = [move["application"] for step in answer["steps"] for move in (*step["down"], *step["back"])]
            waiting = [app for step in answer["steps"] for app in step["waiting"]]
            self.assertEqual((sorted(moved), sorted(waiting)), (sorted(2 * moving), sorted(set(waits) - set(moving))), takes)
            self.assertEqual((answer["takes"], answer["moves"], answer["waits"]), (takes, len(moved), sum(waits[app] for app in moving)))
            self.assertEqual([step["nowhere"] for step in answer["steps"]], [[], [], []])
        lines = view("rolling", self.shop, "--takes", "4000").output.splitlines()
        self.assertIn("4 moves, 3000 ms of waits and 8000 ms down with their nodes, restarts of 4000 ms (", lines[2])
        self.assertIn(" and billing waits; back: audit -> shop1 (takeover) and billing starts again after 4000 ms", "".join(lines))
        for word in ("0", "-1", "5s", "4294967296"):
            self.assertEqual(view("rolling", self.shop, "--takes", word).status, 2)

    def test_a_restart_of_a_later_node(self) -> None:
        """As in OTP 25: the node that is back waits for the one before it, whose wait counts from the loss."""
        now = ("--now", "billing=shop2@h", "mail=shop2@h", "reports=shop3@h", "audit=shop1@h")
        lines = view("rolling", self.shop, "--takes", "2500", "--order", "shop2@h", *now).output.splitlines()
        self.assertEqual(lines[0], "No application is left nowhere; the longest outage is 8 s.")
        self.assertEqual(lines[2], "order shop2: 1 move, 5500 ms of waits and 2500 ms down with their nodes, restarts of 2500 ms")
        self.assertEqual(lines[3], "1 shop2: down: billing waits and mail waits; back: billing -> shop1 after 5500 ms and mail starts again after 2500 ms")

    def test_what_if_says_what_is_presumed(self) -> None:
        first = ["No loss leaves an application nowhere; the longest outage is 83 s.", "Nodes are shown without @h.", "each loss lasts longer than 8000 ms"]
        self.assertEqual(view("what-if", self.shop).output.splitlines()[:3], first)
        said = view("what-if", self.shop, "--takes", "4000", "--down", "shop1@h")
        self.assertEqual(said.output.splitlines()[2], "each loss lasts 4000 ms")
        self.assertRegex(said.output, r"shop1 +billing +shop1 +- +waits +4 s +shop1\n")
        new = self.path("new.config", SHOP.replace("8000", "3000"))
        then = view("what-if", self.shop, "--then", new, "--takes", "4000").output
        self.assertRegex(then, r"~ billing +shop1 down +it waits -> shop2\n")
        answer = json.loads(view("what-if", self.shop, "--takes", "4000", "--down", "shop1@h", "--json").output)
        fates = [(fate["waits"], fate["longest_outage"]) for fate in answer["cases"][0]["applications"]]
        self.assertEqual(fates, [(True, 4000), (False, None), (False, None), (False, 4000)])

    def test_a_mandatory_node_bars_a_boot(self) -> None:
        path = self.path("gate.config", GATED_SHOP)
        now = self.path("now", "shop1@h billing audit\nshop2@h mail\n")
        said = view("rolling", path, "--now", now)
        self.assertEqual(said.status, 1)
        self.assertIn("The restart can't go on after shop2@h, which doesn't come back.", said.output.splitlines()[0])
        self.assertIn("  fault: shop2@h can't come back: it waits 5000 ms for shop3@h, mandatory, and ends. The restart can't go on.", said.output)

    def test_beyond_six_nodes(self) -> None:
        entries = ",".join("{a%d,100,[n%d@h,n%d@h]}" % (each, each, (each + 1) % 8) for each in range(8))
        output = view("rolling", self.path("eight.config", "[{kernel,[{distributed,[%s]}]}]." % entries)).output
        self.assertIn("16 moves, 800 ms of waits, restarts longer than 100 ms (the node with the fewest applications goes next: another order may be better)", output)


def cost_of(side: Side, order: "tuple[str, ...]") -> "tuple[int, ...]":
    """The cost of an order, played as a whole. Nodes after a step that can't go on also count as faults."""
    steps, _ = play_order(Planner(distac(), False), Standing(side.cluster, side.page), order)
    total = [sum(parts) for parts in zip(*(step.cost for step in steps))] or [0, 0, 0, 0]
    return (total[0] + len(order) - len(steps), *total[1:])


class Changed(Files):
    def test_against_two_replies(self) -> None:
        for number in range(COUNT):
            random = Random(f"changes {number}")
            old, new = checked_of(random_config(random)), checked_of(random_config(random))
            changes = changes_between(distac(), Question("x"), old, new)
            before, behind = (fates_of(reply_on(distac(), checked, Question("x"))) for checked in (old, new))
            losses = [key for key in before if key in behind and what_follows(before[key]) != what_follows(behind[key])]
            starts = [(change.app,) for change in changes.changes if not change.down]
            self.assertTrue(all((name,) in starts for name in moved_now(before, behind)))
            with self.subTest(number=number):
                self.assertEqual(sorted((change.app, *change.down) for change in changes.changes), sorted([*losses, *starts]))

    def test_statuses_and_lines(self) -> None:
        entries = "{reports,3000,[shop2@h,shop4@h]},{fax,[shop4@h]}"
        new = self.path("new.config", SHOP.replace("{reports,3000,[shop3@h,shop1@h]}", entries))
        self.assertEqual(view("what-if", self.shop, "--then", self.shop).status, 0)
        said = view("what-if", self.shop, "--then", new)
        self.assertEqual(said.status, 1)
        for line in ("+ fax (application)", "+ shop4@h (node)"):
            self.assertIn(line, said.output.splitlines())
        self.assertRegex(said.output, r"~ reports +now +shop3 -> shop2\n")
        self.assertIn("of 16 answers change", said.output)
        self.assertIn("The lists of reports differ: of two nodes with both files OTP ends one, so one new node may end all old ones.", said.output)
        bad = self.path("bad.config", SHOP.replace("[{kernel", "[{kernel,"))
        for words in ((self.shop, "--then", bad), (bad, "--then", self.shop), (self.shop, "--then", "/no/such/file"), (self.shop, "--then", new, "--after", "x")):
            self.assertEqual(view("what-if", *words).status, 2, words)

    def test_what_no_answer_shows(self) -> None:
        old = self.path("old.config", FULL_SHOP)
        rows: "tuple[tuple[str, str, str, str], ...]" = (
            ("mandatory,[shop1@h,shop2@h,shop3@h]", "mandatory,[]", "~ all nodes  sync_nodes_mandatory  [shop1@h,shop2@h,shop3@h] -> []", "OtherGates"),
            ("optional,[]", "optional,[shop1@h]", "~ all nodes  sync_nodes_optional  [] -> [shop1@h]", "OtherGates"),
            ("timeout,30000", "timeout,300000", "~ all nodes  sync_nodes_timeout  30000 -> 300000", "OtherGates"),
            ("net_ticktime,20", "net_ticktime,60", "~ reports    shop3 down  away for at most 28 s -> 78 s", ""),
            ("shop2@h,shop3@h]},{reports", "shop2@h]},{reports", "~ billing  shop2 down  one loss from nothing", "NoRollingChange"),
            ("billing,8000", "billing,8001", "~ billing  shop1 down  shop2 after 8000 ms -> shop2 after 8001 ms", "MixedTimes"),
            ("{audit,", "{fax,[shop1@h]},{audit,", "+ fax (application)", "AddedMayRunTwice"),
            (",{audit,0,[shop1@h,shop2@h]}", "", "- audit (application)", "GoneRunsEverywhere"),
            ("shop3@h}]},{audit,0,[shop1@h,shop2@h]}", "shop4@h}]}", "- audit (application)", "NoRollingChange GoneRunsEverywhere"),
        )
        for before, behind, line, notes in rows:
            self.assertIn(before, FULL_SHOP)
            words = ("what-if", old, "--then", self.path("new.config", FULL_SHOP.replace(before, behind)))
            said, answer = view(*words), json.loads(view(*words, "--json").output)
            lines = [re.sub(" {2,}", "  ", row) for row in said.output.splitlines()]
            self.assertEqual(said.status, 1, said)
            self.assertIn(re.sub(" {2,}", "  ", line), lines)
            self.assertEqual([each["id"] for each in answer["notes"]], notes.split())

    def test_what_a_rollout_fails_on(self) -> None:
        old = self.path("old.config", FULL_SHOP)
        rows: Sequence[tuple[str, str, list[str]]] = (
            ("billing,8000", "billing,8001", []),
            ("shop2@h,shop3@h]},{reports", "shop2@h]},{reports", ["rollout"]),
            (",{audit,0,[shop1@h,shop2@h]}", "", ["rollout"]),
        )
        for before, behind, failed in rows:
            words = ("what-if", old, "--then", self.path("new.config", FULL_SHOP.replace(before, behind)), "--fail-on", "rollout,lost")
            said = view(*words, "--json")
            self.assertEqual(([each["what"] for each in json.loads(said.output)["failed"]], said.status), (failed, len(failed)), before)
        alone = self.path("alone.config", FULL_SHOP.replace("{audit,0,[shop1@h,shop2@h]}", "{audit,0,[shop1@h]}"))
        self.assertIn("of 16 answers become nowhere, first audit with shop1@h down", view("what-if", old, "--then", alone, "--fail-on", "lost").errors)
        self.assertEqual(view("what-if", old, "--fail-on", "lost").status, 2)

    def test_a_node_that_can_not_come_back(self) -> None:
        old, new = self.path("old.config", FULL_SHOP), self.path("new.config", FULL_SHOP.replace("mandatory,[shop1@h,", "mandatory,["))
        said = view("what-if", old, "--then", new, "--down", "shop1@h", "shop2@h", "--back", "shop2@h")
        self.assertIn("- shop2@h can't come back: it waits 30000 ms for shop1@h, mandatory, and ends. (note)", said.output)
        self.assertRegex(said.output, r"~ mail +shop1 shop2 down +back: shop3 -> shop2\n")
        self.assertIn("- Whom a starting node waits for differs: --down A B --back B says whether", said.output)
        self.assertEqual(said.status, 1)

    def test_a_hang_that_goes(self) -> None:
        old = self.path("old.config", SHOP.replace("mail,5000,[shop2@h,", "mail,8000,[shop1@h,").replace("{shop1@h,shop3@h}", "{shop2@h,shop3@h}"))
        said = view("what-if", old, "--then", self.path("new.config", Path(old).read_text().replace("mail,8000", "mail,9000")))
        self.assertIn("- Without shop1@h OTP 25 may hang, and restart only one of billing and mail", said.output)
        self.assertIn("The times of mail differ: such a file can be rolled out node by node.", said.output)

    def test_what_runs_now_moves(self) -> None:
        new = self.path("new.config", SHOP.replace("[shop2@h,{shop1@h,shop3@h}]", "[shop3@h,{shop1@h,shop2@h}]"))
        said = view("what-if", self.shop, "--then", new, "--now", "mail=shop2@h", "billing=shop1@h")
        self.assertRegex(said.output, r"~ mail +now +shop2 -> shop3\n")


def fates_of(reply: Reply) -> "dict[tuple[str, ...], Fate]":
    """The effect of each loss on each application."""
    return {(fate.app, *case.down): fate for case in reply.cases for fate in case.fates}


def what_follows(fate: Fate) -> "tuple[object, ...]":
    """The effect of a loss on an application. All random files have one net_ticktime: an outage is its wait."""
    able = {node for node, mark in marks_in(fate.marks) if mark == "ok"}
    return fate.then, fate.milliseconds, fate.how == "failover", fate.back, fate.then is not None and able <= {fate.then}


def moved_now(before: "dict[tuple[str, ...], Fate]", behind: "dict[tuple[str, ...], Fate]") -> "set[str]":
    """The applications of both answers that have different places before any loss."""
    both = {key[0] for key in before} & {key[0] for key in behind}
    return {app for app in both if now_of(before, app) != now_of(behind, app)}


def now_of(fates: "dict[tuple[str, ...], Fate]", app: str) -> "str | None":
    """The place of an application before any loss."""
    return next(fate.now for key, fate in fates.items() if key[0] == app)


class Json(Files):
    def test_answers(self) -> None:
        gate = self.path("gate.config", GATED_SHOP)
        now = self.path("now", "shop1@h billing audit\nshop2@h mail\n")
        questions = (
            ("load", self.shop, "--pairs"),
            ("load", gate, "--now", now),
            ("rolling", self.shop, "--drain"),
            ("rolling", gate, "--now", now),
            ("rolling", self.shop, "--takes", "4000"),
            ("load", self.shop, "--pairs", "--most", "1", "--fail-on", "lost,load,hang"),
            ("what-if", self.shop, "--takes", "4000"),
            ("what-if", self.shop, "--then", gate),
            ("what-if", self.shop, "--then", self.path("new.config", SHOP.replace("shop3", "shop4").replace("audit", "fax"))),
            ("what-if", self.shop, "--down", "shop1@h", "shop2@h", "--back", "shop1@h"),
        )
        for words in questions:
            self.assertEqual(documented().faults_of(view(*words, "--json").output), [], words)


class Now(Files):
    """The places of applications, from a file or from words."""

    def test_words_that_do_not_fit(self) -> None:
        rows = (
            (("mial=shop2@h",), "is mail meant?"),
            (("mail=shop9@h",), "no node shop9@h"),
            (("mail=shop1@h", "mail=shop2@h"), "can't run at shop1@h and at shop2@h"),
            (("reports=shop2@h",), "isn't in the list of reports"),
            (("mail=shop1@h", "billing"), "is neither"),
            (("/no/such/file",), "can't be read"),
            ((self.path("empty", "% nothing\n"),), "names no node"),
            ((self.path("wrong", "shop1@h mail\nshop1@h fax\n"),), "wrong:2: the configuration has no application fax"),
        )
        for words, error in rows:
            said = view("what-if", self.shop, "--now", *words)
            self.assertNotEqual(said.status, 0, words)
            self.assertIn(error, said.errors)
        self.assertEqual(view("what-if", self.shop, "--now", "mail=shop1@h", "--after", "x").status, 2)

    def test_what_distac_moves_at_once(self) -> None:
        said = view("what-if", self.shop, "--now", "billing=shop2@h", "--down", "shop3@h")
        self.assertIn("Here shop1@h takes over billing at once: OTP leaves it at shop2@h until shop1@h starts it.", said.output)
        self.assertIn("By --now reports, mail and audit run nowhere. A node that comes back starts it if it is the first of its list", said.output)

    def test_the_part_before_the_host(self) -> None:
        whole = json.loads(view("what-if", self.shop, "--json", "--now", "mail=shop2@h", "billing=shop1@h", "--down", "shop1@h").output)
        file = self.path("now", "shop1 billing\nshop2 mail\nshop3@h\n")
        for now in (("mail=shop2", "billing=shop1"), (file,)):
            short = view("what-if", self.shop, "--json", "--now", *now, "--down", "shop1", "--back", "shop1")
            self.assertEqual(json.loads(short.output), whole)
        self.assertEqual(view("what-if", self.shop, "--then", self.shop, "--down", "shop1").status, 0)
        self.assertEqual(view("rolling", self.shop, "--order", "shop2", "shop1").output.splitlines()[2][:24], "order shop2 > shop1: 6 m")
        two = self.path("two.config", "[{kernel,[{distributed,[{a,1,[x@h,x@k,y@k]}]}]}].")
        self.assertEqual((view("what-if", two, "--down", "x").status, view("what-if", two, "--down", "y").status), (2, 0))
        self.assertIn("several nodes x: write one of x@h, x@k, or its host", view("what-if", two, "--down", "x").errors)

    def test_the_part_behind_the_host(self) -> None:
        text = "[{kernel,[{distributed,[{a,1,['rel@10.0.0.1','rel@10.0.0.2']},{b,2,['rel@10.0.0.2']}]}]}]."
        path = self.path("release.config", text)
        whole = view("what-if", path, "--down", "rel@10.0.0.1").output
        for word in ("10.0.0.1", "@10.0.0.1", "'10.0.0.1'"):
            self.assertEqual(view("what-if", path, "--down", word).output, whole)
        self.assertIn("several nodes rel: write one of rel@10.0.0.1, rel@10.0.0.2, or its host", view("what-if", path, "--down", "rel").errors)
        self.assertIn("several nodes rel: ", view("what-if", path, "--now", "a=rel").errors)
        self.assertEqual(view("what-if", path, "--now", "a=10.0.0.2", "b=10.0.0.2").status, 0)

    def test_a_node_that_is_off_comes_back(self) -> None:
        now = ("--now", self.path("now", "shop2@h billing mail audit\nshop3@h reports\n"))
        fates = self.fates(*now, "--back", "shop1")
        self.assertEqual(fates["billing"], ("shop2@h", "shop2@h", "shop1@h"))
        self.assertEqual(view("what-if", self.shop, *now, "--back", "shop2").status, 2)
        self.assertIn("has to be one of --down, or off by --now", view("what-if", self.shop, "--back", "shop1").errors)

    def test_what_no_node_started(self) -> None:
        """As in OTP 25: a node that comes back starts it if it is the first one, and else waits for nodes before it."""
        rows = (("shop2@h mail\nshop3@h reports\n", "shop1", "shop1@h"), ("shop1@h audit\nshop2@h mail\n", "shop3", None))
        for text, back, place in rows:
            fates = self.fates("--now", self.path("now", text), "--back", back)
            self.assertEqual(fates["billing"], (None, None, place), back)
        tuples = (("shop1@h billing\nshop3@h reports\n", "shop2", "shop2@h"), ("shop1@h billing\nshop2@h audit\n", "shop3", None))
        for text, back, place in tuples:
            self.assertEqual(self.fates("--now", self.path("now", text), "--back", back)["mail"], (None, None, place), back)

    def test_what_was_lost_with_all_its_nodes(self) -> None:
        """As in OTP 25: the first of its nodes that comes back starts it."""
        now = ("--now", self.path("now", "shop3@h mail reports\n"))
        said = view("what-if", self.shop, *now, "--back", "shop1")
        ids = [note["id"] for note in json.loads(view("what-if", self.shop, *now, "--back", "shop1", "--json").output)["notes"]]
        alone = [each for each in ("billing", "audit") if self.fates(*now, "--back", "shop1")[each] == (None, None, "shop1@h")]
        self.assertIn("No node that is up can run ", said.output)
        self.assertTrue(alone, said.output)
        self.assertIn("LostWithNodes", ids)

    def fates(self, *words: str) -> "dict[str, tuple[str | None, ...]]":
        """The places of each application in the only case."""
        (case,) = json.loads(view("what-if", self.shop, *words, "--json").output)["cases"]
        return {fate["application"]: (fate["now"], fate["then"], fate["back"]) for fate in case["applications"]}

    def test_what_nodes_answered(self) -> None:
        answers = self.path("answers", "\nshop1@h billing audit\n{ok, ok}\nshop2@h mail\n{ok, ok}\n'shop3@h' reports\nok\n:ok\n{ok,ok}")
        answer = json.loads(view("load", self.shop, "--json", "--now", answers).output)
        self.assertEqual([count["applications"] for count in answer["losses"][0]["load"]], [2, 1, 1])
        for language in ("now", "elixir-now"):
            self.assertIn("which_applications", view("gather", "--print-command", language).output)

    def test_no_table_shows_quotes(self) -> None:
        path = self.path("quoted.config", QUOTED_SHOP)
        now = ("--now", "Billing=shop-2@h", "audit=shop1@10.0.0.1")
        new = self.path("new.config", QUOTED_SHOP.replace("5000", "6000").replace(",'shop1@10.0.0.1'", ""))
        for words in (("what-if", path), ("what-if", path, *now), ("rolling", path), ("rolling", path, *now), ("load", path, *now), ("what-if", path, "--then", new)):
            self.assertNotRegex(view(*words).output, r"'(shop|Billing)|@\S+'", words)

    def test_names_in_quotes(self) -> None:
        path = self.path("quoted.config", "[{kernel,[{distributed,[{'My-App',1,['a=b@h','c-d@h']}]}]}].")
        for words in (("'My-App'='a=b@h'",), ("My-App=a=b@h",), (self.path("now", "a=b@h My-App\n'c-d@h'\r\n"),)):
            answer = json.loads(view("what-if", path, "--now", *words, "--json").output)
            self.assertEqual([fate["now"] for case in answer["cases"] for fate in case["applications"]], ["a=b@h", "a=b@h"])
