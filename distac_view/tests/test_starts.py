"""The beginnings and ends of questions: start gates, splits, nodes declared down, and applications at their present
places.

A case written in one go is compared with the case played step by step.
"""

from __future__ import annotations

import json
import unittest
from functools import partial
from pathlib import Path
from random import Random
from unittest import mock

from support import EXAMPLES, IS_STAND_IN, InRoom, distac, view
from check import read_config
from random_scripts import CALM, CONFIGS, DRAINS, PAUSES, ScriptMaker
from test_what_if import random_config
from distac_view.answering.caveats import notes_on
from distac_view.answering.outages import outage_of
from distac_view.answering.what_if import Question, Reply, reply_on
from distac_view.asking import openings
from distac_view.asking.cases import Course, Loss, careful_course, first_pages, quick_course
from distac_view.asking.cluster import share_all
from distac_view.asking.inputs import check_config
from distac_view.asking.openings import Side, opened, opened_after
from distac_view.asking.running_now import Placed, opened_now
from distac_view.asking.script_builder import Miscounted
from distac_view.asking.snapshots import page_of
from distac_view.common.output import Progress
from distac_view.reading.configuration import Checked
from distac_view.reading.forbidden import comment_of, forbidden_in

COUNT = 60 if IS_STAND_IN else 300
# This random case needs two rounds at the moment at which the waits of a return end.
TWO_ROUNDS = 5209
GATED = (
    "[{kernel,[{distributed,[{myapp,5000,[cp1@cave,{cp2@cave,cp3@cave}]}]},"
    "{sync_nodes_mandatory,[cp1@cave,cp2@cave,cp3@cave]},{sync_nodes_timeout,5000}]}].\n"
)
FORBIDDEN = """\
%% forbidden myapp at b@h
%% forbidden other at a@h
[{kernel,[{distributed,[{myapp,1000,[a@h,b@h,c@h]},{other,2000,[a@h,c@h,b@h]}]}]}].
"""
TUPLES = "[{kernel,[{distributed,[{x,0,[{a@h,b@h}]},{y,0,[{a@h,b@h}]}]}]}].\n"
UP = "boot cp1@cave 0\nboot cp2@cave 0\nboot cp3@cave 0\nshare\n"
STARTED = UP + "".join(f"start {node} myapp {node}\n" for node in ("cp1@cave", "cp2@cave", "cp3@cave")) + "share\n"
WITHOUT_CP3 = "share\ncrash cp3@cave\ndown cp1@cave cp3@cave\nshare\n"


def checked_of(text: str) -> Checked:
    """A configuration without faults."""
    return check_config(distac(), "x", text.encode())


class Asked(InRoom):
    def setUp(self) -> None:
        super().setUp()
        self.path = self.room / "script"

    def reply(self, config: str, script: str, *down: str) -> Reply:
        self.path.write_text(config + "--\n" + script)
        return reply_on(distac(), checked_of(config), Question("x", list(down), after=str(self.path)))

    def texts(self, reply: Reply) -> str:
        """All notes below a reply."""
        return "\n".join(note.text for note in notes_on(reply))


class Gates(Asked):
    """Nodes that wait at their start gate, and give up."""

    def test_a_node_that_gives_up_loses_nothing(self) -> None:
        ticks = "tick cp1@cave 10\ntick cp2@cave 10\ntick cp3@cave 10\n"
        reply = self.reply(GATED, STARTED + ticks + WITHOUT_CP3)
        fates = [case.fates[0] for case in reply.cases]
        places = [("cp2@cave", "cp2@cave"), ("cp1@cave", "cp1@cave"), ("cp1@cave", "cp1@cave")]
        self.assertEqual([(fate.then, fate.back) for fate in fates], places)
        self.assertIn("cp1@cave can't come back: it waits 5000 ms for cp3@cave, mandatory, and ends.", self.texts(reply))

    def test_nodes_that_gave_up_before(self) -> None:
        reply = self.reply(GATED, STARTED + "tick cp1@cave 10\n" + WITHOUT_CP3, "cp1@cave")
        self.assertEqual((reply.cases[0].fates[0].then, reply.cases[0].fates[0].back), (None, None))
        self.assertIn("cp2@cave is down: it waited 5000 ms for cp3@cave, mandatory, and ended.", self.texts(reply))
        self.assertIn("it waits 5000 ms for cp2@cave and cp3@cave, mandatory, and ends.", self.texts(reply))

    def test_one_comes_back_alone(self) -> None:
        question = Question("x", ["cp1@cave", "cp3@cave"], back=["cp1@cave"])
        reply = reply_on(distac(), checked_of(GATED), question)
        self.assertEqual((reply.cases[0].fates[0].then, reply.cases[0].fates[0].back), ("cp2@cave", "cp2@cave"))
        self.assertIn("cp1@cave can't come back", self.texts(reply))
        without_gates = checked_of(GATED.replace("sync_nodes_timeout", "unread"))
        self.assertEqual(reply_on(distac(), without_gates, question).cases[0].fates[0].back, "cp1@cave")

    def test_waits_without_end(self) -> None:
        endless = GATED.replace("{sync_nodes_timeout,5000}", "{sync_nodes_timeout,infinity}")
        reply = self.reply(endless, STARTED.replace("boot cp3@cave 0\n", ""))
        self.assertIn("cp1@cave does nothing yet: it waits without end for cp3@cave, mandatory.", self.texts(reply))

    def test_starts_that_are_missing(self) -> None:
        manual = (EXAMPLES / "manual.config").read_text()
        sentence = "myapp isn't started at cp2@cave: OTP waits for cp2@cave to start it, without end: it runs nowhere."
        never = STARTED.replace("start cp2@cave myapp cp2@cave\n", "") + "tick cp1@cave 1\nshare\n"
        stopped = STARTED + "tick cp1@cave 1\nshare\nstop cp2@cave myapp cp2@cave\nshare\n"
        for script in (never, stopped):
            reply = self.reply(manual, script, "cp1@cave")
            self.assertEqual(reply.cases[0].fates[0].then, "cp3@cave")
            self.assertIn(sentence, self.texts(reply))


class Splits(Asked):
    """A script that ends in a split, or with a node that was declared down."""

    def test_each_side_is_asked_by_itself(self) -> None:
        config, script = (EXAMPLES / "split.distac").read_text().split("--\n", 1)
        reply = self.reply(config, script[: script.index("page cp1@cave")])
        self.assertEqual([answers.side.nodes for answers in reply.sides], [["cp1@cave"], ["cp2@cave", "cp3@cave"]])
        found = [(case.down, fate.now, fate.then, fate.back) for case in reply.cases for fate in case.fates]
        self.assertEqual(found[0], (["cp1@cave"], "cp1@cave", None, "cp1@cave"))
        self.assertEqual(found[1], (["cp2@cave"], "cp2@cave", "cp3@cave", "cp3@cave"))
        self.assertEqual(found[2], (["cp3@cave"], "cp2@cave", "cp2@cave", "cp2@cave"))
        self.assertIn("--after ends in a split: cp1@cave; cp2@cave and cp3@cave.", self.texts(reply))

    def test_a_node_that_heard_that_it_is_down(self) -> None:
        manual = (EXAMPLES / "manual.config").read_text()
        reply = self.reply(manual, STARTED + "tick cp1@cave 1\nshare\ndown cp2@cave cp1@cave\nshare\n", "cp1@cave")
        fate = reply.cases[0].fates[0]
        self.assertEqual((fate.now, fate.then, fate.back), ("cp2@cave", "cp2@cave", "cp1@cave"))
        self.assertIn("cp1@cave runs and was said to be down", self.texts(reply))

    def test_the_table_names_its_sides(self) -> None:
        config, script = (EXAMPLES / "split.distac").read_text().split("--\n", 1)
        self.path.write_text(config + "--\n" + script[: script.index("page cp1@cave")])
        output = view("what-if", str(self.write("some.config", config)), "--after", str(self.path)).output
        self.assertIn("side of cp1@cave:\n", output)
        self.assertIn("side of cp2@cave and cp3@cave:\n", output)


def some_sides(random: Random, path: Path) -> list[Side]:
    """The sides of a random start: all came up, or applications have given places, or after a script."""
    kind = random.choice(("up", "now", "after"))
    if kind == "after":
        text = random.choice([config for config in CONFIGS if b" " not in config.replace(b", ", b"")])
        maker = ScriptMaker(random, read_config(text))
        maker.open()
        maker.some(random.choice((CALM, PAUSES, DRAINS)), random.choice((5, 15, 30)))
        path.write_bytes(text + b"\n--\n" + b"\n".join(maker.lines) + b"\n")
        checked = check_config(distac(), "x", text)
        return opened_after(distac(), checked, str(path)) if all(" " not in name for name in checked.configuration.nodes) else []
    checked = checked_of(random_config(random))
    nodes = checked.configuration.nodes
    if kind == "up":
        return [opened(distac(), checked, [node for node in nodes if random.random() < 0.1])]
    return [opened_now(distac(), checked, random_places(random, checked))]


def random_places(random: Random, checked: Checked) -> Placed:
    """Some nodes that are up, with applications at random ones of them."""
    up = [node for node in checked.configuration.nodes if random.random() < 0.8] or checked.configuration.nodes
    places = {}
    for each in checked.configuration.applications:
        able = [node for node in each.nodes if node in up]
        if able and random.random() < 0.9:
            places[each.name] = random.choice(able)
    return Placed(places, up)


class Forbidden(Asked):
    """Permissions of single nodes, as in comments above a configuration."""

    def setUp(self) -> None:
        super().setUp()
        self.path.write_text(FORBIDDEN)

    def fates(self, *words: str) -> "list[tuple[object, ...]]":
        """The places of each application: now, then and back."""
        answer = json.loads(view("what-if", str(self.path), "--json", *words).output)
        return [(fate["now"], fate["then"], fate["back"]) for fate in answer["cases"][0]["applications"]]

    def test_a_node_forbids_it_at_each_boot(self) -> None:
        self.assertEqual(self.fates("--down", "a@h"), [("a@h", "c@h", "a@h"), ("c@h", "c@h", "c@h")])
        self.assertEqual(self.fates("--down", "b@h"), [("a@h", "a@h", "a@h"), ("c@h", "c@h", "c@h")])
        now = ("--now", "myapp=c@h", "other=b@h")
        self.assertEqual(self.fates("--down", "c@h", *now), [("c@h", "a@h", "a@h"), ("b@h", "b@h", "c@h")])

    def test_other_comments_say_nothing(self) -> None:
        config = FORBIDDEN[FORBIDDEN.index("[") :]
        for comment in ("% forbidden", "%% forbidden myapp at d@h", "%% forbidden fax at a@h", "%% forbidden myapp at a@h or b@h"):
            self.assertEqual(forbidden_in(checked_of(f"{comment}\n{config}")), [], comment)
        self.assertEqual(forbidden_in(checked_of(f"%forbidden 'myapp' at 'a@h'\r\n{config}")), [("a@h", "myapp")])

    def test_comments_that_forbid_nothing(self) -> None:
        self.path.write_text(FORBIDDEN.replace("other at a@h", "other at d@h"))
        said = view("check", str(self.path), "--strict")
        self.assertEqual(said.status, 1)
        self.assertIn("script:2:14: UnknownForbidden: d@h is in no list of an application other: this comment forbids nothing", said.errors)
        self.path.write_text(FORBIDDEN)
        self.assertEqual(view("check", str(self.path), "--strict").status, 0)

    def test_what_another_file_forbids_is_a_change(self) -> None:
        new = self.path.with_name("new")
        new.write_text(FORBIDDEN.replace("myapp at b@h", "myapp at c@h"))
        said = view("what-if", str(self.path), "--then", str(new))
        self.assertRegex(said.output, r"~ myapp +forbidden +\[b@h\] -> \[c@h\]\n")
        self.assertEqual(said.status, 1)

    def test_where_now_is_guessed(self) -> None:
        self.path.write_text(TUPLES)
        script = self.path.with_name("lines")
        for lines, is_guessed in (("", True), ("tick a@h 0\ntick b@h 0\nshare\n", False)):
            script.write_text(f"{TUPLES}--\nboot a@h 0\nboot b@h 0\nshare\nstart a@h x a@h\nstart a@h y a@h\nshare\n{lines}")
            answer = json.loads(view("what-if", str(self.path), "--after", str(script), "--json").output)
            self.assertEqual("StartedAtOnce" in [note["id"] for note in answer["notes"]], is_guessed)
        for question in ("what-if", "rolling", "load"):
            for words, is_guessed in (((), True), (("--now", "x=a@h", "y=b@h"), False)):
                answer = json.loads(view(question, str(self.path), "--json", *words).output)
                self.assertEqual("StartedAtOnce" in [note["id"] for note in answer["notes"]], is_guessed, question)


class Courses(Asked):
    def test_the_start_holds_what_now_says(self) -> None:
        for number in range(COUNT):
            random = Random(f"now {number}")
            checked = checked_of(random_config(random))
            placed = random_places(random, checked)
            with self.subTest(number=number):
                side = opened_now(distac(), checked, placed)
                found = {name: held.runs_at for name, held in side.page.held.items() if held.runs_at}
                self.assertEqual((found, side.nodes), (placed.places, placed.up))

    def test_quick_and_careful_cases_are_equal(self) -> None:
        quick_ones = 0
        for number in (*range(COUNT), TWO_ROUNDS):
            random = Random(f"courses {number}")
            for side in some_sides(random, self.path):
                loss = self.random_loss(random, side)
                with self.subTest(number=number, loss=loss):
                    quick_ones += self.compare(side, loss)
        self.assertGreater(quick_ones, COUNT // 3)

    def test_permissions_of_single_nodes(self) -> None:
        for number in range(COUNT // 2):
            random = Random(f"forbidden {number}")
            text = random_config(random)
            pairs = [(each.name, node) for each in checked_of(text).configuration.applications for node in each.nodes]
            checked = checked_of("".join(f"{comment_of(*pair)}\n" for pair in pairs if random.random() < 0.3) + text)
            side = opened(distac(), checked, []) if random.random() < 0.5 else opened_now(distac(), checked, random_places(random, checked))
            loss = self.random_loss(random, side)
            with self.subTest(number=number, loss=loss):
                self.compare(side, loss)

    def random_loss(self, random: Random, side: Side) -> Loss:
        """Some nodes that go down, and some of them that come back."""
        down = random.sample(side.members, random.choice((1, 1, min(2, len(side.members)))))
        back = [node for node in down if random.random() < 0.8]
        not_started = [node for node in down if random.random() < 0.1]
        return Loss(sorted(down), sorted(back), not_started, random.choice((None, None, 1, 2000, 4000)))

    def compare(self, side: Side, loss: Loss) -> bool:
        """Compares a case written in one go with the case played step by step. Returns whether there is one."""
        careful = careful_course(distac(), side.cluster, loss)
        self.no_living_holder_is_missed(careful)
        try:
            at_once = first_pages(distac(), side.cluster, [loss])[0]
            is_left = bool(set(side.nodes) - set(loss.down))
            quick_ones = [quick_course(distac(), side.cluster, loss, at_once, is_wide) if is_left else None for is_wide in (False, True)]
        except Miscounted:
            return False
        for quick in quick_ones:
            if quick:
                self.no_living_holder_is_missed(quick)
                self.assertEqual(what_counts(quick), what_counts(careful))
        return quick_ones[0] is not None

    def no_living_holder_is_missed(self, course: Course) -> None:
        """What is nowhere at the end has no running holder, says any running node once all was told."""
        cluster = course.cluster.copy()
        share_all(distac(), cluster)
        pages = {one.actor: page_of(one.answer) for one in cluster.story.play(distac(), *(f"page {node}" for node in cluster.nodes))}
        for page in pages.values():
            for name, held in page.held.items():
                if held.holder in pages and pages[held.holder].inc == held.inc:
                    self.assertTrue(course.back.held[name].runs_at, (name, held))


def what_counts(course: Course) -> tuple[object, ...]:
    """Everything shown of a case."""
    pages = (course.at_once, course.then, course.back)
    held = [{name: (each.runs_at, each.verdict, each.marks) for name, each in page.held.items()} for page in pages]
    return (*held, course.claims, course.claims_back)


class EqualTimes(unittest.TestCase):
    """A note if OTP may fail to restart applications with equal waits."""

    def ids_of(self, times: "tuple[int, int]", lists: str, *down: str) -> "list[str]":
        """The ids of all notes on two applications with these times."""
        text = "[{kernel,[{distributed,[{a1,%d,[%s]},{a2,%d,[%s]}]}]}]." % (times[0], lists, times[1], lists)
        return [note.id for note in notes_on(reply_on(distac(), checked_of(text), Question("x", list(down))))]

    def test_which_cases_have_a_note(self) -> None:
        tuples, none = "cp1@h,{cp2@h,cp3@h}", "cp1@h,cp2@h,cp3@h"
        self.assertIn("EqualTimes", self.ids_of((400, 400), tuples, "cp1@h"))
        self.assertNotIn("EqualTimes", self.ids_of((400, 420), tuples, "cp1@h"))
        self.assertNotIn("EqualTimes", self.ids_of((400, 400), tuples, "cp2@h"))
        self.assertNotIn("EqualTimes", self.ids_of((400, 400), tuples, "cp1@h", "cp2@h"))
        self.assertNotIn("EqualTimes", self.ids_of((400, 400), none, "cp1@h"))


class Outages(unittest.TestCase):
    """The wait and the noticing before it, by net_ticktime."""

    def test_where_the_tick_time_stands(self) -> None:
        text = "[{kernel,[%s{distributed,[{a,5000,[x@h,y@h]}]}]}]."
        rows = (
            (text % "", 60, "5 to 80 s"),
            (text % "{net_ticktime,20},", 20, "5 to 30 s"),
            ("%% net_ticktime 10\n" + text % "", 10, "5 to 17.5 s"),
            (text % "{net_ticktime,0},", 60, "5 to 80 s"),
            (text % "{net_ticktime,[1]},", 60, "5 to 80 s"),
        )
        for config, seconds, outage in rows:
            reply = reply_on(distac(), checked_of(config), Question("x", ["x@h"]))
            self.assertEqual((reply.tick_time, outage_of(reply.cases[0].fates[0].milliseconds or 0, reply.tick_time)), (seconds, outage))


def counted(done: int) -> tuple[int, int]:
    """The number of finished ones of three cases."""
    return done, 3


class Progressing(unittest.TestCase):
    def test_it_counts_cases(self) -> None:
        progress = Progress()
        progress.ask()
        self.assertEqual(progress.what, "question 1 to distac")
        for done, what in ((0, "case 1 of 3"), (2, "case 3 of 3"), (3, "case 3 of 3")):
            progress.cases = partial(counted, done)
            self.assertEqual(progress.what, what)


class Plays(unittest.TestCase):
    """A case costs one play."""

    def test_starts_in_one_play_are_those_in_turn(self) -> None:
        count = 0
        for number in range(COUNT):
            random = Random(f"in turn {number}")
            text = random_config(random)
            checked, idle = checked_of(text), [node for node in ("a@h", "b@h", "c@h") if random.random() < 0.15]
            barred = [(each.name, node) for each in checked.configuration.applications for node in each.nodes if random.random() < 0.1]
            checked = checked_of("".join(f"{comment_of(*pair)}\n" for pair in barred) + text)
            with mock.patch.object(openings, "started_in_turn", wraps=openings.started_in_turn) as in_turn:
                quick = opened(distac(), checked, idle)
            with mock.patch.object(openings, "started_unseen", return_value=None) as unseen:
                plain = opened(distac(), checked, idle)
            count += unseen.called
            with self.subTest(number=number, text=text, idle=idle, barred=barred):
                self.assertFalse(in_turn.called)
                self.assertEqual((quick.page.held, quick.nodes, quick.is_guessed), (plain.page.held, plain.nodes, plain.is_guessed))
        self.assertGreater(count, COUNT // 4)

    def test_the_count_of_plays(self) -> None:
        lists = [(each, 1000 * each, each, (each + 1) % 9, (each + 5) % 9) for each in range(9)]
        text = "[{kernel,[{distributed,[%s]}]}]." % ",".join("{a%d,%d,[n%d@h,{n%d@h,n%d@h}]}" % each for each in lists)
        asked, program = [], distac()
        program.is_asked = lambda: asked.append(1)
        reply = reply_on(program, checked_of(text), Question("x"))
        self.assertEqual((len(reply.cases), program.cases, program.cases_done), (9, 9, 9))
        self.assertLessEqual(len(asked), 9 + 5)
