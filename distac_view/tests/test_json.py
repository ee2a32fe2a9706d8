"""Answers as JSON have the form described in docs/FORMATS.md."""

from __future__ import annotations

import unittest
from pathlib import Path
from random import Random

from support import EXAMPLES, MISTAKES, InRoom, view
from json_schema import SCHEMA, described, documented, text_of
from test_what_if import random_config

MANUAL, FAILOVER = str(EXAMPLES / "manual.config"), str(EXAMPLES / "failover.distac")
QUOTED = "[{kernel,[{distributed,[{'Shop',5000,['shop1@10.0.0.11',{'shop-2@h','a=b@h'}]}]}]}].\n"


class Schema(InRoom):
    def path(self, text: str) -> str:
        return str(self.write("cluster.config", text))


class Answers(Schema):
    def test_examples(self) -> None:
        for path in sorted(EXAMPLES.glob("*.config")):
            self.answer(0, "what-if", str(path))
        self.answer(0, "what-if", MANUAL, "--after", FAILOVER)
        self.answer(0, "what-if", MANUAL, "--down", "cp1@cave", "cp2@cave", "cp3@cave")
        self.answer(0, "what-if", MANUAL, "--not-started", "cp1@cave", "--down", "cp1@cave", "cp2@cave")

    def test_random_configurations(self) -> None:
        for number in range(25):
            text = random_config(Random(f"json {number}"))
            with self.subTest(number=number, text=text):
                self.answer(0, "what-if", self.path(text))

    def test_names_have_no_quotes(self) -> None:
        answer = self.answer(0, "what-if", self.path(QUOTED))
        self.assertEqual(answer["nodes"], ["a=b@h", "shop-2@h", "shop1@10.0.0.11"])
        fate = answer["cases"][2]["applications"][0]
        self.assertEqual((fate["application"], fate["now"], fate["then"]), ("Shop", "shop1@10.0.0.11", "a=b@h"))
        marks = [(place["node"], place["mark"]) for place in fate["list"]]
        self.assertEqual(marks, [("shop1@10.0.0.11", "down"), ("a=b@h", "ok"), ("shop-2@h", "ok")])

    def test_bytes_of_names_are_kept(self) -> None:
        answer = self.answer(0, "what-if", self.path(QUOTED.replace("shop-2", "\udcffé")))
        self.assertIn("\udcffé@h", answer["nodes"])

    def test_ids_of_notes(self) -> None:
        def ids_of(*words: str) -> tuple[str, ...]:
            return tuple(note["id"] for note in self.answer(0, "what-if", *words)["notes"])

        self.assertEqual(ids_of(MANUAL), ("Outage", "FirstTick", "TupleLoad", "StartedAgain"))
        both = ids_of(MANUAL, "--not-started", "cp2@cave", "--down", "cp1@cave")
        both += ids_of(MANUAL, "--down", "cp1@cave", "cp2@cave")
        self.assertTrue({"NotStarted", "NoSplit"} <= set(both), both)


class Others(Schema):
    """Answers of `check` and `gather`, and faults, which have their own status."""

    def test_check(self) -> None:
        fine, bad = self.path(QUOTED), str(MISTAKES / "c03_missing_comma.config")
        answer = self.answer(2, "check", fine, bad, "/no/such/file")
        self.assertEqual([each["configuration"] is None for each in answer["files"]], [False, True, True])
        faults = [each["remarks"][0] for each in answer["files"][1:]]
        self.assertEqual([(each["kind"], each["id"], each["line"]) for each in faults], [("fault", "BadShape", 1), ("fault", None, None)])

    def test_gather(self) -> None:
        path = self.path("[{kernel,[{distributed,[{a,1,[x@h,y@h]}]},{sync_nodes_mandatory,[y@h]}]}].")
        answer = self.answer(1, "gather", f"x={path}", "--strict")
        self.assertEqual([each["id"] for each in answer["remarks"]], ["OwnAdded", "NoFile", "NoSyncTime"])
        self.assertEqual(answer["text"].splitlines()[-1], answer["configuration"])
        output = str(self.room / "written")
        answer = self.answer(0, "gather", f"x={path}", "--strict", "--allow", "OwnAdded", "NoFile", "NoSyncTime", "-o", output)
        self.assertEqual(Path(output).read_text(), answer["text"])

    def test_faults(self) -> None:
        bad = str(MISTAKES / "c03_missing_comma.config")
        questions = (("what-if", bad), ("rolling", bad), ("load", bad, "--fail-on", "lost"), ("what-if", MANUAL, "--then", bad), ("gather", f"x={bad}"))
        for words in questions:
            fault = self.answer(2, *words)["fault"]
            self.assertEqual((fault["file"], fault["line"], fault["kind"]), (bad, 1, "fault"), words)
        others = (("what-if", MANUAL, "--down", "cp9@cave"), ("load", "/no/such/file"), ("load", MANUAL, "--fail-on", "x"), ("gather",))
        for other in others:
            fault = self.answer(2, *other)["fault"]
            self.assertEqual((fault["id"], fault["file"]), (None, None), other)


class Validator(unittest.TestCase):
    """The validator refuses everything that isn't described."""

    def test_the_schema_is_that_of_the_tables(self) -> None:
        self.assertEqual(SCHEMA.read_text(encoding="utf-8"), text_of(described()), "python3 view/tests/json_schema.py --write")

    def test_what_is_refused(self) -> None:
        schema = documented()
        text = view("what-if", MANUAL, "--json").output
        changes = (
            ('"version": 1', '"version": 2'),
            ('"version": 1', '"version": true'),
            ('"question": "what-if"', '"question": "other"'),
            ('"how": "failover"', '"how": "fails"'),
            ('"milliseconds": 5000', '"milliseconds": "5000"'),
            ('"stopped": false', '"stopped": null'),
            ('"now": "cp1@cave",', ""),
            ('"mark": "ok"', '"mark": "fine"'),
            ('"id": "FirstTick"', '"id": "SomeOther"'),
            ('"notes": [', '"more": 1, "notes": ['),
        )
        self.assertEqual(schema.faults_of(text), [])
        for old, new in changes:
            self.assertIn(old, text)
            self.assertTrue(schema.faults_of(text.replace(old, new)), (old, new))
