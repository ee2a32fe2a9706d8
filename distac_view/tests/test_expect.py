"""`expect`: a folder of questions, compared with stored answers."""

import os
import shutil
import unittest
from pathlib import Path
from typing import Any

from support import EXAMPLES, InRoom, Said, run_view, view
from distac_view.cli.expect import within

CONFIG = "[{kernel,[{distributed,[{a,500,[x@h,y@h]}]}]}].\n"
DOWN = "# a comment\nwhat-if\n  'cluster.config' # another\n--down x@h\n"


class Folder(InRoom):
    """A folder with two questions."""

    def setUp(self) -> None:
        super().setUp()
        self.folder = self.room / "questions"
        self.write("cluster.config", CONFIG)
        self.write("down.question", DOWN)
        self.write("load.question", "load cluster.config --fail-on lost")
        self.assertEqual(self.ask("--write").status, 0)

    def write(self, name: str, text: str) -> Path:
        return super().write(f"questions/{name}", text)

    def ask(self, *words: str) -> Said:
        """The output of `expect` for the folder."""
        before = os.getcwd()
        said = view("expect", str(self.folder), *words)
        self.assertEqual(os.getcwd(), before)
        return said

    def json(self, status: int, *words: str) -> Any:
        return self.answer(status, "expect", str(self.folder), *words)["answers"]

    def test_as_stored(self) -> None:
        said = self.ask()
        self.assertEqual((said.status, said.output, said.errors), (0, "2 of 2 answers are as stored\n", ""))
        answer = (self.folder / "down.answer").read_text()
        self.assertTrue(answer.startswith("status 0\nNo application is left nowhere"), answer)
        self.assertNotIn("standard error", answer)
        self.assertEqual([each["verdict"] for each in self.json(0)], ["same", "same"])

    def test_a_changed_configuration(self) -> None:
        self.write("cluster.config", CONFIG.replace("500", "600"))
        said = self.ask()
        self.assertEqual(said.status, 1)
        self.assertIn("down: what-if cluster.config --down x@h\n@@ ", said.output)
        self.assertIn("\n-each loss lasts longer than 500 ms\n+each loss lasts longer than 600 ms\n", said.output)
        self.assertTrue(said.output.endswith("\n1 of 2 answers are as stored\n"), said.output)
        self.assertEqual(self.ask("load").status, 0)
        one, other = self.json(1)
        self.assertEqual((one["name"], one["verdict"], other["verdict"]), ("down", "differs", "same"))
        self.assertEqual((one["words"], one["status"], one["written"]), (["what-if", "cluster.config", "--down", "x@h"], 0, False))
        self.assertEqual(one["answer"], one["stored"].replace("500 ms", "600 ms").replace("0.5 to 75.5", "0.6 to 75.6").replace("is 75.5", "is 75.6"))
        said = self.ask("--write")
        self.assertEqual((said.status, said.output), (0, "down: written, status 0\n1 of 2 answers are written\n"))
        self.assertEqual(self.ask().status, 0)

    def test_statuses(self) -> None:
        self.write("cluster.config", CONFIG.replace("x@h,y@h", "x@h"))
        said = self.ask("load")
        self.assertEqual(said.status, 1)
        self.assertIn("\n-status 0\n", said.output)
        self.assertIn("\n+status 1\n", said.output)
        self.assertIn("\n+standard error:\n+distac-view: lost: ", said.output)
        self.write("cluster.config", CONFIG.replace("[{kernel", "[kernel"))
        said = self.ask()
        self.assertEqual(said.status, 2)
        self.assertIn("\n+status 2\n+cluster.config:1:2: BadShape", said.output)
        self.assertEqual(self.ask("--write").status, 0)
        self.assertEqual(self.ask().status, 0)

    def test_missing_files(self) -> None:
        (self.folder / "down.answer").unlink()
        self.write("old.answer", "status 0\n")
        said = self.ask()
        self.assertEqual(said.status, 1)
        self.assertIn("\n+status 0\n", said.output)
        self.assertIn("old: no question has this answer any more\n", said.output)
        self.assertEqual([each["verdict"] for each in self.json(1)], ["new", "same", "left"])
        self.assertEqual([(each["verdict"], each["written"]) for each in self.json(1, "--write")], [("new", True), ("same", False), ("left", False)])
        self.assertEqual((self.folder / "old.answer").read_text(), "status 0\n")

    def test_pipes(self) -> None:
        self.write("piped.question", "gather x@h=cluster.config | what-if - --down x@h")
        self.ask("piped", "--write")
        answer = (self.folder / "piped.answer").read_text()
        self.assertIn("\nstandard error:\ndistac-view: NoFile: no file was given for y@h", answer)
        self.assertEqual(answer.split("standard error:")[0], (self.folder / "down.answer").read_text())
        self.write("piped.question", "gather x@h=none | what-if -")
        self.assertEqual(self.ask("piped").status, 2)
        self.write("piped.question", "check -")
        self.assertIn("+-:1:1: BadShape", self.ask("piped").output)

    def test_the_folder_may_lie_elsewhere(self) -> None:
        self.write("gathered.question", "gather x@h=./cluster.config y@h=cluster.config")
        self.ask("--write")
        elsewhere = self.folder.parent / "other" / "folder"
        shutil.copytree(self.folder, elsewhere)
        said = view("expect", str(elsewhere))
        self.assertEqual((said.status, said.output), (0, "3 of 3 answers are as stored\n"))
        with within(str(elsewhere.parent)):
            self.assertEqual(view("expect", "folder").status, 0)

    def test_what_is_no_question(self) -> None:
        faults = {
            "": "a question begins with",
            "timeline x -o y": "a question begins with",
            "expect .": "a question begins with",
            "what-if cluster.config |": "a question begins with",
            "what-if 'cluster.config": "is no command line",
            "what-if": "the following arguments are required: CONFIG",
            "check --help": "isn't taken",
            "gather x@h=cluster.config -o written": "would write a file",
            "gather x@h=cluster.config -s written": "would write a file",
            "check cluster.config --models": "names a program",
        }
        for text, part in faults.items():
            self.write("wrong.question", text)
            said = self.ask("wrong")
            self.assertEqual((said.status, part in said.errors), (2, True), (text, said))
            self.assertIn("wrong.question", said.errors)
        self.assertFalse((self.folder / "written").exists())

    def test_wrong_use(self) -> None:
        for words, part in ((("none",), "has no question none"), (("down.question", "none", "other"), "none and other")):
            said = self.ask(*words)
            self.assertEqual((said.status, part in said.errors), (2, True), said)
        self.assertEqual(self.ask("down.question").status, 0)
        self.assertEqual(view("expect", str(self.folder / "none")).status, 2)
        self.assertIn("has no NAME.question", view("expect", str(self.room)).errors)

    def test_a_program_by_a_relative_path(self) -> None:
        self.script("../program", 'echo "$1" >&2\nexit 3')
        with within(str(self.room)):
            said = run_view("expect", "questions", program="./program")
        self.assertEqual(said.status, 2)
        self.assertIn("distac check gave no answer", said.output)


class Example(unittest.TestCase):
    def test_the_answers_are_as_stored(self) -> None:
        said = view("expect", str(EXAMPLES / "questions"))
        self.assertEqual((said.status, said.output, said.errors), (0, "3 of 3 answers are as stored\n", ""))
