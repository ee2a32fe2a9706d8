"""A plan is of certain files: their sums in pages and JSON, and what says that they changed."""

import hashlib
import os
from pathlib import Path

from support import InRoom, Said, view

TEXT = "[{kernel,[{distributed,[{a,500,[x@h,y@h]},{b,700,[y@h,x@h]}]}%s]}].\n"


class Sums(InRoom):
    """A configuration that was gathered from the files of two nodes."""

    def setUp(self) -> None:
        super().setUp()
        self.addCleanup(os.chdir, os.getcwd())
        os.chdir(self.room)
        for name in ("x.config", "y.config"):
            Path(name).write_text(TEXT % "")
        self.assertEqual(view("gather", *self.nodes, "--reader", "own", "-o", "cluster.config").status, 0)

    nodes = ("x=x.config", "y=y.config")

    def check(self, status: int, *words: str) -> "list[str]":
        """The output of `gather --check`."""
        said = view("gather", "--check", "cluster.config", *words, *(("--reader", "own") if words else ()))
        self.assertEqual(said.status, status, said)
        return said.output.splitlines()

    def test_as_they_were(self) -> None:
        for words in ((), self.nodes):
            self.assertEqual(self.check(0, *words), ["2 of 2 files are those of cluster.config"])
        self.assertTrue(self.answer(0, "gather", "--check", "cluster.config")["same"])

    def test_changed_and_gone(self) -> None:
        Path("x.config").write_text(TEXT % ",{net_ticktime,20}")
        Path("y.config").unlink()
        rows = ["x@h x.config has changed", "y@h y.config is gone", "0 of 2 files are those of cluster.config"]
        self.assertEqual(self.check(1), rows)
        answer = self.answer(1, "gather", "--check", "cluster.config")
        self.assertEqual(([each["now"] is None for each in answer["files"]], answer["same"]), ([False, True], False))

    def test_gathered_anew(self) -> None:
        Path("x.config").write_text("% only a comment\n" + TEXT % "")
        self.assertEqual(self.check(1, *self.nodes), ["x@h x.config has changed", "1 of 2 files are those of cluster.config"])
        for name in ("x.config", "y.config"):
            Path(name).write_text((TEXT % "").replace("500", "600"))
        self.assertIn("the nodes' files make another configuration than cluster.config", self.check(1, *self.nodes))
        self.assertEqual(self.check(1, "x=x.config", "y=x.config")[:2], ["x@h x.config has changed", "y@h y.config is gone"])

    def test_wrong_use(self) -> None:
        Path("own.config").write_text(TEXT % "")
        said = view("gather", "--check", "own.config")
        self.assertEqual((said.status, "names no files" in said.errors), (2, True), said)
        self.assertEqual(view("gather", "--check", "none.config").status, 2)

    def test_answers_and_pages_have_them(self) -> None:
        mark = hashlib.sha256(Path("x.config").read_bytes()).hexdigest()
        wanted = [{"node": f"{name}@h", "file": f"{name}.config", "sha256": mark} for name in "xy"]
        for words in (("what-if",), ("rolling",), ("load",), ("what-if", "--split", "x", "/", "y")):
            self.assertEqual(self.answer(0, words[0], "cluster.config", *words[1:])["gathered"], wanted, words)
        self.assertEqual(self.answer(0, "what-if", "x.config")["gathered"], [])
        page = view("what-if", "cluster.config", "-o", "-").output
        self.assertIn(f"<dt>Gathered</dt><dd>x@h: x.config, SHA-256 {mark}</dd>", page)

    def test_a_new_file_of_old_ones(self) -> None:
        words = ("what-if", "x.config", "--then", "cluster.config")
        self.assertEqual(view(*words).status, 0)
        Path("y.config").write_text(TEXT % ",{net_ticktime,20}")
        self.assertEqual(self.said(1, *words).output.splitlines()[-1], "- y.config changed since the new file was gathered from it: gather it again.")
        self.assertEqual(self.answer(1, *words)["notes"][0]["id"], "Stale")
        self.assertIn("distac-view: stale: y.config changed", self.said(1, *words, "--fail-on", "rollout,stale").errors)
        self.assertEqual(self.said(0, *words, "--fail-on", "rollout,lost").errors, "")

    def said(self, status: int, *words: str) -> Said:
        said = view(*words)
        self.assertEqual(said.status, status, said)
        return said

    def test_a_stored_question(self) -> None:
        Path("files.question").write_text("gather --check cluster.config\n")
        self.assertEqual(view("expect", ".", "--write").status, 0)
        self.assertEqual(view("expect", ".").status, 0)
        Path("x.config").write_text(TEXT % ",{net_ticktime,20}")
        said = view("expect", ".")
        self.assertEqual((said.status, "+x@h x.config has changed" in said.output), (1, True), said)
