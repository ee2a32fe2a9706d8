"""The comparison with real nodes of Erlang/OTP ends, whatever a node does. No Erlang is needed here."""

from __future__ import annotations

import io
import os
import signal
import subprocess
import sys
import time
import unittest
from contextlib import redirect_stderr, redirect_stdout
from unittest import mock

import real_erlang
from erlang_nodes import Cluster, Node
from real_shared import AGREE, DIFFER, Score
from support import InRoom

# What a comparison may take here, and what none of these tests takes even on a busy machine.
SECONDS, MOST_SECONDS = 1, 60
LASTING = 120


def waits(_: Score) -> None:
    """A comparison without end."""
    time.sleep(LASTING)


def asks(_: Score) -> None:
    """A comparison that waits for a process without end."""
    subprocess.run([sys.executable, "-c", f"import time; time.sleep({LASTING})"], check=False)


def runs_out(_: Score) -> None:
    """A comparison of which a step has a limit of its own, and is over before."""
    signal.alarm(0)
    subprocess.run([sys.executable, "-c", f"import time; time.sleep({LASTING})"], timeout=SECONDS, check=False)


class InTime(InRoom):
    """Tests that don't take long."""

    def setUp(self) -> None:
        super().setUp()
        began = time.monotonic()
        self.addCleanup(lambda: self.assertLess(time.monotonic() - began, MOST_SECONDS))


class Bounds(InTime):
    """Comparisons and nodes end in time."""

    def node(self, script: str) -> Node:
        """A node that is a script of the shell."""
        return Node("cp1@127.0.0.1", ["sh", "-c", script], dict(os.environ), self.room)

    def cluster(self, *nodes: Node) -> Cluster:
        """A cluster of such nodes."""
        cluster = Cluster.__new__(Cluster)
        cluster.nodes = {f"cp{number}@127.0.0.1": node for number, node in enumerate(nodes, 1)}
        cluster.name_server = subprocess.Popen([sys.executable, "-c", f"import time; time.sleep({LASTING})"])
        return cluster

    def test_a_node_whose_output_stays_open(self) -> None:
        node = self.node(f"sleep {LASTING} & echo stage process $!; exec cat")
        process = node.answer("process", MOST_SECONDS)
        self.assertIsNotNone(process)
        node.kill()
        self.assertFalse(node.is_up)
        os.kill(int((process or ["0"])[0]), signal.SIGKILL)
        node.thread.join(MOST_SECONDS)
        (node.process.stdout or io.StringIO()).close()

    def test_a_node_that_never_answers(self) -> None:
        with mock.patch.object(Cluster, "__enter__", lambda cluster: cluster), self.cluster(self.node("exec cat >/dev/null")) as cluster:
            node = cluster.up()[0]
            self.assertIsNone(node.ask("nodes", 0.1))
        self.assertFalse(node.is_up)

    def test_an_alarm_while_nodes_are_ended(self) -> None:
        nodes, kill = [self.node("exec cat"), self.node("exec cat")], Node.kill
        cluster, score = self.cluster(*nodes), Score()

        def slowly(node: Node) -> None:
            time.sleep(SECONDS + 0.2)
            kill(node)

        def compare(_: Score) -> None:
            with mock.patch.object(Cluster, "__enter__", lambda cluster: cluster), cluster:
                pass

        with mock.patch.object(Node, "kill", slowly), redirect_stdout(io.StringIO()):
            score.make("slow", compare, SECONDS)
        self.assertEqual(score.differing, [f"slow: no answer in {SECONDS} s"])
        self.assertEqual([node.is_up for node in nodes], [False, False])
        self.assertIsNotNone(cluster.name_server.returncode)

    def test_nodes_of_a_comparison_without_end(self) -> None:
        node = self.node("exec cat")
        cluster, score = self.cluster(node), Score()

        def compare(_: Score) -> None:
            with mock.patch.object(Cluster, "__enter__", lambda cluster: cluster), cluster:
                time.sleep(LASTING)

        with redirect_stdout(io.StringIO()):
            score.make("endless", compare, SECONDS)
        self.assertEqual(score.differing, [f"endless: no answer in {SECONDS} s"])
        self.assertFalse(node.is_up)
        self.assertIsNotNone(cluster.name_server.returncode)


class Verdicts(InTime):
    """What is printed, and the status."""

    def said(self, *words: str, **comparisons: object) -> "tuple[int, list[str]]":
        """The status and the lines after comparisons by these functions."""
        output, groups = io.StringIO(), {"losses": list(comparisons.items())}
        before = signal.getsignal(signal.SIGTERM)
        self.addCleanup(signal.signal, signal.SIGTERM, before)
        here = mock.patch.multiple(real_erlang, release_of_otp=lambda: "OTP 25", is_installed=lambda: True)
        with here, mock.patch.object(real_erlang, "groups_of", lambda _: groups), redirect_stdout(output):
            return real_erlang.main([*words, "--most", str(SECONDS)]), output.getvalue().splitlines()

    def test_each_comparison_has_a_verdict(self) -> None:
        status, lines = self.said(one=waits, two=asks, three=runs_out, four=lambda score: score.add(AGREE))
        self.assertEqual(status, 2)
        self.assertEqual(lines[1:3], [f"{name}: no answer in {SECONDS} s" for name in ("one", "two")])
        self.assertEqual(lines[3], f"three: no answer by {sys.executable} in {SECONDS} s")
        self.assertIn("1 agree, 3 no answer", lines)
        self.assertRegex(lines[-3], r"^\| OTP 25, \d+-\d+-\d+ \| Agree \| Announced \| Differ \| No answer \|$")
        self.assertEqual(lines[-2:], ["|---|---|---|---|---|", "| losses | 1 | 0 | 0 | 3 |"])

    def test_the_status(self) -> None:
        self.assertEqual(self.said(one=lambda score: score.add(AGREE))[0], 0)
        self.assertEqual(self.said(one=lambda score: score.add("hang as warned"))[1][-1], "| losses | 0 | 1 | 0 | 0 |")
        self.assertEqual(self.said(one=waits, two=lambda score: score.add(DIFFER))[0], 1)

    def test_no_alarm_is_left(self) -> None:
        self.said(one=lambda score: score.add(AGREE))
        self.assertEqual(signal.alarm(0), 0)

    def test_scenarios_that_are_none(self) -> None:
        errors = io.StringIO()
        with self.assertRaises(SystemExit) as caught, redirect_stderr(errors):
            real_erlang.words_of(["--only", "ladder", "no node in both lists"])
        self.assertEqual(caught.exception.code, 2)
        self.assertIn("no scenario begins with no node in both lists\n", errors.getvalue())


if __name__ == "__main__":
    unittest.main()
