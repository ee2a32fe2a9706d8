"""`gather`: files of nodes become one configuration, equal to a handwritten one, or a fault or a warning explains why
not."""

import hashlib
import os
import shutil
import subprocess
import tempfile
import unittest
from pathlib import Path
from random import Random
from unittest import mock

from hostile_files import FINE, hostile_sources
from random_clusters import random_cluster
from support import EXAMPLES, NODES, InRoom, Said, distac, gather, run_view, view
from distac_view.reading.erlang_reader import has_erlang

COUNT = 200
READERS = ("erl", "own") if has_erlang() else ("own",)
DESKS = tuple(f"desk{number}@10.4.0.{number}=manual/desk{number}.config" for number in (1, 2, 3))
BY_HAND = (
    ("manual", DESKS, ""),
    ("manual", tuple(word.replace("@10.4.0.", "").replace("desk11", "desk1").replace("desk22", "desk2").replace("desk33", "desk3") for word in DESKS), ""),
    ("broker", ("mq@mq-1=broker/advanced.config", "mq@mq-2=broker/advanced", "'mq@mq-3'=broker/advanced.config"), ""),
    ("broker", ("mq@mq-2=broker/advanced.config",), "NoFile"),
    ("release", ("chat1@edge=release/sys.config", "chat2@edge=release/sys"), ""),
    ("barred", ("bank1@vault=barred/bank1.config", "bank2@vault=barred/bank2.config"), "PermissionDiffers"),
    ("answer", ("a@h=answer.txt",), "OwnAdded"),
    ("latin", ("b@h=latin.config", "'münchen@h'=latin.config"), ""),
)
REFUSED = (
    ("template.config.src", "4:27: Template"),
    ("names.config.src", "1:41: Template"),
    ("runtime.exs", "1:8: NoTerms"),
)
ELIXIR_CONFIG = """\
import Config
IO.puts("some noise")
ms = String.to_integer(System.fetch_env!("FAILOVER_MS"))
config :kernel, distributed: [{:shop, ms, [:"a@h", :"b@h"]}], logger: [{:handler, :default, :logger_std_h, %{}}]
"""
PLACEMENT = "{distributed,[{a,500,[x@h,{y@h,z@h}]},{b,700,[y@h,x@h]}]}"
# A file, or a parameter of kernel, with ^ before the term of the fault.
WRONG_FILES = (
    ("[{sasl,[]},\n {kernel,[]}, ^other].", "BadSection"),
    ("[{sasl,[]}, ^{kernel}].", "BadSection"),
    ("[^[a],{kernel,[]}].", "BadSection"),
    ("[^#{a => [b]}].", "BadSection"),
    ("[{^1,[]}].", "BadSection"),
    ("[{kernel, ^x}].", "BadSection"),
    ("[{kernel,[{net_ticktime,20},\n\t^oops]}].", "BadParameter"),
    ("[{kernel,[{net_ticktime,20}, ^{a,b,c}]}].", "BadParameter"),
    ("[{kernel,[{^\"distributed\",[]}]}].", "BadParameter"),
    ("[{kernel,[]},{sasl,[{a,1}, ^x]}].", "BadParameter"),
    ("[{kernel,[{a,<<1,2>>},{b,fun x:y/1}|[{c,$,}, ^d]]}].", "BadParameter"),
)
WRONG_PARAMETERS = (
    ("{distributed, ^x}", "BadList"),
    ("{distributed,[{a,[x@h]}, % a comment\n ^b]}", "BadEntry"),
    ("{distributed,[{a,[x@h]},{'b c',5,[x@h]}, ^{d,x}]}", "BadEntry"),
    ("{distributed,[{a, ^-1,[x@h]}]}", "BadTime"),
    ("{distributed,[{a,[x@h]},{b,(^1.0),[x@h]}]}", "BadTime"),
    ("{distributed,[{a,[x@h]},{b,^\"5\" \"0\",[x@h]}]}", "BadTime"),
    ("{distributed,[{a,^4294967296,[x@h]}]}", "NumberTooLarge"),
    ("{distributed,[{a,5, ^[]}]}", "EmptyList"),
    ("{distributed,[{a,5,[x@h]},{^a,[y@h]}]}", "TwiceApp"),
    ("{distributed,[{a,5,[x@h,{y@h, ^\"z@h\"}]}]}", "BadName"),
    ("{distributed,[{^'it\\'s',[x@h]}]}", "BadName"),
    (PLACEMENT + ",{permissions,[{a,true}, ^{b,yes}]}", "BadPermission"),
    (PLACEMENT + ",{sync_nodes_timeout, ^0}", "ZeroSyncTime"),
    (PLACEMENT + ",{sync_nodes_timeout, ^-5}", "BadTime"),
    (PLACEMENT + ",{sync_nodes_optional,[x@h, ^\"y@h\"]}", "BadName"),
    (PLACEMENT + ",{sync_nodes_optional, ^x}", "BadList"),
)
SYNC = ",{sync_nodes_mandatory,[%s]},{sync_nodes_optional,[%s]},{sync_nodes_timeout,%s}"


def canonical(text: bytes) -> str:
    """The configuration of a correct text."""
    answer = distac().check(text)
    assert not answer.is_fault, answer.lines
    return answer.lines[0]


class FilesOfNodes(InRoom):
    def test_equal_to_what_is_written_by_hand(self) -> None:
        for name, words, warning in BY_HAND:
            for reader in READERS:
                with self.subTest(words=words, reader=reader):
                    said = gather("--reader", reader, *words)
                    self.assertEqual(said.status, 0, said)
                    self.assertIn(warning, said.errors)
                    self.assertTrue(warning or not said.errors, said.errors)
                    wanted = canonical((NODES / f"{name}.by-hand.config").read_bytes())
                    self.assertEqual(said.output.splitlines()[-1], wanted)
                    self.assertEqual(canonical(said.output.encode()), wanted)

    def test_the_example(self) -> None:
        for reader in READERS:
            words = [f"shop{number}={EXAMPLES}/nodes/shop{number}.config" for number in (1, 2, 3)]
            said = view("gather", "--strict", "--reader", reader, *words)
            self.assertEqual((said.status, said.errors), (0, ""))
            self.assertEqual(len(said.output.splitlines()), 6)
            self.assertIn("{sync_nodes_optional,['shop1@10.20.0.11','shop2@10.20.0.12','shop3@10.20.0.13']}", said.output)

    def test_what_is_refused(self) -> None:
        for name, fault in REFUSED:
            for reader in READERS:
                said = gather("--reader", reader, f"a@h={name}")
                self.assertEqual(said.status, 2, said)
                self.assertTrue(said.output.startswith(f"{name}:{fault}: "), said.output)

    def test_the_head(self) -> None:
        said = gather(*DESKS)
        mark = hashlib.sha256((NODES / "manual" / "desk2.config").read_bytes()).hexdigest()
        self.assertIn(f"%% 'desk2@10.4.0.2' manual/desk2.config sha256 {mark}\n", said.output)
        self.assertIn("\n%% net_ticktime 24\n", said.output)
        self.assertTrue(said.output.startswith("%% distac-view "), said.output)

    def test_without_erlang(self) -> None:
        with mock.patch.dict(os.environ, {"PATH": "/no/such/folder"}):
            self.assertEqual(gather(*DESKS).status, 0)
            said = gather("--reader", "erl", *DESKS)
            self.assertEqual((said.status, said.output), (2, ""))
            self.assertIn("--reader own", said.errors)

    def test_the_script_of_permissions(self) -> None:
        config, script = f"{self.room}/cluster.config", f"{self.room}/opening.distac"
        said = gather("bank1=barred/bank1.config", "bank2=barred/bank2.config", "-o", config, "-s", script)
        self.assertEqual((said.status, said.output), (0, ""))
        self.assertIn("\npermit bank1@vault audit bank1@vault false\n", Path(script).read_text())
        self.assertEqual(view("play", script).status, 0)
        answer = view("what-if", config, "--after", script, "--down", "bank2@vault")
        self.assertEqual(answer.status, 0, answer)
        self.assertRegex(answer.output, r"audit without bank2@vault: .*bank1@vault=barred|audit +bank2@vault +- +nobody")
        self.assertEqual(self.names(), ["cluster.config", "opening.distac"])


class RandomClusters(unittest.TestCase):
    """The files of all nodes are equivalent to one configuration for all."""

    def compare(self, number: int, reader: str) -> None:
        """One cluster."""
        cluster = random_cluster(Random(f"cluster {number}"))
        with tempfile.TemporaryDirectory() as room, self.subTest(number=number, text=cluster.text):
            words = [f"{node}={','.join(str(path) for path in cluster.files_of(node, Path(room)))}" for node in cluster.nodes]
            said = view("gather", "--strict", "--reader", reader, *words)
            self.assertEqual((said.status, said.errors), (0, ""), said)
            self.assertEqual(said.output.splitlines()[-1], canonical(cluster.text.encode()))

    def test_own_reader(self) -> None:
        for number in range(COUNT):
            self.compare(number, "own")

    def test_erlang(self) -> None:
        for number in range(COUNT // 20 if has_erlang() else 0):
            self.compare(number, "erl")


class Differences(InRoom):
    """Files of two nodes with one difference."""

    def gather(self, texts: "tuple[str, ...] | list[str]", *words: str, whole: bool = False) -> Said:
        """The output for the parameters of the nodes x@h, y@h and so on, or for their whole files."""
        nodes = []
        for name, text in zip("xyzuv", texts):
            path = self.write(f"{name}.config", text if whole else "[\n{kernel,[\n%s]}]." % text)
            nodes.append(f"{name}@h={path}")
        return view("gather", "--reader", "own", *nodes, *words)

    def expect(self, said: Said, status: int, name: str, *parts: str) -> None:
        """A status, and a fault or a warning with some parts of its sentence."""
        self.assertEqual(said.status, status, said)
        text = said.output if status == 2 and not said.errors else said.errors
        for part in (name, *parts):
            self.assertIn(part, text)

    def config_of(self, said: Said) -> str:
        self.assertEqual(said.status, 0, said)
        return said.output.splitlines()[-1]

    def test_equal(self) -> None:
        for other in (PLACEMENT, PLACEMENT.replace("{y@h,z@h}", "{z@h,y@h}"), "{distributed,[{b,700,[y@h,x@h]},{a,500,[x@h,{y@h,z@h}]}]}"):
            said = self.gather((PLACEMENT, other, PLACEMENT))
            self.assertEqual((said.status, said.errors), (0, ""))
            self.assertIn("{a,500,[x@h,{y@h,z@h}]},{b,700,[y@h,x@h]}", said.output)

    def test_lists_that_differ(self) -> None:
        for other in (PLACEMENT.replace("[y@h,x@h]", "[x@h,y@h]"), PLACEMENT.replace(",{b,700,[y@h,x@h]}", ""), PLACEMENT.replace("]}]}", "]},{c,[x@h]}]}")):
            said = self.gather((PLACEMENT, "\n" + other))
            self.assertEqual(said.status, 2)
            self.assertRegex(said.output, r"\A\S*[xy]\.config:[34]:\d+: Differs: .* \S*[xy]\.config:[34]: OTP wants")
        said = self.gather((PLACEMENT, "{a,1}"))
        self.expect(said, 2, "Differs", "x.config:3", "y.config")

    def test_times_that_differ(self) -> None:
        said = self.gather((PLACEMENT, PLACEMENT.replace("500", "900"), PLACEMENT))
        self.expect(said, 0, "TimeDiffers", "is 500 here, and 900 at")
        self.assertIn("{a,900,", self.config_of(said))
        self.expect(self.gather((PLACEMENT, PLACEMENT.replace("500", "900"), PLACEMENT), "--strict"), 1, "TimeDiffers")

    def test_infinity(self) -> None:
        said = self.gather([PLACEMENT.replace("500", "infinity")] * 3)
        self.expect(said, 0, "InfiniteTime")
        self.assertIn("{a,4294967295,", self.config_of(said))
        self.assertEqual(said.errors.count("InfiniteTime"), 1)

    def test_own_lists_become_one(self) -> None:
        texts = [PLACEMENT + SYNC % (nodes, "", 5) for nodes in ("y@h,z@h", "x@h,z@h", "y@h,x@h")]
        said = self.gather(texts)
        self.assertEqual(said.errors, "")
        self.assertIn("{sync_nodes_mandatory,[x@h,y@h,z@h]},{sync_nodes_optional,[]},{sync_nodes_timeout,5}", self.config_of(said))
        texts = [PLACEMENT + SYNC % (first, second, 5) for first, second in (("y@h", "z@h"), ("x@h", "z@h"), ("x@h,y@h", ""))]
        self.assertIn("{sync_nodes_mandatory,[x@h,y@h]},{sync_nodes_optional,[z@h]}", self.config_of(self.gather(texts)))

    def test_one_node_is_waited_for(self) -> None:
        said = self.gather((PLACEMENT, *[PLACEMENT + SYNC % ("x@h", "", 5)] * 2))
        self.expect(said, 0, "TimeDiffers", "x@h has none: 5 is written")
        self.assertIn("{sync_nodes_mandatory,[x@h]}", self.config_of(said))
        self.assertNotIn("SyncDiffers", said.errors)

    def test_sync_lists_that_differ(self) -> None:
        said = self.gather([PLACEMENT + SYNC % (nodes, "", 5) for nodes in ("y@h,z@h", "z@h", "x@h,y@h")])
        self.expect(said, 0, "SyncDiffers", "y@h doesn't wait for x@h, which z@h has in sync_nodes_mandatory")
        self.assertIn("{sync_nodes_mandatory,[x@h,y@h,z@h]}", self.config_of(said))

    def test_own_node_is_added_where_files_are_missing(self) -> None:
        said = self.gather([PLACEMENT + SYNC % ("y@h,z@h", "", 5)])
        self.expect(said, 0, "OwnAdded", "NoFile: no file was given for y@h and z@h")
        self.assertIn("{sync_nodes_mandatory,[x@h,y@h,z@h]}", self.config_of(said))

    def test_sync_times(self) -> None:
        said = self.gather([PLACEMENT + SYNC % ("", "x@h,y@h,z@h", time) for time in ("5", "infinity", "7")])
        self.expect(said, 0, "TimeDiffers", "sync_nodes_timeout is infinity at", "x@h has 5: infinity is written")
        self.assertIn("{sync_nodes_timeout,infinity}", self.config_of(said))
        for time, name in (("0", "ZeroSyncTime"), ("-1", "BadTime"), ("x", "BadTime"), ("1.0", "BadTime"), ("9" * 5000, "BadTime"), ("4294967296", "BadTime")):
            self.expect(self.gather([PLACEMENT + SYNC % ("", "", time)] * 3), 2, name)
        said = self.gather([PLACEMENT + ",{sync_nodes_optional,[x@h,y@h,z@h]}"] * 3)
        self.expect(said, 0, "NoSyncTime")

    def test_permissions(self) -> None:
        barred = PLACEMENT + ",{permissions,[{b,false},{b,true},{a,true}]}"
        said = self.gather((barred, barred, PLACEMENT))
        self.assertEqual(said.errors, "")
        self.assertIn("{permissions,[{b,false}]}", self.config_of(said))
        said = self.gather((barred, PLACEMENT, PLACEMENT))
        self.expect(said, 0, "PermissionDiffers", "b is forbidden at x@h and not at y@h")
        self.assertIn("{permissions,[]}", self.config_of(said))

    def test_tick_times(self) -> None:
        said = self.gather((PLACEMENT + ",{net_ticktime,20}", PLACEMENT + ",{net_ticktime,60}", PLACEMENT))
        self.expect(said, 0, "TimeDiffers", "net_ticktime is 60 at", "z@h has none")
        self.assertIn("\n%% net_ticktime 60\n", said.output)

    def test_later_files_win(self) -> None:
        room = self.room
        self.write("one.config", "[{kernel,[%s,{sync_nodes_timeout,7}]}]." % PLACEMENT)
        self.write("two.config", "[{kernel,[{distributed,[{a,1,[x@h]}]}]}].")
        for words in ([f"x@h={room}/one,{room}/two"], [f"x@h={room}/one", f"x@h={room}/two"]):
            self.assertIn("{distributed,[{a,1,[x@h]}]},{permissions,[]},{sync_nodes_mandatory,[]},{sync_nodes_optional,[]},{sync_nodes_timeout,7}", self.config_of(view("gather", *words)))

    def test_what_otp_refuses(self) -> None:
        placed = "{kernel,[%s]}" % PLACEMENT
        twice = self.gather(["[{sasl,[]},%s,{sasl,[]}]." % placed] * 3, whole=True)
        self.expect(twice, 0, "TwiceSection")
        self.expect(self.gather(["[{kernel,[{net_ticktime,1},%s,{net_ticktime,2}]}]." % PLACEMENT] * 3, whole=True), 0, "TwiceParameter")
        for text in ("kernel.", "{kernel,[]}.", "[kernel].", "[{kernel,x}].", "[{kernel,[x]}].", "[{kernel,[{1,2}]}].", "[[a]].", "[{a}].", "[#{}]."):
            self.expect(self.gather([text] * 3, whole=True), 2, "")
        for value in ("x", "[x]", "[{a}]", "[{a,x}]", "[{a,1.0,[x@h]}]", "[{a,-1,[x@h]}]", "[{a,4294967296,[x@h]}]", "[{a,[]}]", "[{a,[{}]}]", '[{a,["x@h"]}]', "[{a,[1]}]", "[{a,[x@h]},{a,[x@h]}]", "#{}"):
            self.expect(self.gather(["{distributed,%s}" % value] * 3), 2, ".config:3:")
        for value in ("[{a,yes}]", "x", "[a]", "[{1,true}]"):
            self.expect(self.gather([PLACEMENT + ",{permissions,%s}" % value] * 3), 2, ".config:3:")

    def test_the_caret_stands_under_the_term(self) -> None:
        texts = [*WRONG_FILES, *(("[{kernel,[%s]}]." % text, name) for text, name in WRONG_PARAMETERS)]
        for text, name in texts:
            self.told_at(text, name, "own")
        for text, name in texts[::5] if has_erlang() else ():
            self.told_at(text, name, "erl")

    def told_at(self, text: str, name: str, reader: str) -> None:
        """A fault is reported at the mark of a text, which is removed."""
        before, mark, behind = text.partition("^")
        path = self.write("x.config", before + behind)
        said = view("gather", "--reader", reader, f"x@h={path}")
        line, column = before.count("\n") + 1, len(before) - before.rfind("\n")
        self.assertTrue(said.output.startswith(f"{path}:{line}:{column}: {name}: "), (text, mark, said))

    def test_a_warning_stands_under_the_term(self) -> None:
        said = self.gather([PLACEMENT.replace("700", "infinity")] * 3)
        self.assertIn(f"x.config:3:{PLACEMENT.index('700') + 1}: InfiniteTime: ", said.errors)

    def test_more_than_distac_takes(self) -> None:
        many = ",".join("{a%d,[x@h]}" % number for number in range(65))
        self.expect(self.gather(["{distributed,[%s]}" % many] * 3), 2, "the gathered configuration:1:", "TooManyApps")
        self.expect(self.gather(["{distributed,[{'it\\'s',[x@h]}]}"]), 2, "BadName")

    def test_names_of_files(self) -> None:
        room = self.room
        (room / "inner.config").write_text("[{kernel,[%s]}]." % PLACEMENT)
        for name, warning in (("sys", ""), ("other", "NotSysConfig")):
            (room / f"{name}.config").write_text('["inner",{sasl,[]}].')
            said = view("gather", *(f"{node}={room}/{name}.config" for node in ("x@h", "y@h", "z@h")))
            self.assertEqual((said.status, warning in said.errors), (0, True), said)
        (room / "inner.config").write_text('["sys"].')
        self.expect(view("gather", f"x@h={room}/sys.config"), 2, "NamedTwice")
        (room / "inner.config").unlink()
        self.expect(view("gather", f"x@h={room}/sys.config"), 2, "can't be read")


class Use(InRoom):
    def test_wrong_use(self) -> None:
        for words in ((), ("x",), ("x=",), ("=x",), ("x=,",), ("x=/no/such/file",), ("x=/",), ("x=\0",)):
            said = view("gather", *words)
            self.assertEqual((said.status, said.output), (2, ""), words)
            self.assertTrue(said.errors)
        self.assertEqual(gather(*DESKS, "-o", "/no/such/folder/file").status, 2)
        self.assertIn("isn't written over", gather(*DESKS, "-o", "manual/desk2.config").errors)
        self.assertIn("is named twice", gather(*DESKS, "desk1=manual/desk1.config").errors)
        self.assertIn("an answer of a@h is taken for b@h", gather("a@h=answer.txt", "b@h=answer.txt").errors)
        self.assertEqual(gather(*DESKS, "--reader", "mine").status, 2)

    def test_the_line_for_a_remote_shell(self) -> None:
        line = view("gather", "--print-command", "--distac", "/no/program").output
        self.assertIn("application:get_env(kernel,P)", line)
        self.assertEqual((line.count("\n"), line.count("'")), (1, 0))
        self.assertIn(":application.get_env(:kernel, p)", view("gather", "--print-command", "elixir").output)

    def test_the_line_for_elixir_configurations(self) -> None:
        line = view("gather", "--print-command", "elixir-config").output
        self.assertEqual((line.count("\n"), line.count("'")), (1, 0))
        if not shutil.which("elixir"):
            self.skipTest("elixir isn't in PATH")
        self.write("config/runtime.exs", ELIXIR_CONFIG)
        words = ["elixir", "-e", line]
        done = subprocess.run(words, cwd=self.room, env={**os.environ, "FAILOVER_MS": "700"}, capture_output=True, timeout=60, check=True)
        self.write("answer", done.stdout.decode())
        said = gather("a@h=answer", "b@h=answer", folder=self.room)
        self.assertEqual(said.errors, "")
        self.assertIn("{distributed,[{shop,700,[a@h,b@h]}]}", said.output)

    def test_standard_input(self) -> None:
        said = run_view("gather", "a@h=-", source=b"[{kernel,[{distributed,[{a,[a@h]}]}]}].")
        self.assertEqual(said.status, 0, said)

    def test_hostile_files(self) -> None:
        path = self.room / "node.config"
        for source in hostile_sources():
            path.write_bytes(source)
            with self.subTest(source=source[:60]):
                said = view("gather", "--reader", "own", f"x@h={path}")
                self.assertIn(said.status, (2,) if source not in FINE else (0,), said)
                self.assertTrue(said.output + said.errors)

    def test_cut_files(self) -> None:
        source = (NODES / "broker" / "advanced.config").read_bytes()
        path = self.room / "node.config"
        for end in range(0, len(source) - 4, 7):
            path.write_bytes(source[:end])
            said = view("gather", "--reader", "own", f"x@h={path}")
            self.assertEqual(said.status, 2, (end, said))
