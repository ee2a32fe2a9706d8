"""`gather` before any node runs: variables of templates, argument files such as `vm.args`, and absolute file names."""

import functools
import os
import shutil
import subprocess
import unittest
from random import Random

import support
from support import NODES, InRoom, Said, distac
from distac_view.cli.gather import ERLANG_LINE
from distac_view.reading.erlang_reader import has_erlang
from distac_view.reading.erlang_tokens import Misread
from distac_view.reading.templates import filled_in
from distac_view.reading.vm_args import words_of

gather = functools.partial(support.gather, folder=NODES / "flags")
READERS = ("erl", "own") if has_erlang() else ("own",)
SIGNS = "\"'\\# \t\n\rab{}[]"
PLACED = "[{kernel,[{distributed,[{a,500,[x@h,y@h]}]}]}]."
ROUNDS = 40
WAYS = (
    "-kernel sync_nodes_timeout 7",
    "-kernel sync_nodes_timeout \"7\" sync_nodes_optional '[x@h,y@h]'",
    "-kernel sync_nodes_timeout 7 sync_nodes_optional",
    "-kernel sync_nodes_timeout 7 -- sync_nodes_timeout 8",
    "-kernel sync_nodes_timeout 7\n+K true +P 4096 -kernel sync_nodes_optional [x@h]",
    "-kernel sync_nodes_timeout 7 -extra -kernel sync_nodes_timeout 8",
    "-kernel sync_nodes_timeout -7",
    "-kernel '\"sync_nodes_timeout\"' 7",
    "-kernel \"'sync_nodes_timeout'\" 7\n# -kernel sync_nodes_timeout 8",
    "-kernel sync_nodes_timeout '7 % a comment'",
    "-kernel net_ticktime 9 -kernel net_ticktime 9",
    "-config late -kernel permissions '[{a,false}]'",
    "-args_file more.args -kernel sync_nodes_optional [x@h]",
)


class Releases(InRoom):
    """The files of a release as shipped."""

    def test_equal_to_what_is_written_by_hand(self) -> None:
        wanted = distac().check((NODES / "flags.by-hand.config").read_bytes()).lines[0]
        for reader in READERS:
            for words in (
                ("sys.config.src,vm.args.src", "--env", "prod.env", "--root", "."),
                ("shop1=sys.config.src,vm.args.src,prod.env", "--root", "shop1=."),
                ("shop1@10.0.0.1=sys.config.src,vm.args.src", "--env", "TICK=1", "--env", "prod.env", "--root", "shop1=.", "--root", "/"),
            ):
                said = gather(*words, "--reader", reader)
                self.assertEqual((said.status, said.output.splitlines()[-1]), (0, wanted), said)
                self.assertNotIn("OtherNode", said.errors)
                self.assertIn("\n%% net_ticktime 30\n", said.output)
                self.assertIn("\n%% variables COOKIE FAILOVER_MS HOME HOST_A NODE_B TICK\n", said.output)
                self.assertNotIn("secret", said.output)
                for name in ("sys.config.src", "./etc/shop/cluster.config", "vm.args.src", "more.args", "late.config"):
                    self.assertIn(f"%% 'shop1@10.0.0.1' {name} sha256 ", said.output)

    def test_a_value_wins_over_a_default(self) -> None:
        said = gather("sys.config.src,vm.args.src", "--env", "prod.env", "--env", "FAILOVER_MS=800", "--root", ".")
        self.assertIn("{billing,800,", said.output)
        said = gather("sys.config.src,vm.args.src", "--env", "prod.env", "--env", "FAILOVER_MS=", "--root", ".")
        self.assertIn("{billing,5000,", said.output)

    def test_a_variable_without_value(self) -> None:
        said = gather("s1=sys.config.src,vm.args.src", "--env", "NODE_B=b@h", "--env", "HOST_A=h", "--root", ".")
        self.assertEqual(said.status, 2)
        self.assertTrue(said.output.startswith("sys.config.src:5:19: NoValue: TICK has no value: "), said.output)
        said = gather("s1=sys.config.src,vm.args.src", "--env", "NODE_B=b@h", "--env", "HOST_A=h", "--env", "TICK=2", "--root", ".")
        self.assertTrue(said.output.startswith("vm.args.src:3:12: NoValue: COOKIE has no value: "), said.output)

    def test_an_absolute_name_without_a_root(self) -> None:
        said = gather("sys.config.src,vm.args.src", "--env", "prod.env")
        self.assertEqual(said.status, 2)
        self.assertIn("/etc/shop/cluster.config can't be read", said.errors)

    def test_faults_behind_a_value_keep_their_place(self) -> None:
        for host in ("a", "a-long-name-of-a-host"):
            self.write("sys.config.src", "[{kernel,[{distributed,[{a,${MS},['x@${HOST}']}]},\n{permissions,['${HOST}' oops]}]}].")
            said = gather("x=sys.config.src", "--env", f"HOST={host}", "--env", "MS=5", "--reader", "own", folder=self.room)
            self.assertTrue(said.output.startswith("sys.config.src:2:25: Syntax: a comma is missing"), said)
            self.assertIn("\n  {permissions,['${HOST}' oops]}]}].\n                          ^", said.output)

    def test_a_variable_with_a_wrong_value_is_shown(self) -> None:
        self.write("sys.config.src", "[{kernel,[{distributed,[{a,['x@${HOST}']},\n {b,${MS},['x@${HOST}']}]}]}].")
        said = gather("x@h=sys.config.src", "--env", "HOST=h", "--env", "MS=-5", folder=self.room)
        self.assertTrue(said.output.startswith("sys.config.src:2:5: BadTime: "), said)

    def test_each_node_has_its_own_values(self) -> None:
        self.write("sys.config", PLACED.replace("]}].", ",{sync_nodes_optional,['${OTHER}']},{sync_nodes_timeout,5}]}]."))
        self.write("x.env", "OTHER=y@h\n")
        self.write("y.env", "OTHER=x@h\n")
        said = gather("x@h=sys.config,x.env", "y@h=sys.config,y.env", folder=self.room)
        self.assertEqual((said.status, said.errors), (0, ""), said)
        self.assertIn("{sync_nodes_optional,[x@h,y@h]}", said.output)


class Folders(InRoom):
    """The folder of a release in place of its files."""

    def setUp(self) -> None:
        super().setUp()
        self.write("rel/releases/start_erl.data", "13.1.5 0.2.0")
        for version in ("0.1.0", "0.2.0"):
            self.write(f"rel/releases/{version}/sys.config.src", PLACED.replace("500", version.replace(".", "")))
        self.write("rel/releases/0.2.0/vm.args.src", "-name x@${HOST}\n")

    def test_the_version_that_starts(self) -> None:
        files = "rel/releases/0.2.0/sys.config.src,rel/releases/0.2.0/vm.args.src"
        wanted = gather(files, "--env", "HOST=h", folder=self.room)
        self.assertIn("{a,20,[x@h,y@h]}", wanted.output)
        for word in ("rel", "rel/releases", "rel/releases/0.2.0", "x@h=rel"):
            self.assertEqual(gather(word, "--env", "HOST=h", folder=self.room), wanted, word)
        self.assertIn("{a,10,[x@h,y@h]}", gather("x@h=rel/releases/0.1.0", folder=self.room).output)

    def test_folders_without_a_release(self) -> None:
        self.write("other/notes", "")
        self.assertIn("other is a folder, and no release with sys.config or sys.config.src is in it", gather("x@h=other", folder=self.room).errors)
        (self.room / "rel/releases/start_erl.data").unlink()
        said = gather("x@h=rel", folder=self.room)
        self.assertEqual((said.status, said.output), (2, ""))
        self.assertIn("has several versions and no start_erl.data: write the folder of one", said.errors)

    def test_a_file_that_a_provider_overrides(self) -> None:
        text = "[{kernel,[{distributed,[{a,[x@h]}]}]},{elixir,[{config_provider_init,#{'__struct__' => 'Elixir.Config.Provider',reboot_system_after_config => %s}}]}]."
        for again, status in (("true", 1), ("false", 0)):
            self.write("sys.config", text % again)
            said = gather("x@h=sys.config", "--strict", folder=self.room)
            self.assertEqual((said.status, "ConfigProvider: this release evaluates runtime.exs" in said.errors), (status, again == "true"))
        self.write("sys.config", text % "true")
        self.assertEqual(gather("x@h=sys.config", "--strict", "--allow", "ConfigProvider", folder=self.room).status, 0)


class Faults(InRoom):
    def setUp(self) -> None:
        super().setUp()
        self.write("sys.config", PLACED)

    def expect(self, part: str, status: int, *words: str) -> None:
        """A status, and a part of the output."""
        said = gather(*words, folder=self.room)
        self.assertEqual(said.status, status, said)
        self.assertIn(part, said.output + said.errors)

    def of_arguments(self, part: str, text: str, status: int = 2) -> None:
        """The output for an argument file."""
        self.write("vm.args", text)
        self.expect(part, status, "x@h=sys.config,vm.args", "--reader", "own")

    def test_files_of_arguments(self) -> None:
        self.of_arguments("vm.args:1:28: BadFlag: OTP doesn't boot with [a", "-kernel sync_nodes_timeout [a")
        self.of_arguments("BadFlag", "-kernel sync_nodes_timeout 5.")
        self.of_arguments("BadFlag", "-kernel sync_nodes_timeout ''")
        self.of_arguments("vm.args:2:28: BadTime", "# x\n-kernel sync_nodes_timeout x")
        self.of_arguments("vm.args:1:39: BadEntry", "-kernel distributed '[{a,5,[x@h]},    {b,x}]'")
        self.of_arguments("vm.args:1:29: BadTime", '-kernel distributed "[{a,"\\ x,[x@h]}]')
        self.of_arguments("vm.args:1:28: Template", "-kernel sync_nodes_timeout ${MS}")
        self.of_arguments("vm.args:1:14: BadArguments: this ' is never closed", "-kernel sync ' 5")
        self.of_arguments("vm.args:1:12: BadArguments: files of arguments name each other", "-args_file vm.args")
        self.of_arguments("none.args can't be read", "-args_file none.args")
        self.of_arguments("none.config can't be read", "-config none")
        self.of_arguments("TwiceFlag: flags set sync_nodes_timeout here and at vm.args:1", "-kernel sync_nodes_timeout 5\n-kernel sync_nodes_timeout 6")
        self.of_arguments("vm.args:1:7: OtherNode", "-name z@h", 0)
        self.of_arguments("vm.args:1:8: OtherNode", "-sname z", 0)
        self.of_arguments("distributed", "-sname x -name z@h", 0)

    def test_names_of_nodes(self) -> None:
        self.write("vm.args", "-sname y")
        said = gather("vm.args,sys.config", folder=self.room)
        self.assertIn("%% y@h vm.args", said.output)
        self.expect("write NODE= before its files", 2, "sys.config")
        self.write("vm.args", "-name ${NODE}")
        self.expect("Template", 2, "vm.args,sys.config")
        self.expect("distributed", 0, "x@h=vm.args,sys.config")
        self.expect("distributed", 0, "x@h=vm.args,sys.config", "--env", "NODE=x@h", "--strict", "--allow", "NoFile")

    def test_words(self) -> None:
        self.write("bad.env", "A=1\nB 2\n")
        self.expect("bad.env:2:1: BadVariable", 2, "x=sys.config", "--env", "bad.env")
        self.expect("can't be read", 2, "x=sys.config", "--env", "none.env")
        self.expect("line feed", 2, "x=sys.config", "--env", "A=1\n2")
        self.expect("names no folder", 2, "x=sys.config", "--root", "/no/such/folder")
        self.expect("no files are given for it", 2, "x=sys.config", "--root", "z=.")

    def test_templates(self) -> None:
        values = {"A": "1", "B": "${A}", "E": ""}
        for text, wanted in (("${A}${A:-2}", "11"), ("${B}", "${A}"), ("${C:-}", ""), ("${C:-x y}", "x y"), ("${E}", ""), ("${E:-3}", "3"), ("$A {A} ${1}", "$A {A} ${1}")):
            self.assertEqual(filled_in(text, values).text, wanted)
        for text in ("${C}", "x\n${C}", "${C:-{a}}", "'$%' ${C}"):
            self.assertRaises(Misread, filled_in, text, values)
        filled = filled_in("ab${A}cd${C:-xyz}e", values)
        self.assertEqual([filled.source_place(place) for place in range(len(filled.text))], [0, 1, 2, 6, 7, 8, 8, 8, 17])


@unittest.skipUnless(has_erlang() and shutil.which("erl"), "Erlang isn't in PATH")
class RealErlang(InRoom):
    def setUp(self) -> None:
        super().setUp()
        self.environment = {name: value for name, value in os.environ.items() if not name.startswith("ERL_")}

    def erl(self, *words: str) -> str:
        done = subprocess.run(["erl", *words], cwd=self.room, env=self.environment, capture_output=True, timeout=60, check=True)
        return done.stdout.decode()

    def test_words(self) -> None:
        random = Random("words of arguments")
        for number in range(ROUNDS):
            text = "".join(random.choice(SIGNS) for _ in range(random.randrange(1, 40)))
            try:
                words = [word.text for word in words_of("", text)]
            except Misread:
                continue
            (self.room / "some.args").write_bytes(b"-mark\n" + text.encode())
            printed = self.erl("-emu_args_exit", "-args_file", "some.args").split("-mark\n")[1]
            self.assertEqual(printed, "".join(f"{word}\n" for word in [*words, "--", "--"]), (number, text))

    def test_flags(self) -> None:
        """The flags and sections are those of another application, because kernel would start waiting for nodes."""
        room = self.room
        (room / "placed.config").write_text(PLACED)
        texts = {
            "sys.config": "[{kernel,[{sync_nodes_mandatory,[x@h]},{sync_nodes_timeout,3}]}].",
            "late.config": "[{kernel,[{sync_nodes_optional,[y@h]},{permissions,[{a,true}]}]}].",
            "more.args": "-kernel sync_nodes_timeout 6",
        }
        line = ERLANG_LINE.replace("(kernel,P)", "(stdlib,P)").rstrip(".") + ",halt()."
        for way in WAYS:
            for name, text in {**texts, "vm.args": way}.items():
                (room / name).write_text(text.replace("kernel", "stdlib"))
            (room / "answer").write_text(self.erl("-noinput", "-config", "sys", "-eval", line, "-args_file", "vm.args"))
            for name, text in {**texts, "vm.args": way}.items():
                (room / name).write_text(text)
            real = gather("x@h=placed.config,answer", folder=room)
            self.assertEqual(real.status, 0, (way, real))
            own = gather("x@h=placed.config,sys.config,vm.args", folder=room)
            self.assertEqual((own.status, kept(own)), (0, kept(real)), way)


def kept(said: Said) -> "list[str]":
    """The configuration, and net_ticktime if it isn't that of every node."""
    return [line for line in said.output.splitlines() if not line.startswith("%% ") or "net_ticktime 9" in line]
