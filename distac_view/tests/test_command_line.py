"""The command line: exit statuses, help, missing files, failing programs, and readers that go away."""

import codecs
import os
import re
import subprocess
import sys
from pathlib import Path

from support import EXAMPLES, MISTAKES, PROGRAM, TOP, InRoom, Said, run_view, view

FAILOVER, MANUAL = str(EXAMPLES / "failover.distac"), str(EXAMPLES / "manual.config")
TYPO, WARNED = str(MISTAKES / "s01_typo_verb.distac"), str(MISTAKES / "c11_perm_typo.config")
QUESTIONS = (("what-if", MANUAL), ("rolling", MANUAL), ("load", MANUAL))
COMMANDS = (
    ("check", MANUAL),
    ("gather", f"cp1@cave={MANUAL}"),
    ("play", FAILOVER),
    ("timeline", FAILOVER, "-o", "-"),
    *QUESTIONS,
)


class Statuses(InRoom):
    """0 for success, 1 for a strict warning, 2 for a fault or wrong use."""

    def expect(self, status: int, said: Said, error: str = "") -> None:
        """A status, a part of standard error, and no traceback."""
        self.assertEqual(said.status, status, said)
        self.assertIn(error, said.errors)
        self.assertNotIn("Traceback", said.errors + said.output)

    def test_fine(self) -> None:
        for words in COMMANDS:
            self.expect(0, run_view(*words))
        for helped in (("--help",), ("--version",), *((command[0], "--help") for command in COMMANDS)):
            said = view(*helped)
            self.expect(0, said)
            self.assertTrue(said.output)

    def test_faults(self) -> None:
        for words in (("check", TYPO), ("play", TYPO), ("timeline", TYPO, "-o", "-"), ("what-if", TYPO), ("rolling", TYPO), ("load", TYPO)):
            said = view(*words)
            self.expect(2, said)
            self.assertTrue(said.output.startswith(f"{TYPO}:"), said)

    def test_faults_of_the_script_before(self) -> None:
        for lines, error in (("boot cp1@cave\n", "BadCount"), ("tell cp1@cave\n", "BadCount"), ("boot cp9@cave 0\n", "UnknownActor")):
            path = self.write("script", Path(MANUAL).read_text() + "--\n" + lines)
            said = view("what-if", MANUAL, "--after", str(path))
            self.expect(2, said)
            self.assertIn(error, said.output)
        path = self.write("script", Path(FAILOVER).read_text().replace("5000", "6000"))
        self.expect(2, view("what-if", MANUAL, "--after", str(path)), "another configuration")

    def test_warnings(self) -> None:
        self.expect(0, view("check", WARNED), "UnknownPermission")
        self.expect(1, view("check", "--strict", WARNED), "UnknownPermission")
        self.expect(1, view("check", "--strict", MANUAL), "OwnFile")
        path = self.write("shared.config", Path(MANUAL).read_text().replace("[cp2@cave, cp3", "[cp1@cave, cp2@cave, cp3"))
        self.expect(0, view("check", "--strict", str(path)))
        self.expect(0, view("play", str(MISTAKES / "s03_unknown_about.distac")), "is cp1@cave meant?")
        self.expect(1, view("play", "--strict", str(MISTAKES / "s03_unknown_about.distac")), "UnknownNode")

    def test_wrong_use(self) -> None:
        for words in ((), ("nothing",), ("check",), ("play", "--loud", FAILOVER), ("timeline", FAILOVER), ("what-if", "--down")):
            self.expect(2, view(*words), "usage")
        self.expect(2, view("what-if", MANUAL, "--down", "cp9@cave"), "no node cp9@cave")
        self.expect(2, view("what-if", MANUAL, "--not-started", ""), "no node")
        self.expect(2, view("timeline", FAILOVER, "-o", "-", "--from", "1000"), "no line")
        self.expect(2, view("timeline", FAILOVER, "-o", "/no/such/folder/page.html"), "can't be written")

    def test_several_files(self) -> None:
        canonical = Path(MANUAL).with_suffix(".out").read_text()
        said = view("check", MANUAL, TYPO, MANUAL, "--print")
        self.expect(2, said)
        self.assertTrue(said.output.startswith(f"{MANUAL}: {canonical}{TYPO}:"), said)
        self.assertTrue(said.output.endswith(f"{MANUAL}: {canonical}"), said)
        self.assertEqual(view("check", MANUAL).output, "ok: 1 application, 3 nodes\n")
        self.assertTrue(view("check", MANUAL, TYPO).output.startswith(f"{MANUAL}: ok: 1 application, 3 nodes\n{TYPO}:"))
        self.expect(2, view("check", TYPO, "/no/such/file", MANUAL), "can't be read")
        self.expect(1, view("check", "--strict", MANUAL, WARNED), "UnknownPermission")
        self.expect(0, view("check", MANUAL, WARNED), "UnknownPermission")

    def test_byte_order_marks(self) -> None:
        path = self.room / "file"
        for mark in (codecs.BOM_UTF8, codecs.BOM_UTF16_LE, codecs.BOM_UTF16_BE):
            for command, source in (("check", MANUAL), ("play", FAILOVER)):
                path.write_bytes(mark + Path(source).read_bytes())
                said = view(command, str(path))
                self.expect(2, said)
                self.assertIn("the file begins with a byte order mark", said.output)

    def test_files_that_cannot_be_read(self) -> None:
        for path in ("/no/such/file", str(TOP), "\0", "x" * 5_000):
            for words in (("check", path), ("play", path), ("timeline", path, "-o", "-"), ("what-if", path), ("rolling", path), ("load", path)):
                self.expect(2, view(*words), "can't be read")

    def test_standard_input(self) -> None:
        with open(FAILOVER, "rb") as file:
            self.assertEqual(run_view("play", "--plain", "-", source=file.read()).output, Path(FAILOVER).read_text())

    def test_allowed_warnings(self) -> None:
        path = self.write("a.config", "[{kernel,[{distributed,[{a,5,[n1@h,{n2@h,n3@h}]},{b,5,[n1@h,{n2@h,n3@h}]},{'C-c',1,[n1@h]}]}]}].")
        rows: "list[tuple[list[str], list[str]]]" = [
            ([], ["EqualTimes", "SingleNode"]),
            (["SingleNode:C-c"], ["EqualTimes"]),
            (["SingleNode:a", "EqualTimes:b"], ["EqualTimes", "SingleNode"]),
            (["SingleNode:'C-c'", "EqualTimes:a", "EqualTimes:b"], []),
            (["SingleNode", "EqualTimes"], []),
        ]
        for allowed, left in rows:
            words = ("check", str(path), "--strict", *(["--allow", *allowed] if allowed else []))
            said, remarks = view(*words), self.answer(1 if left else 0, *words)["files"][0]["remarks"]
            self.assertEqual((said.status, sorted(re.findall(r": ([A-Z][A-Za-z]+): ", said.errors))), (1 if left else 0, left), allowed)
            self.assertEqual(sorted(each["id"] for each in remarks if not each["allowed"]), left)
            self.assertEqual(len(remarks), 2)

    def test_json(self) -> None:
        fates = self.answer(0, "what-if", MANUAL, "--down", "cp1@cave", "cp2@cave")["cases"][0]["applications"]
        self.assertEqual((fates[0]["then"], fates[0]["how"], fates[0]["milliseconds"]), ("cp3@cave", "failover", 5000))


class Programs(InRoom):
    """Programs in place of `distac` that don't exist, or behave differently."""

    def program(self, text: str) -> str:
        return str(self.script("program", text))

    def expect(self, program: str, error: str) -> None:
        """A sentence instead of an answer."""
        said = view("check", MANUAL, program=program)
        self.assertEqual((said.status, said.output), (2, ""), said)
        self.assertIn(error, said.errors)
        self.assertNotIn("Traceback", said.errors)

    def test_none(self) -> None:
        self.expect("/no/such/program", "no program distac")
        self.expect("no-such-program-in-path", "no program distac")
        self.expect(str(self.room), "no program distac")
        self.expect(MANUAL, "isn't executable")

    def test_others(self) -> None:
        self.expect(self.program("exit 3"), "gave no answer")
        self.expect(self.program("exit 1"), "gave no answer")
        self.expect(self.program("kill -9 $$"), "gave no answer")
        self.expect(self.program("echo out of memory; exit 1"), "out of memory")
        self.expect(self.program("echo hello; exit 1"), "doesn't know")
        self.expect(self.program("echo hello"), "can't read")
        self.expect(self.program("printf hello"), "gave no answer")
        self.expect(self.program("true"), "gave no answer")
        garbled = Path(self.program("")).with_name("garbled")
        garbled.write_bytes(b"\x7fELF garbage")
        garbled.chmod(0o755)
        self.expect(str(garbled), "can't be run")

    def test_the_command_line_comes_first(self) -> None:
        for words in (("check", MANUAL, "--distac", PROGRAM), ("--distac", PROGRAM, "check", MANUAL)):
            said = run_view(*words, program="/no/such/program")
            self.assertEqual(said.status, 0, said)

    def test_a_reader_that_goes_away(self) -> None:
        for words in COMMANDS:
            line = [sys.executable, str(TOP / "distac-view"), *words]
            with subprocess.Popen(line, stdout=subprocess.PIPE, stderr=subprocess.PIPE, env={**os.environ, "DISTAC": PROGRAM}) as process:
                assert process.stdout and process.stderr
                process.stdout.close()
                errors = process.stderr.read()
                self.assertEqual((process.wait(), errors), (0, b""), words)

    def test_a_full_disk(self) -> None:
        with open("/dev/full", "wb") as full:
            line = [sys.executable, str(TOP / "distac-view"), "check", MANUAL]
            done = subprocess.run(line, stdout=full, stderr=subprocess.PIPE, env={**os.environ, "DISTAC": PROGRAM})
        self.assertEqual(done.returncode, 2)
        self.assertIn(b"can't be written", done.stderr)
