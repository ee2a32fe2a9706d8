"""The commands at the top that check the program: what they refuse, before any work."""

import ast
import io
import os
import runpy
import shutil
import signal
import subprocess
import sys
import unittest
from contextlib import redirect_stdout
from pathlib import Path
from typing import Dict, Tuple
from unittest import mock

from support import EXAMPLES, TOP, InRoom, hear_signals
import folders

MOST_SECONDS = 60


def say(*words: str, folder: Path = TOP, **variables: str) -> "tuple[int, str, str]":
    """The status and output of a command in a folder. One that would take long is a failure."""
    python = [sys.executable] if words[0].endswith(".py") else []
    line = [*python, str(folder / words[0]), *words[1:]]
    pipe, null, surroundings = subprocess.PIPE, subprocess.DEVNULL, {**os.environ, **variables}
    done = subprocess.run(
        line, cwd=TOP.parent, env=surroundings, stdin=null, stdout=pipe, stderr=pipe, text=True, timeout=MOST_SECONDS, check=False
    )
    return done.returncode, done.stdout, done.stderr


# Words that a command refuses, and a part of its message.
REFUSED = (
    (("checks/growths", "nosuch"), "no call and no example begins with nosuch"),
    (("checks/growths", "State", "nosuch"), "no call and no example begins with nosuch"),
    (("checks/growths", "--counts", "State"), "takes no names"),
    (("tests", "--wrong"), "no part is called --wrong"),
    (("tests", "documents", "dac_status"), "no part is called dac_status"),
    (("examples/check", "--wrong"), "may follow"),
    (("examples/check", "--proved", "x"), "may follow"),
    (("checks/mutants", "nosuch"), "no crate is called nosuch"),
    (("checks/mutants", "--libraries", "/no/such/folder"), "no folder is called /no/such/folder"),
    (("checks/mutants", "--portion", "-1"), "'-1' isn't a number of 0 or more"),
    (("checks/nightly", "--only", "nosuch"), "no part is called nosuch"),
    (("checks/nightly", "--only", "fuzz", "--commands", "nosuch"), "no command is called nosuch"),
    (("checks/nightly", "--minutes", "-1"), "'-1' is no number of minutes"),
    (("checks/nightly", "--record", "--minutes", "1"), "takes neither parts nor minutes"),
    (("models/compare.py", "x", "--jobs", "0"), "'0' isn't a number of 1 or more"),
    (("models/compare.py", "x", "--count", "-1"), "'-1' isn't a number of 0 or more"),
    (("checks/fuzz", "nosuch"), "no command is called nosuch"),
    (("checks/fuzz", "--jobs", "0"), "'0' isn't a number of 1 or more"),
    (("checks/fuzz", "--minutes", "-1"), "'-1' isn't a number of 0 or more"),
    (("checks/races", "--jobs", "0"), "'0' isn't a number of 1 or more"),
    (("checks/races", "--only", "nosuch"), "invalid choice: 'nosuch'"),
    (("checks/growths", "--states", "-1"), "'-1' isn't a number of 0 or more"),
)
# A test that keeps a folder while it runs.
WAITING = """
import tempfile, time, unittest

class Waiting(unittest.TestCase):
    def test_waiting(self):
        room = tempfile.TemporaryDirectory()
        self.addCleanup(room.cleanup)
        time.sleep(60)
"""
# The races, bad accesses and wrong outputs of each program. With a sanitizer or without, and with other findings: what is played
# by how many scripts, the status, and the middle of the last line.
NO_RACES = {"weak": (7, 0, 0), "thread": (0, 0, 0), "address": (0, 0, 0)}
ALL_PLAYED, THREAD_PLAYED, ADDRESS_PLAYED = "weak 5, thread 200, address 200", "weak 5, thread 200", "address 200"
RACES: "Tuple[Tuple[str, Dict[str, Tuple[int, int, int]], str, int, str], ...]" = (
    ("", {}, ALL_PLAYED, 0, "0 races, 0 bad accesses, 0 wrong; control: 7 races in 5 scripts"),
    ("", {"thread": (1, 0, 1), "address": (0, 2, 1)}, ALL_PLAYED, 1, "1 races, 2 bad accesses, 2 wrong; control: 7 races in 5 scripts"),
    ("thread", {}, THREAD_PLAYED, 0, "0 races, 0 wrong; control: 7 races in 5 scripts"),
    ("thread", {"thread": (3, 0, 0)}, THREAD_PLAYED, 1, "3 races, 0 wrong; control: 7 races in 5 scripts"),
    ("thread", {"weak": (0, 0, 0)}, THREAD_PLAYED, 1, "0 races, 0 wrong; control: 0 races in 5 scripts"),
    ("address", {}, ADDRESS_PLAYED, 0, "0 bad accesses, 0 wrong"),
    ("address", {"address": (0, 0, 1)}, ADDRESS_PLAYED, 1, "0 bad accesses, 1 wrong"),
)
# Those that print their first comment as help.
COMMENTED = tuple(f"checks/{name}" for name in ("growths", "mutants", "races", "fuzz", "stacks", "nightly"))
HELPED = ("tests", "examples/check", "checks/check-documents", *COMMENTED)

# Those that a user runs first. A Python that is too old prints a sentence, so it must be able to read them.
PLAIN = ("believe", "checks/check-documents", "models/sim.py")
OLD_PYTHONS = ("python2", "python2.7", "python3.5", "python3.6", "python3.7")
# Syntax that such a Python can't read.
NEWER = (ast.AnnAssign, ast.AsyncFunctionDef, ast.FunctionDef, ast.JoinedStr, ast.NamedExpr, ast.Starred)
VERSION = "import sys; sys.stdout.write('%d.%d' % sys.version_info[:2])"
PRETENDS = "import sys; sys.version_info = (3, 7, 16); exec(compile(open(sys.argv[1]).read(), sys.argv[1], 'exec'))"


def said_by_python(*words: str) -> "tuple[int, str, str]":
    """The status and output of a Python without input."""
    done = subprocess.run(words, stdin=subprocess.DEVNULL, capture_output=True, text=True, timeout=MOST_SECONDS, check=False)
    return done.returncode, done.stdout, done.stderr


class OldPythons(unittest.TestCase):
    """The commands that are run first report a Python that is too old."""

    def expect(self, script: str, version: str, *words: str) -> None:
        """Only a sentence with the version."""
        sentence = f"{script.rpartition('/')[2]}: this is Python {version}, and 3.8 or later is needed\n"
        self.assertEqual(said_by_python(*words, str(TOP / script)), (2, "", sentence), words)

    def test_a_python_that_says_it_is_older(self) -> None:
        for script in PLAIN:
            self.expect(script, "3.7", sys.executable, "-c", PRETENDS)

    def test_the_pythons_that_are_here(self) -> None:
        for python in filter(shutil.which, OLD_PYTHONS):
            status, version, _ = said_by_python(python, "-c", VERSION)
            for script in PLAIN if status == 0 else ():
                self.expect(script, version, python)

    def test_nothing_newer_is_read(self) -> None:
        for script in PLAIN:
            tree = ast.parse((TOP / script).read_text())
            self.assertEqual([type(node) for node in tree.body[:3]], [ast.Expr, ast.Import, ast.If], script)
            self.assertEqual([ast.dump(node) for node in ast.walk(tree) if isinstance(node, NEWER)], [], script)


class OwnCommands(InRoom):
    def test_unknown_words_are_refused_before_anything_is_done(self) -> None:
        for words, said in REFUSED:
            status, output, errors = say(*words)
            self.assertEqual((status, output), (2, ""), words)
            self.assertIn(said, errors, words)

    def test_help(self) -> None:
        for command in HELPED:
            status, output, errors = say(command, "--help")
            self.assertEqual((status, errors), (0, ""), command)
            self.assertGreater(len(output.splitlines()), 3, command)
            if command in COMMENTED:
                first_line = (TOP / command).read_text().partition('"""')[2].partition("\n")[0]
                self.assertIn(first_line, output, command)

    def test_output_that_cant_be_written(self) -> None:
        tried = {"checks/mutants --counts dac_tokens": "mutants: standard output", "tests --list": "write error"}
        for where in (">/dev/full", ">&-"):
            for words, said in tried.items():
                done = subprocess.run(f"{TOP}/{words} {where}", shell=True, stderr=subprocess.PIPE, text=True, check=False)
                self.assertEqual(done.returncode, 1, (words, where))
                self.assertTrue(all(said in line for line in done.stderr.splitlines()), done.stderr[:200])

    def test_links_and_folders_that_cd_looks_in(self) -> None:
        cdpath = f".:{TOP.parent}:/"
        for command in HELPED:
            expected = say(command, "--help")
            link = self.room / Path(command).name
            link.symlink_to(TOP / command)
            self.assertEqual(say(link.name, "--help", folder=self.room), expected, command)
            self.assertEqual(say(command, "--help", folder=Path(TOP.name), CDPATH=cdpath), expected, command)

    def test_a_signal_to_the_tests_removes_what_they_keep(self) -> None:
        for path in ("distac_view/tests/run.py", "models/processes.py", "models/streams.py"):
            shutil.copy(TOP / path, self.room)
        self.write("support.py", "PROGRAM = 'nothing'\n")
        self.write("test_waiting.py", WAITING)
        kept = self.room / "kept"
        kept.mkdir()
        surroundings = {**os.environ, "TMPDIR": str(kept)}
        words, pipe = [sys.executable, f"{self.room}/run.py"], subprocess.PIPE
        for number in (signal.SIGTERM, signal.SIGHUP, signal.SIGINT):
            with subprocess.Popen(words, env=surroundings, stdout=pipe, stderr=pipe, preexec_fn=hear_signals) as run:
                # (Python first tries whether files can be made there, by other names)
                self.until(lambda: any(kept.glob("tmp*")))
                run.send_signal(number)
                run.communicate(timeout=MOST_SECONDS)
            self.assertNotEqual(run.returncode, 0)
            self.assertEqual(list(kept.iterdir()), [], number)

    def test_jobs_of_mutants(self) -> None:
        for jobs in ("0", "x", ""):
            self.assertEqual(say("checks/mutants", JOBS=jobs), (1, "", f"mutants: JOBS: {jobs!r} isn't a number of 1 or more\n"))

    def test_a_folder_that_cant_be_written(self) -> None:
        self.assertEqual(list(folders.own(self.room / "out" / "kept").iterdir()), [])
        file = self.write("file", "")
        for path in (file, file / "kept"):
            with self.assertRaises(SystemExit) as caught:
                folders.own(path)
            self.assertIn(f"{path} can't be written (", str(caught.exception.code))

    def test_beginnings_of_names(self) -> None:
        unknown = runpy.run_path(str(TOP / "checks" / "growths"), run_name="growths")["unknown"]
        known = ("State", "Node::step:ship-again", "first-path", "live-failover", "take")
        self.assertEqual(unknown((*known, "nosuch", "first-path.distac")), ["nosuch", "first-path.distac"])

    def test_races_of_one_sanitizer(self) -> None:
        races = runpy.run_path(str(TOP / "checks" / "races"), run_name="races")
        for only, found, kinds, status, line in RACES:
            counts, played, output = {**NO_RACES, **found}, [""][:0], io.StringIO()

            def play_all(program: Path, _seed: int, scripts: int, _pool: object) -> object:
                played.append(f"{program.name} {scripts}")
                return races["Count"](*counts[program.name])

            stand_ins = {"play_all": play_all, "instrumented": mock.Mock(programs=lambda *kinds: list(map(Path, kinds)))}
            words = ["races", *(["--only", only] if only else [])]
            with mock.patch.dict(races["main"].__globals__, stand_ins), mock.patch.object(sys, "argv", words), redirect_stdout(output):
                self.assertEqual(races["main"](), status, (only, found))
            self.assertEqual((", ".join(played), output.getvalue()), (kinds, f"200 live scripts: {line}; the program is not proved\n"))

    @unittest.skipUnless(shutil.which("prlimit"), "prlimit sets the stacks")
    def test_stacks_of_a_program_that_answers_nothing(self) -> None:
        for program in (shutil.which("true"), shutil.which("cat"), "/no/such/program"):
            status, output, errors = say("checks/stacks", str(program))
            self.assertEqual((status, output), (1, ""), errors)
            self.assertIn(f"stacks: {program} check isn't right with 8192 KiB on manual, which the model answers otherwise\n", errors)

    def test_recorded_runs_of_the_fuzzer(self) -> None:
        fuzz = runpy.run_path(str(TOP / "checks" / "fuzz"), run_name="fuzz")
        source = (EXAMPLES / "rows/record/each-event.distac").read_bytes()
        printed = (EXAMPLES / "rows/record/each-event.out").read_bytes()
        self.assertIn(b"\ntick ", printed)
        output = self.room / "output"
        program = self.script("program", f"cat >{self.room}/input; cat {output}")
        for text, is_right in ((printed, True), (printed.replace(b"\ntick ", b"\n# tick ", 1), False)):
            output.write_bytes(text)
            self.assertEqual(fuzz["is_right"](fuzz["Target"]("record", program, self.room), source), is_right)
