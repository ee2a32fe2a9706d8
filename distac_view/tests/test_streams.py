"""Standard streams that are closed or can't be written, and written files: nothing is lost, and nothing is a
traceback."""

import os
import shlex
import stat
import subprocess
import sys
from pathlib import Path

from support import EXAMPLES, PROGRAM, TOP, InRoom, Said, view
from distac_view.common.problems import Problem
from distac_view.common.writing import write_whole

MANUAL, FAILOVER = str(EXAMPLES / "manual.config"), str(EXAMPLES / "failover.distac")
UNWRITABLE = (">&-", ">/dev/full", "1</dev/null", ">&- 2>&-", ">&- 2>&- <&-", ">/dev/full 2>/dev/full")
SILENT = ("2>&-", "2>/dev/full", "2</dev/null", "<&-", "2>&- <&-")


def redirected(streams: str, *words: str, program: str = PROGRAM) -> Said:
    """Runs `distac-view` with its streams redirected by the shell."""
    line = [sys.executable, str(TOP / "distac-view"), *words]
    whole = ["/bin/sh", "-c", f'exec "$@" {streams}', "sh", *line]
    done = subprocess.run(whole, stdin=subprocess.DEVNULL, capture_output=True, env={**os.environ, "DISTAC": program})
    return Said(done.returncode, done.stdout.decode(), done.stderr.decode())


class Streams(InRoom):
    """A closed stream leads to a sentence or a status."""

    def setUp(self) -> None:
        super().setUp()
        self.quick = str(self.script("quick", f"cat >/dev/null\ncat {shlex.quote(str(EXAMPLES / 'manual.out'))}"))

    def expect(self, said: Said, status: int) -> None:
        """A status without a traceback."""
        self.assertEqual(said.status, status, said)
        self.assertNotIn("Traceback", said.output + said.errors)
        self.assertNotIn("Exception ignored", said.errors)

    def test_output_that_cannot_be_written(self) -> None:
        for streams in UNWRITABLE:
            with self.subTest(streams=streams):
                said = redirected(streams, "check", MANUAL, program=self.quick)
                self.expect(said, 2)
                if "2>" not in streams:
                    self.assertIn("standard output can't be written", said.errors)
        for words in (("play", FAILOVER), ("timeline", FAILOVER, "-o", "-"), ("--help",), ("--version",)):
            with self.subTest(words=words):
                self.expect(redirected(">&-", *words), 2)

    def test_streams_that_are_not_needed(self) -> None:
        expected = "ok: 1 application, 3 nodes\n"
        for streams in SILENT:
            with self.subTest(streams=streams):
                said = redirected(streams, "check", MANUAL, program=self.quick)
                self.expect(said, 0)
                self.assertEqual(said.output, expected)

    def test_faults_and_wrong_use(self) -> None:
        for streams in (">&-", "2>&-", ">&- 2>&-", "2>/dev/full"):
            with self.subTest(streams=streams):
                self.expect(redirected(streams, "check", "/no/such/file"), 2)
                self.expect(redirected(streams, "nothing"), 2)
        self.expect(redirected("<&-", "check", "-"), 2)

    def test_a_page_needs_no_output(self) -> None:
        page = self.room / "page.html"
        self.expect(redirected(">&- 2>&- <&-", "timeline", FAILOVER, "-o", str(page)), 0)
        self.assertTrue(page.read_text().endswith("</html>\n"))


class Files(InRoom):
    """A file is written whole or not at all."""

    def setUp(self) -> None:
        super().setUp()
        self.source = self.write("my.distac", Path(FAILOVER).read_text())

    def test_no_input_is_written_over(self) -> None:
        (self.room / "link").symlink_to(self.source)
        os.link(self.source, self.room / "same")
        for name in ("my.distac", "link", "same", "../" + self.room.name + "/my.distac"):
            said = view("timeline", str(self.source), "-o", str(self.room / name))
            self.assertEqual(said.status, 2, name)
            self.assertIn("isn't written over", said.errors)
        with open(self.source, "rb") as source:
            line = [sys.executable, str(TOP / "distac-view"), "timeline", "-", "-o", str(self.source)]
            self.assertEqual(subprocess.run(line, stdin=source, capture_output=True, env={**os.environ, "DISTAC": PROGRAM}).returncode, 2)
        self.assertEqual(self.source.read_bytes(), Path(FAILOVER).read_bytes())
        self.assertEqual(self.names(), ["link", "my.distac", "same"])

    def test_an_earlier_page_is_replaced(self) -> None:
        page = self.room / "page.html"
        page.write_text("before")
        page.chmod(0o640)
        (self.room / "link").symlink_to(page)
        self.assertEqual(view("timeline", str(self.source), "-o", str(self.room / "link")).status, 0)
        self.assertTrue(page.read_text().startswith("<!DOCTYPE html>"))
        self.assertEqual(stat.S_IMODE(page.stat().st_mode), 0o640)
        self.assertTrue((self.room / "link").is_symlink())
        self.assertEqual(self.names(), ["link", "my.distac", "page.html"])

    def test_a_failed_write_leaves_the_earlier_file(self) -> None:
        limit = "import resource, signal, sys\nsignal.signal(signal.SIGXFSZ, signal.SIG_IGN)\nresource.setrlimit(resource.RLIMIT_FSIZE, (1000, 1000))\n"
        program = f"sys.path.insert(0, {str(TOP)!r})\nfrom distac_view.common.problems import Problem\nfrom distac_view.common.writing import write_whole\n"
        attempt = "try:\n    write_whole(sys.argv[1], b'x' * 5000, [])\nexcept Problem as problem:\n    print(problem.sentence)\n"
        page = self.room / "page.html"
        page.write_text("before")
        done = subprocess.run([sys.executable, "-c", limit + program + attempt, str(page)], capture_output=True, text=True)
        self.assertIn("can't be written", done.stdout, done.stderr)
        self.assertEqual(page.read_text(), "before")
        self.assertEqual(self.names(), ["my.distac", "page.html"])

    def test_what_is_no_plain_file_is_written_to(self) -> None:
        write_whole("/dev/null", b"page", [])
        for place in ("/dev/full", "/no/such/folder/page", str(self.room), "\0", "x" * 5_000, str(self.room / "my.distac" / "page")):
            with self.subTest(place=place), self.assertRaises(Problem) as caught:
                write_whole(place, b"page", [])
            self.assertIn("can't be written", caught.exception.sentence)
