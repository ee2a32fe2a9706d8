"""The report of docs/otp-hang: its escript runs where Erlang is installed, and its line numbers are those that it prints."""

import re
import shutil
import subprocess
import unittest

from erlang_nodes import is_installed, release_of_otp
from support import TOP

REPORT = TOP / "docs" / "otp-hang"
FRAME = re.compile(r"dist_ac:(\w+/\d+) \(dist_ac\.erl:(\d+)\)")


class Report(unittest.TestCase):
    def test_lines_are_those_of_the_stored_run(self) -> None:
        frames = dict(FRAME.findall((REPORT / "hang.txt").read_text()))
        cited = dict(re.findall(r"`(\w+/\d+)` \((\d+)\)", (REPORT / "README.md").read_text()))
        self.assertLessEqual({"collect_answers/4", "wait_dist_start/7"}, set(cited) & set(frames))
        for name, line in cited.items():
            self.assertLessEqual(int(line), int(frames.get(name, line)), name)

    @unittest.skipUnless(is_installed() and shutil.which("escript"), "Erlang isn't installed")
    def test_the_case_that_hangs(self) -> None:
        words = ["escript", str(REPORT / "dist_ac_hang.escript"), "hang"]
        done = subprocess.run(words, stdin=subprocess.DEVNULL, capture_output=True, text=True, timeout=300)
        if not release_of_otp().startswith("OTP 25,"):
            self.assertIn((done.returncode, done.stdout.split()[-1]), ((0, "works"), (1, "hangs")), done)
            return
        self.assertEqual((done.returncode, done.stdout.splitlines()[-1]), (1, "hang   hangs"), done)
        self.assertLessEqual({"collect_answers/4", "wait_dist_start/7"}, {name for name, _ in FRAME.findall(done.stdout)})
        for line in ("application:load -> no_answer", "n1 back: a1 runs at []", "without n1 and n2: a1 runs at [n3]"):
            self.assertIn(line, done.stdout)
