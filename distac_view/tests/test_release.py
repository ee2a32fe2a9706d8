"""A release: the contents of its folder, the conditions for making it, its commit, and the script for CI, with only
Python."""

from __future__ import annotations

import hashlib
import os
import re
import shutil
import subprocess
import sys
import unittest
from pathlib import Path

from support import TOP, InRoom, view
from distac_view.common.version import CHANGED, UNKNOWN, VERSION, commit_of

PARTS = ("distac_view/*.py", "distac_view/[!t]*/*.py", "models/*.py", "distac-view", "docs/distac-view.schema.json", "LICENSE")
FAKE = """case "$1 $2" in
    "--which --proved") echo "STATE" ;;
    "--version ") echo "distac 9.9.9, bytes 2" ;;
esac"""
RT = "echo 'kit-1 logic 1'\necho more"
NAMES = ["LICENSE", "RELEASE", "SHA256SUMS", "distac", "distac-view.pyz", "distac-view.schema.json"]
OWN_CONFIG = """[{kernel,[{distributed,[{billing,5000,['shop1@10.0.0.1','shop2@10.0.0.2']},{audit,7000,['shop2@10.0.0.2','shop1@10.0.0.1']}]},
{sync_nodes_optional,['OTHER']},{sync_nodes_timeout,3000}]}].
"""
OTHERS = {"shop1": "shop2@10.0.0.2", "shop2": "shop1@10.0.0.1"}
BLOCK = re.compile(r"^```\n(.*?)^```$", re.DOTALL | re.MULTILINE)


def said(*words: str, cwd: Path, path: str = os.environ["PATH"], **more: str) -> "subprocess.CompletedProcess[str]":
    """The output of a command in only this environment."""
    surroundings = {"PATH": path, "HOME": str(cwd), **more}
    return subprocess.run(words, cwd=cwd, env=surroundings, stdin=subprocess.DEVNULL, capture_output=True, text=True, timeout=120)


def git(folder: Path, *words: str) -> str:
    person = ("-c", "user.name=Somebody", "-c", "user.email=somebody@example.org")
    done = said("git", *person, *words, cwd=folder)
    assert done.returncode == 0, done
    return done.stdout.strip()


class Room(InRoom):
    """A folder for each test, with programs that a command finds there first."""

    def setUp(self) -> None:
        super().setUp()
        self.programs = self.room / "programs"
        self.programs.mkdir()


@unittest.skipUnless(shutil.which("git"), "git isn't in PATH")
class Release(Room):
    """Releases of a small repository with the parts that they are made of."""

    def setUp(self) -> None:
        super().setUp()
        self.top = self.room / "top"
        for pattern in PARTS:
            for path in TOP.glob(pattern):
                copy = self.top / path.relative_to(TOP)
                copy.parent.mkdir(parents=True, exist_ok=True)
                shutil.copy(path, copy)
        (self.top / ".gitignore").write_text("out/\n")
        self.proved = self.script("top/out/proved", FAKE)
        self.script("top/distac", FAKE.replace("STATE", f"proved: {self.proved}"))
        self.script("programs/rt", RT)
        git(self.top, "init", "-q", ".")
        self.commit = self.committed()
        self.folder = self.room / "release"

    def committed(self) -> str:
        """Commits everything, and returns the commit."""
        git(self.top, "add", "-A")
        git(self.top, "commit", "-q", "-m", "all")
        return git(self.top, "rev-parse", "HEAD")

    def made(self, *words: str, has_rt: bool = True) -> "subprocess.CompletedProcess[str]":
        """The output of the command that makes a release."""
        path = f"{self.programs}{os.pathsep}{os.environ['PATH']}" if has_rt else f"{self.room}{os.pathsep}/usr/bin{os.pathsep}/bin"
        return said(sys.executable, str(self.top / "distac_view" / "release.py"), *words, str(self.folder), cwd=self.room, path=path)

    def facts(self) -> dict[str, str]:
        return dict(line.split(": ", 1) for line in (self.folder / "RELEASE").read_text().splitlines())

    def refused(self, sentence: str, *words: str, has_rt: bool = True) -> None:
        """No release is made, and nothing of it is left."""
        before = sorted(self.room.iterdir())
        done = self.made(*words, has_rt=has_rt)
        self.assertEqual((done.returncode, done.stdout), (2, ""), done)
        self.assertIn(sentence, done.stderr)
        self.assertNotIn("Traceback", done.stderr)
        self.assertEqual(sorted(self.room.iterdir()), before)

    def test_all_of_it(self) -> None:
        done = self.made()
        self.assertEqual((done.returncode, done.stdout, done.stderr), (0, "", ""))
        self.assertEqual(sorted(path.name for path in self.folder.iterdir()), sorted(NAMES))
        sums = {line[66:]: line[:64] for line in (self.folder / "SHA256SUMS").read_text().splitlines()}
        self.assertEqual(sorted([*sums, "SHA256SUMS"]), sorted(NAMES))
        for name, mark in sums.items():
            self.assertEqual(hashlib.sha256((self.folder / name).read_bytes()).hexdigest(), mark, name)
        self.assertEqual(self.facts()["commit"], self.commit)
        self.assertEqual(self.facts()["rt version"], "kit-1 logic 1")
        self.assertRegex(self.facts()["program"], r"\Adistac 9\.9\.9, bytes 2, proved, for \w+ \w+\Z")
        self.assertEqual((self.folder / "distac").read_bytes(), self.proved.read_bytes())
        self.assertEqual((self.folder / "distac-view.schema.json").read_bytes(), (TOP / "docs/distac-view.schema.json").read_bytes())
        for name in ("distac", "distac-view.pyz"):
            self.assertTrue(os.access(self.folder / name, os.X_OK), name)
        version = said(sys.executable, str(self.folder / "distac-view.pyz"), "--version", cwd=self.room, path="")
        self.assertEqual(version.stdout, f"{VERSION}, commit {self.commit}\n", version.stderr)

    def test_the_same_bytes_each_time(self) -> None:
        found: list[dict[str, bytes]] = []
        for _ in range(2):
            self.assertEqual(self.made().returncode, 0)
            found.append({path.name: path.read_bytes() for path in self.folder.iterdir()})
            shutil.rmtree(self.folder)
            self.folder.mkdir()
        self.assertEqual(found[0], found[1])

    def test_without_a_proved_program(self) -> None:
        for state in ("none", f"stale: {self.proved}", f"not proved: {self.proved}", ""):
            self.script("top/distac", FAKE.replace("STATE", state))
            self.committed()
            self.refused("there is no proved program")
        commit = self.committed_again()
        done = self.made("--without-program", has_rt=False)
        self.assertEqual((done.returncode, done.stderr), (0, ""))
        self.assertEqual(sorted(path.name for path in self.folder.iterdir()), sorted(set(NAMES) - {"distac"}))
        self.assertTrue(self.facts()["program"].startswith("left out: "))
        self.assertEqual(self.facts()["commit"], commit)

    def committed_again(self) -> str:
        (self.top / "more").write_text("more")
        return self.committed()

    def test_what_is_not_in_the_commit(self) -> None:
        for path in (self.top / "distac_view" / "cli" / "check.py", self.top / "distac_view" / "unheard.py"):
            before = path.read_bytes() if path.exists() else None
            path.write_bytes((before or b"") + b"\n")
            for words in ((), ("--without-program",)):
                self.refused("commit them first", *words)
            if before is None:
                path.unlink()
            else:
                path.write_bytes(before)

    def test_a_folder_that_is_in_use(self) -> None:
        self.folder.mkdir()
        (self.folder / "kept").write_text("kept")
        self.refused("is there already")
        self.assertEqual([path.name for path in self.folder.iterdir()], ["kept"])
        shutil.rmtree(self.folder)
        self.folder.write_text("a file")
        self.refused("is there already")

    @unittest.skipIf(any(Path(folder, "rt").exists() for folder in ("/usr/bin", "/bin")), "rt stands beside git")
    def test_without_the_toolchain(self) -> None:
        self.refused("rt isn't in PATH", has_rt=False)
        self.assertEqual(self.made("--without-program", has_rt=False).returncode, 0)
        self.assertEqual(self.facts()["rt version"], UNKNOWN)

    def test_commits(self) -> None:
        self.assertEqual(commit_of(self.top), self.commit)
        line = [sys.executable, str(self.top / "distac-view"), "--version"]
        self.assertEqual(said(*line, cwd=self.room, GIT_DIR=str(self.room / "none")).stdout, f"{VERSION}, commit {self.commit}\n")
        (self.top / "LICENSE").write_text("other")
        self.assertEqual(commit_of(self.top), self.commit + CHANGED)
        inside = self.top / "inside"
        shutil.copytree(self.top / "distac_view", inside / "distac_view")
        shutil.copy(self.top / "distac-view", inside)
        self.assertEqual(said(sys.executable, str(inside / "distac-view"), "--version", cwd=self.top).stdout, f"{VERSION}, commit {UNKNOWN}\n")
        self.assertEqual(said(*line, cwd=self.room, path="").stdout, f"{VERSION}, commit {UNKNOWN}\n")


class InCI(Room):
    """The script in docs/OPERATORS.md, in a folder with two nodes' files and the packed program, with only Python."""

    def setUp(self) -> None:
        super().setUp()
        text = (TOP / "docs" / "OPERATORS.md").read_text().split("\n## In CI\n")[1].split("\n## ")[0]
        self.steps, self.workflow = BLOCK.findall(text)[:2]
        (self.programs / "python3").symlink_to(sys.executable)
        self.folder = self.room / "configurations"
        (self.folder / "ci").mkdir(parents=True)
        (self.folder / "ci" / "failover.sh").write_text(self.steps)
        done = subprocess.run([sys.executable, str(TOP / "distac_view" / "pack.py"), "-o", str(self.folder / "ci" / "distac-view.pyz")], check=True)
        self.assertEqual(done.returncode, 0)
        for node in OTHERS:
            (self.folder / node).mkdir()
            self.change("", "", node)

    def change(self, old: str, new: str, *nodes: str) -> None:
        """Writes the files of some nodes, or of all, with a change in them."""
        for node in nodes or OTHERS:
            self.assertIn(old, OWN_CONFIG)
            text = OWN_CONFIG.replace(old, new) if old else OWN_CONFIG
            (self.folder / node / "sys.config").write_text(text.replace("OTHER", OTHERS[node]))

    def ran(self) -> "subprocess.CompletedProcess[str]":
        """The script, run like the workflow, with a shell and Python."""
        runs = re.findall(r"^ *- run: (.*)$", self.workflow, re.MULTILINE)
        self.assertEqual(runs, ["sh ci/failover.sh"])
        shell = shutil.which("sh")
        self.assertIsNotNone(shell)
        return said(str(shell), *runs[0].split()[1:], cwd=self.folder, path=str(self.programs))

    def pages(self) -> list[str]:
        return sorted(path.name for path in self.folder.glob("*.html"))

    def test_a_change(self) -> None:
        done = self.ran()
        self.assertEqual(done.returncode, 0, done)
        self.assertEqual(self.pages(), ["load.html", "rolling.html"])
        shutil.move(str(self.folder / "new.config"), str(self.folder / "cluster.config"))
        self.change("audit,7000", "audit,9000")
        done = self.ran()
        self.assertEqual(done.returncode, 0, done)
        self.assertIn(["~", "audit", "time", "7000", "->", "9000"], [line.split() for line in done.stdout.splitlines()])
        self.assertEqual(self.pages(), ["change.html", "load.html", "rolling.html"])
        self.assertIn("Change: cluster.config to new.config", (self.folder / "change.html").read_text())

    def test_a_fault(self) -> None:
        (self.folder / "shop2" / "sys.config").write_text("[{kernel,")
        self.assertEqual(self.ran().returncode, 2)
        self.change("billing", "bill", "shop2")
        done = self.ran()
        self.assertEqual((done.returncode, self.pages()), (2, []), done)
        self.assertIn("Differs", done.stdout + done.stderr)

    def test_the_no_of_a_question(self) -> None:
        self.change("{sync_nodes_timeout", "{permissions,[{audit,false}]},{sync_nodes_timeout", "shop2")
        done = self.ran()
        self.assertEqual((done.returncode, self.pages()), (1, []), done)
        self.assertIn("PermissionDiffers", done.stderr)
        self.change("{sync_nodes_timeout", "{permissions,[{audit,false}]},{sync_nodes_timeout")
        done = self.ran()
        self.assertEqual((done.returncode, self.pages()), (1, ["load.html"]), done)
        self.assertIn("lost: audit runs nowhere before any loss", done.stderr)
        self.assertIn("lost: audit runs nowhere before any loss", (self.folder / "load.html").read_text())

    def test_an_answer_without_a_program(self) -> None:
        pyz = self.folder / "ci" / "distac-view.pyz"
        done = said(str(self.programs / "python3"), str(pyz), "check", str(self.folder / "shop1" / "sys.config"), cwd=self.folder, path="")
        self.assertEqual(done.returncode, 2)
        self.assertIn("ask the models by --models", done.stderr)
        version = said(str(self.programs / "python3"), str(pyz), "--version", cwd=self.folder, path="")
        self.assertEqual(version.stdout, f"{VERSION}, commit {UNKNOWN}\n")


class Version(unittest.TestCase):
    def test_version(self) -> None:
        self.assertEqual(view("--version").output, f"{VERSION}, commit {commit_of(TOP) or UNKNOWN}\n")
