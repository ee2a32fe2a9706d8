"""The script `nightly` in a repository with made-up parts: its record of each part, and its table."""

import os
import shutil
import signal
import subprocess
from pathlib import Path

from support import TOP, InRoom, hear_signals

COMPARED = ("compare-texts", "compare-scripts", "compare-live", "compare-packets", "compare-long")
PARTS = ("examples", "races", *COMPARED, "growths", "stacks", "mutants-read", "mutants")
SCRIPTS = (*(f"checks/{name}" for name in ("races", "growths", "stacks", "mutants", "fuzz")), "examples/check")
# A crate that no program uses, and those of the programs.
CRATES = "# all\nlow: core\nother: core\ndistac: low\ngrowths: low\n"
# A launcher that has a program once it was asked to compile one.
LAUNCHER = """cd "$(dirname "$0")"
case "$*" in
    --which) [ -f out/program ] && echo "not proved: $PWD/out/program" || echo none ;;
    "--unproved --help") mkdir -p out && touch out/program ;;
esac"""
MOST_SECONDS = 60


class Nightly(InRoom):
    def setUp(self) -> None:
        super().setUp()
        self.room = self.top = self.room.resolve() / "top"
        for path in (TOP / "checks" / "nightly", *(TOP / "models").glob("*.py"), *(TOP / "checks" / "library").glob("*.py")):
            (self.top / path.relative_to(TOP)).parent.mkdir(parents=True, exist_ok=True)
            shutil.copy(path, self.top / path.relative_to(TOP))
        for name in SCRIPTS:
            self.script(name, f'echo "{name} | right"')
        self.script("distac", LAUNCHER)
        self.write("models/compare.py", "print('compare | right')\n")
        self.write("crates.txt", CRATES)
        for crate in ("low", "other", "distac", "growths"):
            self.write(f"crates/{crate}/src/lib.rt", "")
        self.write(".gitignore", "out/\n__pycache__/\n")
        self.toolchain("kit-1")
        self.git("init", "-q")
        self.git("add", "-A")
        self.git("-c", "user.name=a", "-c", "user.email=a", "commit", "-q", "-m", "all")

    def toolchain(self, name: str) -> None:
        self.script("../bin/rt", f"echo {name}")

    def git(self, *words: str) -> str:
        done = subprocess.run(["git", *words], cwd=self.top, stdout=subprocess.PIPE, text=True, check=True)
        return done.stdout.strip()

    def start(self, *words: str) -> "subprocess.Popen[str]":
        surroundings = {**os.environ, "PATH": f"{self.top.parent / 'bin'}:{os.environ['PATH']}"}
        pipe = subprocess.PIPE
        line = [str(self.top / "checks" / "nightly"), *words]
        return subprocess.Popen(line, env=surroundings, text=True, stdin=subprocess.DEVNULL, stdout=pipe, stderr=pipe, preexec_fn=hear_signals)

    def run_it(self, *words: str) -> "tuple[int, list[str]]":
        """The status of the script, and its output lines."""
        with self.start(*words) as started:
            output, errors = started.communicate(timeout=MOST_SECONDS)
        self.assertEqual(errors, "")
        return started.returncode, output.splitlines()

    def rows(self) -> "dict[str, list[str]]":
        """The cells of each row of the record, by part."""
        lines = self.run_it("--record")[1][4:-3]
        cells = [[cell.strip() for cell in line.replace("\\|", "!").strip("|").split("|")] for line in lines]
        return {row[0]: row[1:] for row in cells}

    def older(self) -> "list[str]":
        """The parts that are older than their sources."""
        return [name for name, cells in self.rows().items() if "older than its sources" in cells[3]]

    def test_the_record(self) -> None:
        status, lines = self.run_it()
        self.assertEqual((status, lines[-1]), (0, "11 of 11 parts ran, 11 ended with status 0"))
        status, lines = self.run_it("--record")
        commit = self.git("rev-parse", "--short=12", "HEAD")
        self.assertEqual((status, lines[0]), (1, f"Commit {commit}, kit-1:"))
        rows = self.rows()
        self.assertEqual(list(rows), [*PARTS, "fuzz"])
        self.assertEqual(rows["fuzz"], ["", "", "", "not run", ""])
        command, at, took, *ended = rows["stacks"]
        self.assertEqual((command, at, ended), ("`checks/stacks`", commit, ["status 0", "`checks/stacks ! right`"]))
        self.assertRegex(took, r"0:\d\d:\d\d\Z")
        self.assertEqual({rows[name][3] for name in PARTS}, {"status 0"})
        self.assertEqual(self.run_it("--only", "fuzz")[0], 0)
        self.assertEqual(self.run_it("--record")[0], 0)
        self.assertEqual(self.git("status", "--porcelain"), "")

    def test_what_is_older(self) -> None:
        self.run_it()
        self.write("out/mutants/other.tsv", "recorded")
        self.assertEqual(self.older(), [])
        self.write("crates/other/src/lib.rt", "changed")
        self.assertEqual(self.older(), ["mutants-read", "mutants"])
        self.write("models/new.py", "")
        self.assertEqual(self.older(), ["races", *COMPARED, "growths", "stacks", "mutants-read", "mutants"])
        self.write("crates/low/src/lib.rt", "changed")
        self.assertEqual(self.older(), list(PARTS))
        self.assertEqual(self.run_it("--only", "stacks")[0], 0)
        self.assertEqual(self.older(), [name for name in PARTS if name != "stacks"])
        self.assertTrue(self.rows()["stacks"][1].endswith(" with changes"))
        self.git("checkout", "-q", ".")
        (self.top / "models" / "new.py").unlink()
        self.assertEqual(self.older(), ["stacks"])

    def test_a_program_that_is_compiled_first(self) -> None:
        for state in ("none", "stale: somewhere"):
            self.script("distac", LAUNCHER.replace("echo none", f"echo {state}"))
            self.run_it("--only", "compare")
            rows = self.rows()
            self.assertEqual({name for name in rows if rows[name][3] == "status 0"}, {*COMPARED}, state)
            self.assertIn("`python3 models/compare.py out/program --seed", rows["compare-live"][0], state)
            (self.top / "out" / "program").unlink()

    def test_a_folder_that_cant_be_written(self) -> None:
        out = self.write("out", "")
        with self.start("--only", "stacks") as started:
            output, errors = started.communicate(timeout=MOST_SECONDS)
        self.assertEqual((started.returncode, output), (1, ""))
        self.assertEqual(errors, f"nightly: {out}/nightly can't be written (Not a directory): clone into a folder that can be written\n")

    def test_another_toolchain_and_a_failure(self) -> None:
        self.script("checks/stacks", "echo wrong; exit 3")
        self.assertEqual(self.run_it("--only", "stacks", "examples")[0], 1)
        self.toolchain("kit-2")
        rows = self.rows()
        self.assertEqual([rows[name][3] for name in ("examples", "stacks")], ["status 0, by kit-1", "status 3, by kit-1"])
        self.assertEqual(self.run_it("--record")[0], 1)

    def test_a_change_while_a_part_runs(self) -> None:
        self.script("checks/stacks", f"echo changed >{self.top}/crates/low/src/lib.rt")
        self.run_it("--only", "stacks")
        self.assertEqual(self.older(), ["stacks"])

    def test_minutes(self) -> None:
        chosen = ("--only", "growths", "stacks", "mutants")
        begun = self.top / "out" / "steps"
        self.script("checks/growths", "exec sleep 60")
        self.script("checks/mutants", f'[ "$1" = --record ] && {{ [ -e {begun} ] || {{ touch {begun}; exec sleep 60; }}; }}; echo said')
        self.git("-c", "user.name=a", "-c", "user.email=a", "commit", "-qam", "slow")
        status, lines = self.run_it(*chosen, "--minutes", "0.15")
        self.assertEqual((status, lines[:2]), (0, ["growths begins", "growths: the time is over"]))
        self.assertEqual(lines[2], "0 of 3 parts ran, 0 ended with status 0")
        self.assertEqual(lines[3:], [f"current: 0 of 12 parts; not {', '.join((*PARTS, 'fuzz'))}", "current: said"])
        lines = self.run_it(*chosen, "--minutes", "0.15")[1]
        said = [line for line in lines if not line.startswith(("|", "current"))]
        of_mutants = ["mutants begins", "mutants: the time is over; the next run goes on"]
        self.assertEqual(said, ["stacks begins", *of_mutants, "1 of 3 parts ran, 1 ended with status 0"])
        lines = self.run_it(*chosen, "--minutes", "0.12")[1]
        self.assertRegex(lines[0], r"\Agrowths is put off: it took 0:00:0\d or more, and 0:00:0\d is left\Z")
        self.assertEqual((lines[1], lines[3]), ("mutants begins", "1 of 2 parts ran, 1 ended with status 0"))
        self.script("checks/growths", "echo quick")
        lines = self.run_it(*chosen, "--minutes", "1")[1]
        self.assertEqual((lines[0], lines[2]), ("growths begins", "1 of 1 parts ran, 1 ended with status 0"))
        self.assertEqual(self.run_it(*chosen, "--minutes", "1")[1][0], "0 of 0 parts ran, 0 ended with status 0")

    def test_no_git(self) -> None:
        self.run_it("--only", "stacks")
        shutil.rmtree(self.top / ".git")
        self.assertEqual(self.older(), [])
        self.write("crates/low/src/lib.rt", "changed")
        self.assertEqual(self.older(), ["stacks"])

    def test_output_that_cant_be_written(self) -> None:
        script = self.top / "checks" / "nightly"
        for redirection in (">&-", ">/dev/full"):
            done = subprocess.run(f"{script} --record {redirection}", shell=True, stderr=subprocess.PIPE, text=True, check=False)
            self.assertEqual((done.returncode, done.stderr.count("\n")), (1, 1), redirection)
            self.assertTrue(done.stderr.startswith("nightly: standard output can't be written: "), done.stderr)

    def ended_by(self, number: int, begun: Path) -> int:
        """The status of a run that a signal ends after its part has begun."""
        with self.start("--only", "stacks", "examples") as started:
            self.until(lambda: begun.exists() and begun.read_text().endswith("\n"))
            started.send_signal(number)
            started.communicate(timeout=MOST_SECONDS)
        return started.returncode

    def test_a_signal_keeps_what_was_kept(self) -> None:
        self.run_it("--only", "stacks", "examples")
        before = self.rows()
        begun = self.top / "out" / "begun"
        self.script("checks/stacks", f"echo $$ >{begun}; exec sleep 60")
        for number in (signal.SIGTERM, signal.SIGINT, signal.SIGHUP):
            self.assertEqual(self.ended_by(number, begun), 128 + number)
            self.assertFalse(Path("/proc", begun.read_text().strip()).exists(), number)
            begun.unlink()
        self.git("checkout", "-q", ".")
        after = self.rows()
        self.assertEqual([after[name][3:] for name in ("stacks", "fuzz")], [before[name][3:] for name in ("stacks", "fuzz")])
