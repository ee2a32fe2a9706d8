"""A single file to copy, the message of an older Python, and completion by bash."""

from __future__ import annotations

import ast
import os
import shlex
import shutil
import subprocess
import sys
import unittest
from typing import Iterator

from support import EXAMPLES, PROGRAM, TOP, InRoom, view
from distac_view.cli.command_line import SUBCOMMANDS, parser_of_words
from distac_view.cli.help_texts import EXAMPLES as HELP_EXAMPLES

MANUAL = str(EXAMPLES / "manual.config")
PACKAGE = TOP / "distac_view"
PACK = str(PACKAGE / "pack.py")
PYTHON_FILES = sorted([*(TOP / "models").glob("*.py"), *PACKAGE.glob("*.py"), *PACKAGE.glob("[!t]*/*.py")])
COMMANDS = sorted(path for path in (TOP / "believe", *(TOP / "checks").glob("*"), *(TOP / "checks").glob("library/*.py")) if path.is_file())
NEWER = (".removeprefix(", ".removesuffix(", "import pairwise", "import cache\n", ".with_stem(", "strict=True)", ".bit_count(", ".is_relative_to(")
BUILT_IN = ("list", "dict", "tuple", "set", "frozenset", "type", "int", "bool", "bytes", "str")
OLDER = "import sys\nsys.version_info = (3, 7, 16, 'final', 0)\nexec(compile(open(sys.argv[1]).read(), 'distac-view', 'exec'))\n"


def ran(*words: str, **more: object) -> "subprocess.CompletedProcess[bytes]":
    """Runs a Python program with `distac` in its environment."""
    surroundings = {**os.environ, "DISTAC": PROGRAM}
    return subprocess.run([sys.executable, *words], capture_output=True, env=surroundings, **more)  # type: ignore[call-overload,no-any-return]


class Packed(InRoom):
    """`distac_view` in one file."""

    def setUp(self) -> None:
        super().setUp()
        self.file = self.room / "distac-view.pyz"

    def pack(self, *words: str) -> None:
        done = ran(PACK, *words)
        self.assertEqual((done.returncode, done.stdout, done.stderr), (0, b"", b""))

    def test_the_same_bytes_each_time(self) -> None:
        self.pack("-o", str(self.file))
        copy = self.room / "copy"
        shutil.copytree(PACKAGE, copy / PACKAGE.name)
        shutil.copytree(TOP / "models", copy / "models")
        shutil.copy(TOP / "distac-view", copy)
        for path in copy.rglob("*.py"):
            os.utime(path, (10**9, 10**9))
            path.chmod(0o600)
        done = ran(str(copy / PACKAGE.name / "pack.py"), cwd=str(copy))
        self.assertEqual((done.returncode, done.stderr), (0, b""))
        self.assertEqual((copy / "distac-view.pyz").read_bytes(), self.file.read_bytes())

    def test_it_runs_alone(self) -> None:
        self.pack("-o", str(self.file))
        self.assertTrue(os.access(self.file, os.X_OK))
        done = ran("-I", str(self.file), "check", MANUAL, "--print", cwd=str(self.room))
        self.assertEqual((done.returncode, done.stdout.decode()), (0, (EXAMPLES / "manual.out").read_text()), done.stderr)
        self.assertEqual(self.names(), ["distac-view.pyz"])
        self.assertNotIn(b"compiled", ran("-I", str(self.file), "check", "--help", cwd=str(self.room)).stdout)
        self.assertIn(b"compiled", ran(str(TOP / "distac-view"), "check", "--help").stdout)

    def test_it_finds_the_program_beside_it(self) -> None:
        self.pack("-o", str(self.file))
        self.script("distac", f'exec {shlex.quote(PROGRAM)} "$@"')
        done = subprocess.run([sys.executable, str(self.file), "check", MANUAL, "--print"], capture_output=True, env={"PATH": os.environ["PATH"]})
        self.assertEqual((done.returncode, done.stdout.decode()), (0, (EXAMPLES / "manual.out").read_text()), done.stderr)

    def test_a_page_that_cannot_be_written(self) -> None:
        done = ran(PACK, "-o", "/no/such/folder/file")
        self.assertEqual(done.returncode, 2)
        self.assertIn(b"can't be written", done.stderr)
        self.assertNotIn(b"Traceback", done.stderr)


class Pythons(unittest.TestCase):
    """Python 3.8 or later runs it, and an older one prints a sentence."""

    def test_an_older_python(self) -> None:
        done = ran("-c", OLDER, str(TOP / "distac-view"))
        self.assertEqual((done.returncode, done.stdout), (2, b""))
        self.assertEqual(done.stderr, b"distac-view: this is Python 3.7, and 3.8 or later is needed\n")

    def test_the_grammar_of_each_module(self) -> None:
        for path in PYTHON_FILES:
            tree = ast.parse(path.read_text(encoding="utf-8"), str(path), feature_version=(3, 8))
            self.assertEqual([ast.dump(node) for node in newer_types(tree)], [], path)

    def test_nothing_newer_is_used(self) -> None:
        for path in (*PYTHON_FILES, *COMMANDS):
            for word in NEWER:
                self.assertFalse(word in path.read_text(encoding="utf-8"), (path.name, word))


def newer_types(tree: ast.Module) -> Iterator[ast.AST]:
    """Types that Python 3.8 can't evaluate, outside annotations and strings."""
    for statement in tree.body:
        for node in ast.walk(statement) if isinstance(statement, ast.Assign) else ():
            if isinstance(node, ast.Subscript) and isinstance(node.value, ast.Name) and node.value.id in BUILT_IN:
                yield node
            if isinstance(node, ast.BinOp) and isinstance(node.op, ast.BitOr) and isinstance(node.right, ast.Name):
                if node.right.id in BUILT_IN or node.right.id.istitle():
                    yield node


class Helps(unittest.TestCase):
    """Each subcommand has an example, and each example is valid."""

    def test_each_subcommand_has_examples(self) -> None:
        for name, _, _, _ in SUBCOMMANDS:
            self.assertIn(f"  distac-view {name} ", HELP_EXAMPLES.get(name, ""), name)
            self.assertIn(f"  distac-view {name} ", view(name, "--help").output)

    def test_each_example_is_right(self) -> None:
        for text in HELP_EXAMPLES.values():
            for line in text.splitlines():
                if line.startswith("  distac-view "):
                    command = line.strip().split("   ")[0].split(" | ")[0]
                    parser_of_words().parse_args(shlex.split(command)[1:])


@unittest.skipUnless(shutil.which("bash"), "bash isn't here")
class Completion(unittest.TestCase):
    """Bash completes the words of the parser."""

    def offered(self, *words: str) -> list[str]:
        """The completions of the last of some words."""
        script = view("--print-completion", "bash").output
        line = " ".join(shlex.quote(word) for word in ("distac-view", *words))
        ask = f'COMP_WORDS=({line})\nCOMP_CWORD={len(words)}\n_distac_view\nprintf "%s\\n" "${{COMPREPLY[@]}}"\n'
        done = subprocess.run(["bash", "--norc", "-c", script + ask], capture_output=True, check=True)
        self.assertEqual(done.stderr, b"")
        return [word for word in done.stdout.decode().split("\n") if word]

    def test_subcommands(self) -> None:
        self.assertEqual(self.offered(""), [name for name, _, _, _ in SUBCOMMANDS])
        self.assertEqual(self.offered("pl"), ["play"])
        self.assertEqual(self.offered("--distac", "program", "pl"), ["play"])
        self.assertIn("--version", self.offered("--"))

    def test_options(self) -> None:
        for name, _, _, _ in SUBCOMMANDS:
            usage = view(name, "--help").output
            options = self.offered(name, "--")
            self.assertIn("--help", options)
            self.assertTrue(all(option in usage for option in options), (name, options))
        self.assertEqual(self.offered("play", "--pl"), ["--plain"])
        self.assertEqual(self.offered("play", "file", "--pl"), ["--plain"])

    def test_values(self) -> None:
        self.assertEqual(self.offered("--print-completion", ""), ["bash"])
        for words in (("--distac", ""), ("what-if", "--after", ""), ("timeline", "-o", "--"), ("check", ""), ("check", "examples/")):
            self.assertEqual(self.offered(*words), [], words)
