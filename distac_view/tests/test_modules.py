"""The parts of `distac_view`: their imports from each other, and the names of modules."""

import ast
import re
import unittest
from collections import Counter
from itertools import permutations
from pathlib import Path
from typing import Iterator

from support import TOP

PACKAGE = TOP / "distac_view"
# A part imports from itself and from earlier ones. Modules outside the folders can import all.
PARTS = ("common", "reading", "asking", "answering", "showing", "cli")
MODULES = {path.stem: path for part in ("", *PARTS) for path in sorted((PACKAGE / part).glob("*.py")) if path.stem != "__init__"}


def imported(path: Path) -> "Iterator[tuple[str, str]]":
    """The part and the module of each import within the package."""
    for node in ast.walk(ast.parse(path.read_text("utf-8"))):
        if isinstance(node, ast.ImportFrom) and (node.module or "").startswith("distac_view"):
            _, part, module, *_ = (*str(node.module).split("."), "", "")
            yield from [(part, module)] if module else [(part, name.name) for name in node.names]


def names_bound(tree: ast.Module) -> "Iterator[str]":
    """The names that imports bind."""
    for node in ast.walk(tree):
        if isinstance(node, (ast.Import, ast.ImportFrom)) and getattr(node, "module", "") != "__future__":
            yield from ((name.asname or name.name).split(".")[0] for name in node.names)


class Modules(unittest.TestCase):
    def test_each_part_is_there(self) -> None:
        self.assertEqual({path.parent.name for path in PACKAGE.glob("*/__init__.py")}, set(PARTS))
        self.assertEqual(len(MODULES), sum(len(list((PACKAGE / part).glob("*.py"))) for part in ("", *PARTS)) - len(PARTS) - 1)

    def test_no_part_imports_from_one_above_it(self) -> None:
        for path in MODULES.values():
            own = path.parent.name
            below = PARTS[: PARTS.index(own) + 1] if own in PARTS else PARTS
            for part, module in imported(path):
                self.assertTrue(part in below or own not in PARTS, f"{own}/{path.name} imports {part}.{module}")

    def test_no_module_imports_itself_by_others(self) -> None:
        edges = {name: {module for _, module in imported(path) if module in MODULES} for name, path in MODULES.items()}
        while edges:
            free = {name for name, used in edges.items() if not used & set(edges)}
            self.assertTrue(free, f"these import each other: {sorted(edges)}")
            edges = {name: used for name, used in edges.items() if name not in free}

    def test_no_name_is_another_one_with_an_ending(self) -> None:
        for one, other in permutations(MODULES, 2):
            self.assertFalse(other.startswith(one), (one, other))

    def test_each_test_runs_alone(self) -> None:
        """A test file finds the package by the module support, so it imports that before anything of the package."""
        for path in sorted((PACKAGE / "tests").glob("test_*.py")):
            modules = [str(node.module) for node in ast.parse(path.read_text("utf-8")).body if isinstance(node, ast.ImportFrom)]
            is_ours = [module.startswith("distac_view") for module in modules]
            self.assertEqual(is_ours, sorted(is_ours), path.name)

    def test_each_import_is_used(self) -> None:
        others = [path for folder in ("models", "checks/library", "distac_view/tests") for path in (TOP / folder).glob("*.py")]
        scripts = [path for path in (TOP / "checks").iterdir() if path.is_file() and path.suffix != ".py"]
        for path in (*MODULES.values(), *sorted(others), *sorted(scripts)):
            text = path.read_text("utf-8")
            words = Counter(re.findall(r"\w+", text))
            for name in names_bound(ast.parse(text)):
                self.assertGreater(words[name], 1, f"{path.name} imports {name}")
