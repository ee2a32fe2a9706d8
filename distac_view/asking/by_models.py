"""The models instead of the program `distac`: Python, and no proof."""

from __future__ import annotations

import sys
from importlib import import_module
from pathlib import Path
from typing import Callable

from distac_view.common.problems import Problem

PACKAGE = Path(__file__).resolve().parents[1]
# An installed package contains the models; otherwise they are next to it.
INSTALLED = PACKAGE / "models"
FOLDER = INSTALLED if INSTALLED.is_dir() else PACKAGE.parent / "models"


def add_models() -> None:
    """Makes the modules of the models importable."""
    if str(FOLDER) not in sys.path:
        sys.path.insert(0, str(FOLDER))


def asked_of_models() -> Callable[[str, bytes], "tuple[bytes, int]"]:
    """A replacement for the program: a function from a subcommand and its input to the output and the exit status."""
    add_models()
    models = {"check": import_module("check").check, "sim": import_module("simulator").simulate}

    def asked(word: str, source: bytes) -> tuple[bytes, int]:
        """The answer of a model."""
        try:
            printed, status = models[word](source)
        except Exception as error:
            raise Problem(f"the model of distac {word} gave no answer: {error or type(error).__name__}") from error
        return printed, status

    return asked
