"""The parser of command lines, with its help and its version."""

from __future__ import annotations

import argparse
import sys
from typing import TYPE_CHECKING, Any

from distac_view.common.output import say
from distac_view.common.texts import shown
from distac_view.common.version import version_line
from distac_view.reading.verbs import Role, fits

if TYPE_CHECKING:
    from _typeshed import SupportsWrite


class Parser(argparse.ArgumentParser):
    """A parser that records its words for completion, and reports if its help can't be written."""

    def __init__(self, *words: Any, **settings: Any) -> None:
        self.actions: list[argparse.Action] = []
        self.subcommands: dict[str, Parser] = {}
        super().__init__(*words, **settings)

    def add_argument(self, *names: Any, **settings: Any) -> argparse.Action:
        self.actions.append(super().add_argument(*names, **settings))
        return self.actions[-1]

    def add_one_of(self, *options: "tuple[str, dict[str, Any]]") -> None:
        group = self.add_mutually_exclusive_group()
        self.actions += [group.add_argument(name, **settings) for name, settings in options]

    def _print_message(self, message: str, file: SupportsWrite[str] | None = None) -> None:
        """Prints help, a version or a usage, which must reach standard output."""
        if file is sys.stdout:
            file.write(message)
        else:
            say(message.rstrip("\n"))


class Version(argparse.Action):
    """Prints the version. The commit is looked up only then."""

    def __call__(self, parser: argparse.ArgumentParser, *_: object) -> None:
        sys.stdout.write(version_line() + "\n")
        parser.exit()


class Formatter(argparse.RawDescriptionHelpFormatter):
    """Help texts whose lines stay as they are, in a hundred columns."""

    def __init__(self, prog: str) -> None:
        super().__init__(prog, max_help_position=30, width=100)


def count_from_one(word: str) -> int:
    if not fits(Role.NUMBER, word) or word == "0":
        raise argparse.ArgumentTypeError(f"a count from 1 on is wanted, in decimal digits, and not {shown(word)}")
    return int(word)
