"""What ends the program early, and its exit statuses."""

from enum import IntEnum


class Status(IntEnum):
    """The exit statuses of all subcommands: success, the answer "no", and no answer at all."""

    FINE = 0
    NO = 1
    TROUBLE = 2


class Problem(Exception):
    """A sentence on why the program can't go on, and the fault's name if it has one."""

    def __init__(self, sentence: str, name: str = "") -> None:
        super().__init__(sentence)
        self.sentence = sentence
        self.name = name
