"""`ends`: the final pages that a live script can have, with a script that leads to each."""

import argparse
import os

from distac_view.answering.race_ends import Reply, Search, expected_by, reply_of
from distac_view.asking.program import Distac
from distac_view.asking.races import load_race
from distac_view.cli.parser import count_from_one
from distac_view.cli.questions import add_json, add_page, answer
from distac_view.common.output import Output, say
from distac_view.common.problems import Problem, Status
from distac_view.common.texts import shown
from distac_view.common.writing import PIPE, write_whole
from distac_view.reading.verbs import Role, fits
from distac_view.showing.html_ends import ends_page
from distac_view.showing.html_frame import write_page
from distac_view.showing.json_ends import ends_answer
from distac_view.showing.print_ends import lines_of
from distac_view.showing.provenance import asked_by

SCHEDULES = 1_000


def ends(distac: Distac, words: argparse.Namespace, output: Output) -> Status:
    """Prints each end found. The status is 1 if one isn't as expected, and 2 if the program differs from the models."""
    if words.output == PIPE and words.json:
        raise Problem("--json and -o - can't stand together: one of them has standard output")
    expected = [expected_by(text) for text in words.expect]
    race = load_race(distac, words.file)
    if words.keep is not None:
        make(words.keep)
    reply = reply_of(distac, Search(race, words.schedules, words.seed, expected))
    if words.keep is not None:
        keep(reply, words.keep)
    if words.output is not None:
        write_page(words.output, ends_page(reply, asked_by(words, [words.file], distac.about)), output, [words.file])
    answer(words, output, lambda: ends_answer(reply), lambda: lines_of(reply))
    return judged(reply)


def judged(reply: Reply) -> Status:
    """Prints why the status isn't 0. A search that Ctrl-C ended without a no ends the program as Ctrl-C does."""
    for number, end in enumerate(reply.ends, 1):
        if not end.is_played and not reply.is_stopped:
            say(f"distac-view: end {number}: {reply.player} didn't play its script as the models did, or it is too long for that")
        for text in end.unmet:
            say(f"distac-view: end {number} isn't as expected: {shown(text)}")
    if reply.is_stopped and reply.status != Status.NO:
        raise KeyboardInterrupt
    return reply.status


def make(folder: str) -> None:
    """Makes a folder, before a search whose scripts it gets."""
    try:
        os.makedirs(folder, exist_ok=True)
    except (OSError, ValueError) as error:
        raise Problem(f"{folder} can't be written: {getattr(error, 'strerror', None) or error}") from error


def keep(reply: Reply, folder: str) -> None:
    """Writes the scripts of each end into a folder: the small one, and the whole schedule if a script may be so long."""
    for number, end in enumerate(reply.ends, 1):
        for suffix, script in end.scripts.items():
            write_whole(os.path.join(folder, f"end-{number}{suffix}.distac"), script.source, [reply.search.race.path])


def seed(word: str) -> int:
    if not fits(Role.NUMBER, word):
        raise argparse.ArgumentTypeError(f"a seed is a number in decimal digits, and not {shown(word)}")
    return int(word)


def add_ends(parser: argparse.ArgumentParser) -> None:
    parser.add_argument("file", metavar="FILE.live", help="a configuration, a line --, and the lines of a live script")
    about = f"how many schedules are played, {SCHEDULES} if absent"
    parser.add_argument("--schedules", metavar="N", type=count_from_one, default=SCHEDULES, help=about)
    about = "the seed of the schedules, 1 if absent: the same one gives the same answer"
    parser.add_argument("--seed", metavar="S", type=seed, default=1, help=about)
    about = "a folder for the scripts of each end: end-N.distac, and end-N-whole.distac with its whole schedule, if a script may be so long"
    parser.add_argument("--keep", metavar="FOLDER", help=about)
    about = "a line that the final page of each running node must have, its first words, or a regular expression for either"
    parser.add_argument("--expect", metavar="PATTERN", nargs="+", action="extend", default=[], help=about)
    add_json(parser)
    add_page(parser)
