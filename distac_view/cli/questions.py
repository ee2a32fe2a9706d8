"""The subcommands for predictions, `what-if`, `rolling` and `load`, with their words."""

from __future__ import annotations

import argparse
from typing import Callable, Iterable

from distac_view.answering.caveats import below, notes_on, start_notes
from distac_view.answering.changes import changes_by
from distac_view.answering.hangs import hang_notes
from distac_view.answering.load import load_of
from distac_view.answering.notes import Failure
from distac_view.answering.rolling import rolling_of
from distac_view.answering.split import split_reply
from distac_view.answering.what_if import Question, reply_to
from distac_view.asking.program import Distac
from distac_view.asking.running_now import names_a_file
from distac_view.common.output import Output, say
from distac_view.common.problems import Problem, Status
from distac_view.common.texts import listed, shown
from distac_view.common.writing import PIPE
from distac_view.reading.equal_times import FOREVER
from distac_view.reading.verbs import Role, fits
from distac_view.showing.html_frame import write_page
from distac_view.showing.html_plans import Verdict, changes_page, load_page, rolling_page, split_page, what_if_page
from distac_view.showing.json_answers import what_if_answer
from distac_view.showing.json_plans import changes_answer, load_answer, rolling_answer
from distac_view.showing.print_changes import change_faults
from distac_view.showing.print_changes import lines_of as changes_lines
from distac_view.showing.print_changes import notes_on as change_notes
from distac_view.showing.print_load import budget_faults
from distac_view.showing.print_load import table_of as load_table
from distac_view.showing.print_rolling import drain_notes, hang_faults
from distac_view.showing.print_rolling import lines_of as rolling_lines
from distac_view.showing.print_split import lines_of as split_lines
from distac_view.showing.print_split import notes_on as split_notes
from distac_view.showing.print_split import split_answer
from distac_view.showing.print_what_if import table_of
from distac_view.showing.provenance import Asked, asked_by


def answer(words: argparse.Namespace, output: Output, json: Callable[[], str], lines: Callable[[], Iterable[str]]) -> None:
    """Writes an answer as JSON or line by line, unless its page is on standard output."""
    if words.output != PIPE:
        for line in [json()] if words.json else lines():
            output.line(line)
    output.flush()


def put_page(distac: Distac, words: argparse.Namespace, output: Output, page: Callable[[Asked], str]) -> None:
    """Writes the page of an answer, if requested."""
    if words.output is None:
        return
    if words.output == PIPE and words.json:
        raise Problem("--json and -o - can't stand together: one of them has standard output")
    now = words.now if names_a_file(words.now) else []
    read = [path for path in (words.config, getattr(words, "then", None), getattr(words, "after", None), *now) if path]
    write_page(words.output, page(asked_by(words, read, distac.about)), output, read)


def what_if(distac: Distac, words: argparse.Namespace, output: Output) -> Status:
    """Prints the effect of lost nodes on each application, or the changes by a new configuration."""
    places = (words.config, words.down, words.not_started, words.after, words.back, words.now)
    question = Question(*places, takes=words.takes, split=words.split, fails=words.fails, temporary=words.temporary)
    if words.split:
        return in_split(distac, question, words, output)
    if words.then:
        return what_changes(distac, question, words, output)
    if words.fail_on:
        raise Problem("--fail-on of what-if wants --then NEW.config: it judges a change")
    reply = reply_to(distac, question)
    put_page(distac, words, output, lambda asked: what_if_page(reply, notes_on(reply), words.all, asked))
    answer(words, output, lambda: what_if_answer(reply, notes_on(reply)), lambda: table_of(reply, words.all))
    return Status.FINE


def in_split(distac: Distac, question: Question, words: argparse.Namespace, output: Output) -> Status:
    """Prints the effect of a split on each application, and its place once healed."""
    for name in ("down", "back", "after", "takes", "then", "fails", "temporary"):
        if getattr(words, name):
            raise Problem(f"--split can't stand beside --{name}: it says itself who hears whom, and lasts longer than all waits")
    reply = split_reply(distac, question)
    notes = split_notes(reply)
    put_page(distac, words, output, lambda asked: split_page(reply, notes, words.all, asked))
    answer(words, output, lambda: split_answer(reply, notes), lambda: split_lines(reply, notes, words.all))
    return Status.FINE


def what_changes(distac: Distac, question: Question, words: argparse.Namespace, output: Output) -> Status:
    """Prints the changes by a new configuration. The status is 1 if there are any."""
    fail_on = failing(words.fail_on, ("rollout", "lost", "stale"))
    changes = changes_by(distac, question, words.then)
    failures = list(change_faults(changes, fail_on))
    put_page(distac, words, output, lambda asked: changes_page(changes, Verdict(fail_on, failures), change_notes(changes), asked))
    answer(words, output, lambda: changes_answer(changes, failures, change_notes(changes)), lambda: changes_lines(changes))
    if fail_on:
        return judged(failures)
    return Status.NO if changes.are_any else Status.FINE


def load(distac: Distac, words: argparse.Namespace, output: Output) -> Status:
    """Prints the load of each node under each loss, and checks a budget."""
    fail_on = failing(words.fail_on, ("lost", "load", "hang"))
    if "load" in fail_on and words.most is None:
        raise Problem("--fail-on load wants --most N: how many applications a node may have")
    found = load_of(distac, Question(words.config, now=words.now), words.pairs)
    notes = [*start_notes(found.side, bool(words.now)), *hang_notes((row.down, row.may_hang) for row in found.rows)]
    failures = list(budget_faults(found, fail_on, words.most))
    put_page(distac, words, output, lambda asked: load_page(found, words.most, Verdict(fail_on, failures), notes, asked))
    answer(words, output, lambda: load_answer(found, failures, notes), lambda: [*load_table(found, words.most), *below(notes)])
    return judged(failures)


def failing(words: list[str], known: tuple[str, ...]) -> list[str]:
    """The failures named by `--fail-on`, in several words or separated by commas."""
    found = [part for word in words for part in word.split(",") if part]
    if not set(found) <= set(known):
        raise Problem(f"--fail-on takes {listed(list(known))}, parted by commas")
    return found


def judged(failures: list[Failure]) -> Status:
    """Prints the failures that aren't allowed, and returns the resulting status."""
    for failure in failures:
        say(f"distac-view: {failure.what}: {failure.text}")
    return Status.NO if failures else Status.FINE


def rolling(distac: Distac, words: argparse.Namespace, output: Output) -> Status:
    """Prints the steps of a rolling restart, in a given order or in the best one."""
    fail_on = failing(words.fail_on, ("hang",))
    found = rolling_of(distac, Question(words.config, now=words.now, takes=words.takes), words.order, words.drain)
    hangs = hang_notes(([step.node], step.may_hang) for step in found.steps)
    notes = [*start_notes(found.side, bool(words.now)), *drain_notes(words.drain), *hangs]
    failures = list(hang_faults(found, fail_on))
    put_page(distac, words, output, lambda asked: rolling_page(found, Verdict(fail_on, failures), notes, asked))
    answer(words, output, lambda: rolling_answer(found, failures, notes), lambda: [*rolling_lines(found), *below(notes)])
    return max(Status.NO if found.is_barred else Status.FINE, judged(failures))


def add_what_if(parser: argparse.ArgumentParser) -> None:
    """The words of `what-if`."""
    parser.add_argument("config", metavar="CONFIG", help="a configuration, as erl -config takes it")
    parser.add_argument("--down", metavar="NODE", nargs="+", action="extend", default=[], help="nodes that go down together")
    more = "nodes that come up without any application being started there"
    parser.add_argument("--not-started", metavar="NODE", nargs="+", action="extend", default=[], help=more)
    parser.add_argument("--after", metavar="SCRIPT", help="begin where this script ends, not with a cluster that just came up")
    add_now(parser)
    back = "those of --down that come back: all, if this is absent; by --now also nodes that are off"
    parser.add_argument("--back", metavar="NODE", nargs="+", action="extend", default=[], help=back)
    add_takes(parser)
    fails = "starts that fail after a loss or a return: OTP tries no other node, and the node ends unless --temporary names the application"
    parser.add_argument("--fails", metavar="APP=NODE", nargs="+", action="extend", default=[], help=fails)
    temporary = "with --fails: applications started as temporary, as application:start/1 does; a release starts them as permanent"
    parser.add_argument("--temporary", metavar="APP", nargs="+", action="extend", default=[], help=temporary)
    split = "nodes that are cut off from each other, a slash between the sides: what each side runs, and once it is healed"
    parser.add_argument("--split", metavar="NODE", nargs="+", action="extend", default=[], help=split)
    then = "say what this configuration changes in place of CONFIG: the exit status is 1 if it changes anything"
    parser.add_argument("--then", metavar="NEW.config", help=then)
    add_fail_on(parser, "with --then: rollout (the file can't be rolled out node by node without harm), lost (an application runs nowhere by it), stale (the files that it was gathered from changed)")
    parser.add_argument("--all", action="store_true", help="show the rows of applications that stay too")
    add_json(parser)
    add_page(parser)


def add_load(parser: argparse.ArgumentParser) -> None:
    parser.add_argument("config", metavar="CONFIG", help="a configuration, as erl -config takes it")
    add_now(parser)
    parser.add_argument("--pairs", action="store_true", help="ask about each two nodes that go down together too")
    parser.add_argument("--most", metavar="N", type=int, help="how many applications a node may have")
    add_fail_on(parser, "lost (an application is lost, or runs nowhere), load (a node has more than --most), hang (OTP may hang)")
    add_json(parser)
    add_page(parser)


def add_rolling(parser: argparse.ArgumentParser) -> None:
    parser.add_argument("config", metavar="CONFIG", help="a configuration, as erl -config takes it")
    add_now(parser)
    order = "restart these nodes in this order; if absent, the best order of all nodes is looked for"
    parser.add_argument("--order", metavar="NODE", nargs="+", action="extend", default=[], help=order)
    parser.add_argument("--drain", action="store_true", help="drain each node before it goes down, so that nothing waits")
    add_takes(parser)
    add_fail_on(parser, "hang (OTP may hang in a step)")
    add_json(parser)
    add_page(parser)


def add_fail_on(parser: argparse.ArgumentParser, what: str) -> None:
    """The words of a budget."""
    more = f"make the exit status 1 by what is named, parted by commas: {what}"
    parser.add_argument("--fail-on", metavar="WHAT", nargs="+", action="extend", default=[], help=more)


def add_takes(parser: argparse.ArgumentParser) -> None:
    """The word for the duration of a restart."""
    more = "after how many milliseconds a node is back with all started: what waits longer doesn't move; longer than all waits if absent"
    parser.add_argument("--takes", metavar="MS", type=milliseconds, help=more)


def milliseconds(word: str) -> int:
    """A time from the command line."""
    if not fits(Role.NUMBER, word) or not 0 < int(word) <= FOREVER:
        raise argparse.ArgumentTypeError(f"milliseconds from 1 to {FOREVER} are wanted, and not {shown(word)}")
    return int(word)


def add_page(parser: argparse.ArgumentParser) -> None:
    more = "write the answer as a page too, to be printed or kept with a change; a dash is standard output, with the page alone"
    parser.add_argument("-o", "--output", metavar="FILE.html", help=more)


def add_json(parser: argparse.ArgumentParser) -> None:
    parser.add_argument("--json", action="store_true", help="print the answer as JSON")


def add_now(parser: argparse.ArgumentParser) -> None:
    """The words for the present places of applications."""
    where = "where applications run now: a file with a line NODE APP APP .. for each node that is up, or APP=NODE .."
    parser.add_argument("--now", metavar="FILE", nargs="+", action="extend", default=[], help=where)
