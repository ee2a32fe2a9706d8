"""The output of `./believe`."""

import argparse
import difflib
import sys
from typing import List, Sequence

from checks.library.believed import Asked, BelievedPage, wrapped
from checks.library.contracts import Function, Sources, is_within
from checks.library.definition_page import Page
from checks.library.definition_sources import DefinitionSources
from checks.library.modules import Definition, Modules
from checks.library.printed import printed
from checks.library.promise_page import PromisePage
from checks.library.promises import Promises
from checks.library.resting import Resting
from checks.library.views import Views

WHAT = """Prints all definitions that a contract or another definition rests on, each with its comment and its source. Without a NAME it
prints those of EachIsMeaning, the headline of convergence.

A definition is a word of a crate's specs/ outside of specs/laws/. Crates come lowest first, and definitions so that each word is
defined before it is used. Each crate begins with the types and constants of its code that its definitions mention. For a function
the contract follows, with the views: a contract refers to a value of the code as its type's view defines. At the end come the
words of the toolchain's libraries that are used, and the counts of all this.
"""
# the name printed by default
HEADLINE = "EachIsMeaning"


def parser() -> argparse.ArgumentParser:
    """The command line."""
    made = argparse.ArgumentParser(
        prog="believe", description=WHAT, formatter_class=argparse.RawDescriptionHelpFormatter
    )
    made.add_argument(
        "name",
        nargs="?",
        default="",
        metavar="NAME",
        help="a public function, as World::run, dac_core::World::run or weave, or a definition, as EachIsMeaning or "
        "WishMeaning::IsMeaning; EachIsMeaning by default",
    )
    made.add_argument("clause", nargs="?", default="", metavar="CLAUSE", help="one clause of the function, as converges")
    made.add_argument("--count", action="store_true", help="print only the last line")
    made.add_argument(
        "--all",
        action="store_true",
        help="print a page of all definitions that contracts name, by crates and modules, each with its comment and its source",
    )
    made.add_argument(
        "--promises",
        action="store_true",
        help="print the public functions of all crates, or of the crate NAME: the comment above each one and above each of its "
        "clauses, and how many definitions its contract rests on",
    )
    made.add_argument(
        "--check",
        action="store_true",
        help="list names in docs/PROMISES.md and docs/sources.txt that don't exist, and the contracts and clauses that no promise names",
    )
    return made


def of_function(one: Function, clause: str, resting: Resting) -> Asked:
    """The page's subject for a function."""
    heading = f"the contract of {'::'.join(one.shown())}, {one.file.relative_to(resting.modules.root)}:{one.line}"
    ghosts = tuple(f"    ghost {ghost.name} = {ghost.text}" for ghost in one.clauses if ghost.kind == "ghost")
    words = tuple(resting.cited_by_function(one, clause))
    clauses = tuple(each.name for each in one.clauses if each.name)
    return Asked(heading, words, one.above + one.text + ghosts, clauses, (), tuple(Views(resting).of_function(one)))


def of_definition(one: Definition, sources: Sources, resting: Resting) -> Asked:
    """The page's subject for a definition."""
    heading = f"{one.name} of {one.crate}, {one.module.split('.', 1)[1]}"
    return Asked(heading, (one,), (), (), tuple(resting.promising(one, sources.public())), ())


def asked_about(name: str, clause: str, sources: Sources, resting: Resting) -> List[Asked]:
    """The functions of a name, or else its definitions."""
    functions = sources.named(name)
    if functions:
        return [of_function(one, clause, resting) for one in functions]
    modules = resting.modules
    asked = tuple(name.split("::"))
    every = (one for crate in modules.crates.order() for one in modules.definitions_of(crate))
    definitions = [one for one in every if is_within(asked, (one.crate, *one.module.split(".")[1:], one.name))]
    return [of_definition(one, sources, resting) for one in definitions]


def near_names(name: str, sources: Sources, modules: Modules) -> List[str]:
    functions = ["::".join(one.shown()[1:]) for one in sources.public()]
    definitions = [one.name for crate in modules.crates.order() for one in modules.definitions_of(crate)]
    return [f"there is {one}" for one in difflib.get_close_matches(name, functions + definitions, 3)]


def believe(arguments: argparse.Namespace) -> int:
    """Prints the page of one contract."""
    modules, sources = Modules(), Sources()
    resting = Resting(modules)
    name = arguments.name or HEADLINE
    found = asked_about(name, arguments.clause, sources, resting)
    if len(found) != 1:
        print(f"{len(found)} public functions or definitions are called {name}", file=sys.stderr)
        for line in [one.heading for one in found] or near_names(name, sources, modules):
            print(f"  {line}", file=sys.stderr)
        return 2
    clauses = found[0].clauses
    if arguments.clause and arguments.clause not in clauses:
        print(f"{found[0].heading} has no clause {arguments.clause}, but {', '.join(clauses) or 'none'}", file=sys.stderr)
        return 2
    page = BelievedPage(found[0], resting)
    print("\n".join([page.counts()] if arguments.count else page.lines()))
    return 0


def listed(title: str, items: Sequence[str]) -> None:
    print(f"{len(items)} {title}{':' if items else ''}")
    if items:
        print("\n".join(wrapped("; ".join(items), "    ")))


def check() -> int:
    """Compares docs/PROMISES.md and docs/sources.txt with contracts and definitions. A missing name is status 1."""
    modules, sources = Modules(), Sources()
    promises = Promises(modules.root, sources)
    faults = [*DefinitionSources(modules.root).faults(modules), *promises.faults()]
    listed("public functions have clauses and no row in docs/PROMISES.md", list(promises.without_row()))
    listed("functions have rows there, and clauses that none of these names", list(promises.unnamed_clauses()))
    for fault in faults:
        print(fault)
    print(f"{len(promises.rows)} promises, {len(faults)} faults")
    return 1 if faults else 0


def print_promises(crate: str) -> int:
    """Prints the public functions of one crate or all, with the comments of their contracts."""
    modules, sources = Modules(), Sources()
    page = PromisePage(sources, Resting(modules))
    if crate and crate not in page.crates():
        print(f"no crate {crate} has public functions with a contract: {', '.join(page.crates())}", file=sys.stderr)
        return 2
    print("\n".join(page.lines(crate)))
    return 0


def print_all() -> int:
    """Prints the page of all definitions named by contracts."""
    modules, sources = Modules(), Sources()
    print("\n".join(Page(modules, sources, Resting(modules)).lines()))
    return 0


def ran(asked: argparse.Namespace) -> int:
    if asked.promises:
        return print_promises(asked.name)
    if asked.all:
        return print_all()
    return check() if asked.check else believe(asked)


def main(arguments: Sequence[str]) -> int:
    """Runs the command. Its reader may close the output early."""
    return printed("believe", lambda: ran(parser().parse_args(arguments)))
