"""The examples in the help of each subcommand."""

from distac_view.asking.program import TOP

COMPILED = """: the
proved one, else one without proof, which is compiled first if there is none"""
PROGRAM = f"""\
The program distac is taken from --distac PATH, else from the environment variable DISTAC, else from beside this one{COMPILED if TOP.is_dir() else ""}.
--models, or DISTAC=--models, asks the models in its place. A FILE that is a dash is standard input."""

NO = {
    "": "the answer is no: --strict warns, --fail-on fails, --then changes something, --check finds other files, rolling is barred, ends finds another end than --expect, or expect finds a change",
    "check": "with --strict, a warning that --allow doesn't name",
    "gather": "with --strict, a warning that --allow doesn't name, or --check finds other files",
    "play": "with --strict, a warning that --allow doesn't name",
    "ends": "an end found isn't as --expect names it",
    "what-if": "--then changes something, or with --fail-on what that names",
    "rolling": "a step can't go on, or --fail-on fails",
    "load": "--fail-on fails",
    "expect": "an answer isn't as it is stored",
}

EXAMPLES = {
    "check": """\
  distac-view check sys.config                   ok with its numbers, or the first fault
  distac-view check sys.config --print           what distac understood, on one line
  distac-view check --strict rel/*/sys.config
                                                 the files of all nodes, for CI: a warning ends it with 1
  distac-view check sys.config --strict --allow SingleNode:audit
                                                 but for this one, of this application""",
    "gather": """\
  distac-view gather shop1=shop1/sys.config shop2=shop2/sys.config -o cluster.config
                                                 one configuration from the files of two nodes
  distac-view gather shop1@10.0.0.1=common.config,shop1.config shop2@10.0.0.2=common.config,shop2.config
                                                 later files win, as with erl -config common -config shop1
  distac-view gather shop1/sys.config.src,shop1/vm.args.src --env prod.env --env FAILOVER_MS=5000 --root image
                                                 before a node runs: -name tells the node, --root where /etc is
  distac-view gather --check cluster.config      are the files that it was gathered from still those?
  distac-view gather --print-command | erl_call -name shop1@10.0.0.1 -c COOKIE -fetch_stdout -e > shop1.answer
                                                 what a running node has: gather takes the answer as its FILE
  bin/shop rpc "$(distac-view gather --print-command elixir)" > shop1.answer
                                                 the same of a release that mix made
  elixir -e "$(distac-view gather --print-command elixir-config)" > shop1.answer
                                                 what config/runtime.exs makes of the variables of this shell
  distac-view gather --print-command now | erl_call -name shop1@10.0.0.1 -c COOKIE -fetch_stdout -e >> now.txt
                                                 what runs at a node, for --now of the other subcommands""",
    "play": """\
  distac-view play failover.distac               each answer beside its line
  distac-view play --page --explain split.distac
                                                 what nodes know behind each share, and why a line is refused
  distac-view play --plain split.distac | distac sim
                                                 the same script without distac-view""",
    "timeline": """\
  distac-view timeline split.distac -o split.html
                                                 a page for a browser, or for a printer
  distac-view timeline long.distac -o part.html --from 400 --lines 200
                                                 a part of a long script""",
    "ends": """\
  distac-view ends race.live --keep ends         each end found, and a script of distac sim for each
  distac-view ends race.live --schedules 20000 --seed 2
                                                 a longer search, by other schedules
  distac-view ends race.live --expect 'app shop holder main@h'
                                                 for CI: 1 if some schedule ends otherwise, with its script""",
    "what-if": """\
  distac-view what-if sys.config                 each node down alone
  distac-view what-if sys.config --down shop1@rack1 shop2@rack1
                                                 two nodes down together
  distac-view what-if sys.config --after repair.distac --json
                                                 from where a script ends, for another program
  distac-view what-if sys.config --now billing=shop1@rack1 mail=shop2@rack1
                                                 from where applications run now
  distac-view what-if sys.config --split shop1 shop2 / shop3
                                                 what each side of a split runs, and once it is healed
  distac-view what-if sys.config --then new.config
                                                 what a new configuration changes""",
    "rolling": """\
  distac-view rolling sys.config                 the best order of restarts, and what moves in each step
  distac-view rolling sys.config --takes 4000    the same if each node is back after 4 s
  distac-view rolling sys.config -o rolling.html
                                                 the same as a page, for a change request
  distac-view rolling sys.config --now now.txt --order shop2@rack1 shop1@rack1 --drain
                                                 this order, from where applications run now, with drains""",
    "load": """\
  distac-view load sys.config --pairs            applications on each node if one or two nodes are down
  distac-view load sys.config --most 4 --fail-on lost,load
                                                 a budget for CI: lost applications or more than 4 at a node end it with 1""",
    "expect": """\
  distac-view expect questions                   the questions of a folder: what differs from the stored answers
  distac-view expect questions --write           store the answers of today
  distac-view expect questions budget --json     one of them, for another program""",
}


def epilog_of(name: str) -> str:
    """The text below the help of a subcommand, or of the whole program."""
    examples = [f"examples:\n{EXAMPLES[name]}\n"] if name in EXAMPLES else []
    no = [f"  1  {NO[name]}"] if name in NO else []
    trouble = "  2  a file has a fault or can't be read or written, wrong use, or no answer from distac\n"
    return "\n".join([*examples, "exit status:", "  0  done", *no, trouble, PROGRAM])
