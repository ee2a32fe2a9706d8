"""Random scripts of the models: `play` shows the lines of `distac` in order, and a `tell` of all nodes is a share."""

from __future__ import annotations

import unittest
from random import Random

from support import IS_STAND_IN, distac
from check import MOST_INPUT, read_config
from random_scripts import CALM, CONFIGS, DRAINS, LETTERS, PAUSES, ScriptMaker, decorated, odd_input, with_fault
from distac_view.asking.inputs import Loaded, answers_of, check_config, checked_lines, plain_of
from distac_view.asking.program import lines_of
from distac_view.common.diagnostics import Faulty
from distac_view.common.texts import text_of
from distac_view.reading.faults import Part, fault_of
from distac_view.reading.script_file import Line, Script, script_of
from distac_view.reading.tell_lines import written_out
from distac_view.showing.script_rows import EXPLAINS, Layout

COUNT = 150 if IS_STAND_IN else 400


def random_source(number: int) -> bytes:
    """A random input of `distac sim`, sometimes with a fault."""
    random = Random(f"view {number}")
    text = random.choice(CONFIGS)
    maker = ScriptMaker(random, read_config(text))
    maker.open()
    maker.some(random.choice((CALM, LETTERS, PAUSES, DRAINS)), random.choice((5, 15, 30)))
    maker.close()
    lines = with_fault(random, maker.lines) if random.random() < 0.2 else maker.lines
    script = decorated(random, lines)
    return odd_input(random, text, script) if random.random() < 0.05 else text + b"--\n" + script


class Scripts(unittest.TestCase):
    def test_each_answer_stands_beside_its_line(self) -> None:
        for number in range(COUNT):
            source = random_source(number)
            printed, status = distac().asked("sim", source)
            with self.subTest(number=number):
                if status == 0:
                    self.assertEqual(shown_answers(source), lines_of(text_of(printed)))
                else:
                    self.compare_fault(source, text_of(printed))

    def compare_fault(self, source: bytes, printed: str) -> None:
        """A fault is reported at the line and with the name that `distac` gives."""
        fault = fault_of(printed.rstrip("\n"))
        script = script_of(source) if len(source) <= MOST_INPUT else None
        if script is None:
            self.assertNotEqual(fault.part, Part.SCRIPT)
            return
        with self.assertRaises(Faulty) as caught:
            shown_answers(source)
        self.assertEqual(caught.exception.remark.name, fault.name)
        if fault.part is Part.SCRIPT:
            self.assertEqual(caught.exception.remark.place.line, script.lines[fault.place - 1].number)


def loaded_of(source: bytes) -> Loaded:
    """A file that has the line `--`, with each `tell` written out."""
    script = script_of(source)
    assert script is not None
    configuration = check_config(distac(), "x", script.config).configuration
    return Loaded("x", script, configuration, checked_lines(distac(), "x", script, configuration))


def shown_answers(source: bytes) -> list[str]:
    """The answers in the rows of `play`."""
    layout, found = Layout(6, 20), []
    for one in answers_of(distac(), loaded_of(source)):
        if one.line.is_event:
            rows = [row[layout.start :] for row in layout.rows(one, explains=True)]
            found += [row for row in rows if not row.startswith(EXPLAINS)]
    return found


class Telling(unittest.TestCase):
    """A `tell` is written out as the ships and deliveries of a share."""

    def test_a_tell_of_all_nodes_is_a_share(self) -> None:
        for number in range(COUNT // 5):
            random = Random(f"tell {number}")
            text = random.choice(CONFIGS)
            maker = ScriptMaker(random, read_config(text))
            maker.open()
            maker.some(random.choice((CALM, PAUSES, DRAINS)), 15)
            maker.close()
            nodes = b" ".join(maker.name_of(node) for node in range(len(maker.config.nodes)))
            if len(set(nodes.split(b" "))) < 2 or any(b" " in name for name in maker.config.nodes):
                continue
            shares, tells = (b"\n".join(word if line == b"share" else line for line in maker.lines) for word in (b"share", b"tell " + nodes))
            with self.subTest(number=number):
                self.assertEqual(told_answers(text, shares), told_answers(text, tells))

    def test_later_lines_change_no_number(self) -> None:
        config = CONFIGS[3]
        lines = b"boot x 0\nboot y 0\nboot z 0\ntell x y\ntell x y z\ntell y z\nshare\ntell z y\ntick x 5\ntell x z\ntell x z".split(b"\n")
        before: list[str] = []
        for count in range(len(lines) + 1):
            texts = [line.text for line in loaded_of(config + b"--\n" + b"\n".join(lines[:count])).lines]
            self.assertEqual(texts[: len(before)], before)
            before = texts if count else []

    def test_faults_of_tells(self) -> None:
        rows = ((b"tell x", "BadCount"), (b"tell x nobody", "UnknownActor"), (b"tell x X", "BadName"), (b"tell x y x", "TwiceInTell"), (b"tell x y\r", "BadName"))
        for line, name in rows:
            for before, its in ((b"", name), (b"boot x\n", "BadCount")):
                with self.subTest(line=line, before=before), self.assertRaises(Faulty) as caught:
                    loaded_of(CONFIGS[3] + b"--\n" + before + line)
                self.assertEqual(caught.exception.remark.name, its)


def told_answers(config: bytes, script: bytes) -> list[str]:
    """The answers to all lines except ships, deliveries and shares, without numbers of messages."""
    loaded = loaded_of(config + b"--\n" + script)
    output = lines_of(text_of(distac().asked("sim", plain_of(loaded.script, loaded.lines))[0]))
    return [line for line in output if not line.startswith(("shipped", "shared", "heard ")) and "UpToDate" not in line and "NotForMe" not in line]


class Guesses(unittest.TestCase):
    """Writing out ends whatever the answers are."""

    def test_ships_that_are_all_refused(self) -> None:
        lines = [Line(1, "tell a b c"), Line(2, "boot a 0")]
        written = written_out(lines, lambda run: ["refused 1 Off" if line.is_event else "" for line in run])
        self.assertEqual([line.text for line in written], ["% tell a b c", "boot a 0"])
        self.assertTrue(Script(b"tell", b"", lines).has_tells)
