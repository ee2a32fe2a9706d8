"""Changed inputs of each subcommand, including names that look like markup, with open streams and with closed ones.

Some run with the other tests. `DISTAC_VIEW_INPUTS=2000 python3 distac_view/tests/run.py test_fuzz` runs that many, and
`DISTAC_VIEW_SEED` chooses others. The same seed and number yield the same input.
"""

from __future__ import annotations

import os
import subprocess
import sys
from random import Random

from json_schema import documented
from support import EXAMPLES, IS_STAND_IN, MISTAKES, PROGRAM, TOP, Elements, InRoom, Said, view
from distac_view.cli.command_line import SUBCOMMANDS

SEED = os.environ.get("DISTAC_VIEW_SEED", "1")
COUNT = int(os.environ.get("DISTAC_VIEW_INPUTS", "160" if IS_STAND_IN else "400"))
INPUTS_OF_A_PROCESS = 100

SCRIPTS = [path.read_bytes() for path in sorted(EXAMPLES.glob("*.distac")) if not path.name.startswith("live-")]
CONFIGS = [path.read_bytes() for path in sorted(EXAMPLES.glob("*.config"))] + [script.split(b"\n--\n")[0] + b"\n" for script in SCRIPTS]
FAULTY = [path.read_bytes() for path in sorted([*EXAMPLES.glob("live-*.distac"), *MISTAKES.iterdir()])]
NAMES = (
    *(b"'<script>alert(1)</script>'", b"'<img_src=x_onerror=y()>'", b"'</title><b>'", b"'</svg>'", b"'&lt;'", b"'\"onclick=\"z()'"),
    *("'\u202e@h'".encode(), "'é\u0301@h'".encode(), "'\u4e2d@h'".encode(), b"'\xff\xfe@h'", b"'javascript:x()'", b"'" + b"n" * 255 + b"'"),
    *(b"'a=b@h'", b"'10.0.0.1@h'", b"'a b@h'", b"''", b"'{}'", b"'%'", b"fun", b"'style=x'"),
)
REPLACED = [b"cp1@cave", b"cp2@cave", b"myapp", b"main@h", b"spare@h", b"shop", b"a@h", b"g1@h", b"g2@h", b"reports"]
PIECES = (
    *(b"\0", b"\x1b[31m", b"\xc2\x9b", b"\x7f", b"\xff", b"\r\n", b"\t", b" ", b"\n", b"\n--\n", b"%", b"'", b'"', b"\\", b"[", b"]", b"{", b"}"),
    *(b",", b".", b"99999999999999999999", b"-1", b"4611686018427387904", b"\nshare\n", b"\ntell ", b"\npage ", b"\nhear ", b"\nfeed 00\n", b"fun"),
    *(b"\nstate ", b"\nbytes 1\n", b"\nhand ", b"\nphase\n", b"<b>", b"]]>", b"&amp;", b"<!--"),
)
FILE = "FILE"
LINES: tuple[tuple[str, ...], ...] = (
    ("check", FILE),
    ("check", "--strict", FILE),
    ("play", FILE),
    ("play", "--explain", "--page", FILE),
    ("play", "--plain", FILE),
    ("play", "--strict", FILE),
    ("timeline", FILE, "-o", "-"),
    ("timeline", FILE, "-o", "-", "--from", "5", "--lines", "3"),
    ("what-if", FILE),
    ("what-if", FILE, "--json"),
    ("what-if", FILE, "-o", "-"),
    ("what-if", FILE, "--then", str(EXAMPLES / "manual.config")),
    ("rolling", FILE),
    ("rolling", FILE, "--json"),
    ("rolling", FILE, "--fail-on", "hang", "-o", "-"),
    ("what-if", FILE, "--then", str(EXAMPLES / "manual.config"), "-o", "-"),
    ("load", FILE, "--pairs", "--most", "1", "--fail-on", "lost,load", "-o", "-"),
    ("load", FILE, "--pairs"),
    ("load", FILE, "--pairs", "--json"),
    ("gather", "x@h=FILE"),
    ("gather", "x@h=FILE", "--reader", "own"),
)
KNOWN = [name for name, _, _, _ in SUBCOMMANDS]
WORDS = tuple(line for line in LINES if line[0] in KNOWN)
TAGS = (
    "html head meta title style body header main section h1 h2 h3 p div span ul li dl dt dd details summary strong br wbr"
    " table thead tbody tr th td svg defs pattern marker path rect circle text g"
)


def changed(random: Random, subcommand: str) -> bytes:
    """A source with some changes: names replaced by others, pieces inserted, and parts removed, doubled or moved."""
    fitting = SCRIPTS if subcommand in ("play", "timeline") else CONFIGS
    source = random.choice(random.choice((fitting, fitting, fitting, SCRIPTS, FAULTY)))
    if random.random() < 0.7:
        source = with_other_names(random, source)
    for _ in range(random.choice((0, 0, 0, 1, 2, 4))):
        place = random.randrange(len(source) + 1)
        end = place + random.choice((0, 0, 1, 5, 30))
        piece = random.choice((*PIECES, *NAMES, b"", source[place:end] * 2, source[random.randrange(len(source) + 1) :][:20]))
        source = source[:place] + piece + source[end:]
    return source


def with_other_names(random: Random, source: bytes) -> bytes:
    """A source with one of its names replaced throughout."""
    name = random.choice([name for name in REPLACED if name in source] or REPLACED)
    return source.replace(name, random.choice(NAMES))


def foreign(page: str) -> list[str]:
    """The elements and attributes of a page that the program didn't make."""
    elements = Elements(page).found
    names = [name for _, its in elements for name in its if name.startswith("on") or name in ("src", "href")]
    return [tag for tag, _ in elements if tag not in TAGS.split()] + names


class Fuzz(InRoom):
    """For every input, the answer is a status and text made by the program."""

    def setUp(self) -> None:
        super().setUp()
        self.path = self.room / "input"
        self.schema = documented()

    def test_changed_inputs(self) -> None:
        for number in range(COUNT):
            random = Random(f"{SEED} {number}")
            words = random.choice(WORDS)
            source = changed(random, words[0])
            self.path.write_bytes(source)
            with self.subTest(number=number, words=words, source=source):
                said = view(*self.named(words))
                self.check_answer(words, said)
                self.assertEqual(self.path.read_bytes(), source)

    def named(self, words: tuple[str, ...]) -> list[str]:
        """A command line with the input's name."""
        return [word.replace(FILE, str(self.path)) for word in words]

    def check_answer(self, words: tuple[str, ...], said: Said) -> None:
        self.assertIn(said.status, (0, 1, 2))
        self.assertTrue(said.status == 0 or said.output + said.errors)
        if "--plain" not in words:
            self.assertNotIn("\x1b", said.output + said.errors)
        if "-o" in words and said.status != 2:
            self.assertEqual(foreign(said.output), [])
        if said.status == 0 and "--json" in words:
            self.assertEqual(self.schema.faults_of(said.output), [])

    def test_closed_streams(self) -> None:
        for number in range(COUNT // INPUTS_OF_A_PROCESS):
            random = Random(f"streams {SEED} {number}")
            words = random.choice(WORDS)
            source = changed(random, words[0])
            streams = " ".join(random.sample((">&-", "2>&-", "<&-", ">/dev/full"), random.choice((1, 2))))
            self.path.write_bytes(source)
            line = [sys.executable, str(TOP / "distac-view"), *self.named(words)]
            whole = ["/bin/sh", "-c", f'exec "$@" {streams}', "sh", *line]
            done = subprocess.run(whole, stdin=subprocess.DEVNULL, capture_output=True, env={**os.environ, "DISTAC": PROGRAM})
            with self.subTest(number=number, words=words, streams=streams, source=source):
                self.assertIn(done.returncode, (0, 1, 2))
                self.assertNotIn(b"Traceback", done.stderr)
                self.assertNotIn(b"Exception ignored", done.stderr)
