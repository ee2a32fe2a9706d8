"""Inputs of any kind: each gets a sentence, and the status 0, 1 or 2."""

from pathlib import Path
from random import Random

from support import EXAMPLES, IS_STAND_IN, InRoom, view
from random_texts import random_text

CONFIG = (EXAMPLES / "manual.config").read_bytes()
SCRIPT = (EXAMPLES / "failover.distac").read_bytes()
HEAD = b"[{kernel,[{distributed,[{a,[x,y]}]}]}].\n--\n"
MOST_CONFIG, BIG = 65_536, 2_097_152

SOURCES = (
    *(b"", b"\n", b"--", b"--\n", b"\n--\n", b"%", b".", b"[].", b"\xff", b"\0", b"'", b'"', b"\\", b"\xef\xbb\xbf" + CONFIG),
    *(CONFIG[:-1], CONFIG.rstrip(), CONFIG.replace(b"\n", b"\r\n"), CONFIG.replace(b" ", b"\t"), CONFIG.replace(b"5000", b"9" * 5_000)),
    *(SCRIPT[:-1], SCRIPT.replace(b"\n", b"\r\n"), SCRIPT.replace(b" ", b"\t"), SCRIPT.replace(b"100", b"9" * 5_000)),
    *(b"[" * 70, b"{" * 10_000, b"[{kernel,[" + b"{a," * 10_000, b"'" + b"a" * 70_000, b'"' * 1_001),
    *(HEAD, HEAD + b" ", HEAD + b"\r", HEAD + b"\t", HEAD + b"tell", HEAD + b"tell x y", HEAD + b"tell x x", HEAD + b"tell \xff y"),
    *(HEAD + b"feed", HEAD + b"feed 0", HEAD + b"feed \xff", HEAD + b"page '\xff'", HEAD + b"hear x 99999999999999999999", HEAD + b"boot x 4611686018427387904"),
    *(HEAD + b"boot x 0\nship x y\nhear y 1\nhear y 2\nhand y 7\nhand x 1\nship x '\xc3\xa9'\nship x zz", HEAD + b"boot \xd9\xa1 \xd9\xa1"),
    "[{kernel,[{distributed,[{a,[x,'é','a b','\u202e']}]}]}].\n--\nboot x 0\npage 'é'\nshare\ntell x 'é'".encode(),
    b"[{kernel,[{distributed,[{'a b',[x]}]}]}].\n",
    b'[{a,"\n--\n"},{kernel,[{distributed,[{a,[x,y]}]}]}].\n',
)

WORDS = (
    *(("check",), ("play", "--explain"), ("play", "--page"), ("play", "--plain"), ("timeline", "-o", "-")),
    *(("what-if",), ("what-if", "--all"), ("what-if", "--json"), ("load", "--pairs"), ("rolling",), ("rolling", "--drain")),
)


class Hostile(InRoom):
    def setUp(self) -> None:
        super().setUp()
        self.path = str(self.room / "input")

    def try_all(self, source: bytes) -> None:
        """All subcommands on an input: a failing one raises here."""
        Path(self.path).write_bytes(source)
        for words in WORDS:
            said = view(words[0], self.path, *words[1:])
            self.assertIn(said.status, (0, 1, 2))
            if said.status:
                self.assertTrue(said.output + said.errors, words)

    def test_chosen_inputs(self) -> None:
        for source in SOURCES:
            with self.subTest(source=source[:80], size=len(source)):
                self.try_all(source)

    def test_random_bytes(self) -> None:
        for number in range(20):
            random = Random(f"bytes {number}")
            source = bytes(random.randrange(256) for _ in range(random.randrange(200)))
            with self.subTest(number=number):
                self.try_all(random.choice((source, HEAD + source, CONFIG + source)))

    def test_changed_inputs(self) -> None:
        for number in range(40):
            random = Random(f"changed {number}")
            source = bytearray(random.choice((CONFIG, SCRIPT, HEAD + b"boot x 0\nboot y 0\ntell x y\nstart x a x\ntick x 1\ntell y x")))
            for _ in range(random.choice((1, 1, 2, 5))):
                place = random.randrange(len(source))
                source[place : place + random.choice((0, 1, 1, 8))] = random.choice((b"", b"\0", b"\xc3", b"{", b"]", b"'", b"\n", b"\r", b"tell ", b"%", b"99999999999999999999"))
            with self.subTest(number=number, source=bytes(source)):
                self.try_all(bytes(source))

    def test_random_texts(self) -> None:
        for number in range(100):
            Path(self.path).write_bytes(random_text(7, number))
            with self.subTest(number=number):
                self.assertIn(view("check", self.path).status, (0, 2))

    def test_long_lines(self) -> None:
        for size, status in ((BIG, 0), (BIG + 1, 2)):
            Path(self.path).write_bytes(HEAD + b"%" + b"a" * (size - len(HEAD) - 1))
            for words in (("play", self.path), ("timeline", self.path, "-o", "-")):
                self.assertEqual(view(*words).status, status)

    def test_a_long_configuration(self) -> None:
        for size in (MOST_CONFIG + 1, BIG, BIG + 1):
            Path(self.path).write_bytes(HEAD + b"%" + b"a" * (size - len(HEAD) - 1))
            for command in ("check", "what-if", "load", "rolling"):
                said = view(command, self.path)
                self.assertEqual(said.status, 2)
                self.assertIn("a configuration has at most 65,536 bytes", said.output + said.errors)

    def test_many_lines(self) -> None:
        count = 300 if IS_STAND_IN else 20_000
        for line in (b"\n", b"tick x 1\npage y\n", b"%\n"):
            Path(self.path).write_bytes(HEAD + b"boot x 0\nboot y 0\n" + line * count)
            for words in (("play", self.path), ("timeline", self.path, "-o", "-")):
                self.assertEqual(view(*words).status, 0)
