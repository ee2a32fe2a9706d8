"""The two readers of configuration files: their results, and their agreement if Erlang is installed."""

from __future__ import annotations

import os
import unittest
from random import Random
from unittest import mock

from support import InRoom
from hostile_files import hostile_sources
from random_terms import changed, random_file
from distac_view.common.problems import Problem
from distac_view.reading.erlang_reader import decoded, has_erlang, read_by_erlang, read_by_own
from distac_view.reading.erlang_terms import Atom, Other, term_of
from distac_view.reading.erlang_tokens import Misread, byte_tokens

COUNT = 400
ASIDE = Other("list with a tail")
READ: tuple[tuple[str, object], ...] = (
    ("[].", []),
    ("{a,'b c',\"de\",\"f\" \"g\"}.", (Atom("a"), Atom("b c"), [100, 101], [102, 103])),
    ("[16#fF,2#10_01,36#zZ,1_000,-5,- 5,+5,$a,$\\n,$ ,$\\x{263a},-(4)].", [255, 9, 1295, 1000, -5, -5, 5, 97, 10, 32, 0x263A, -4]),
    ("[1.5,0.25e-3,-1_0.0].", [1.5, 0.00025, -10.0]),
    ("[[1|[2]],[1|2]].", [[1, 2], ASIDE]),
    ("['\\x{e9}\\101\\^a\\'', \"\\\"\\\\\\s\\\n\"].", [Atom("éA\x01'"), [34, 92, 32, 10]]),
    ('[#{a => #{}}, <<"x"/utf8,1:2>>, fun m:f/1].', [Other("map"), Other("binary"), Other("fun")]),
    ("%% a comment\n[(a)] % [\n.\t% and one more", [Atom("a")]),
    ("[été,'Été'].", [Atom("été"), Atom("Été")]),
    ("{" + "9" * 2000 + "}.", (Other("number"),)),
)
NEWER = (
    ('["""\n  one\n   two\n  """].', [[ord(sign) for sign in "one\n two"]]),
    ('["""".\n """ \n """"].', None),
    ('[~"word", ~b[w], ~s(w), ~"""\n w\n """].', [Other("binary"), Other("binary"), [], Other("binary")]),
)
MISREAD = (
    *("", " ", "%", "[", "[]", "[a", "[a]", "{a]}.", "[a b].", "[a,].", "[,a].", "[a|b|c].", "[|a].", "[a|b,c].", "{a|b}.", "a b.", "[]. []", ".", "[]."[:2]),
    *("[A].", "[_].", "[receive].", "[fun].", "[fun a/1].", "[fun m:f/a].", "['a].", '["a].', "[5-3].", "[- -5].", "[-a].", "[-].", "[1.].", "[1..2]."),
    *("[a=>b].", "#{a}.", "#{a=>b=>c}.", "#{a=>}.", "#{a:=b}.", "#r{}.", "[37#1].", "[1#0].", "[2#2].", "[a/b].", "[a:b].", "[<<a].", "[>>].", "[\ufeff].", "[€].", "()."),
    *('["\\x{110000}"].', '["\\xg"].', '["\\x{d800}"].', "['" + "a" * 256 + "'].", "[1.0e999].", "\ufeff[].", "[\x7f]."),
)


class ByteTokens(unittest.TestCase):
    """The tokens that `distac` also reads, with bytes as places."""

    def test_places(self) -> None:
        rows = (
            (b"[{a,-5}].", ["[", "{", "a", ",", "-5", "}", "]", "."]),
            ("%% é\n['é',\"ü\",b]".encode(), ["[", "'é'", ",", '"ü"', ",", "b", "]"]),
            (b"['\xff',a", ["[", "'\udcff'", ",", "a"]),
            *((b"[a," + other, ["[", "a", ","]) for other in (b"- 5", b"-a", b"-", b"#{", b"<<>>", b"$a", b"'b", b'"b', b"B", b"", b"(1)", b"~s[]")),
        )
        for source, written in rows:
            tokens = list(byte_tokens(source))
            self.assertEqual([token.written for token in tokens], written, source)
            for token in tokens:
                self.assertEqual(source[token.start : token.end], token.written.encode("utf-8", "surrogateescape"))


class OwnReader(unittest.TestCase):
    def test_what_is_read(self) -> None:
        for text, term in (*READ, *NEWER):
            with self.subTest(text=text[:80]):
                self.assertEqual(term_of(text) if term is not None else None, term)

    def test_what_is_refused(self) -> None:
        for text in MISREAD:
            with self.subTest(text=text[:80]), self.assertRaises(Misread):
                term_of(text)

    def test_depth(self) -> None:
        depth = 50_000
        term_of("[" * depth + "]" * depth + ".")
        term_of("{a," * depth + "b" + "}" * depth + ".")
        for text in ("[" * depth, "[" * depth + ".", "<<" * depth, "#{" * depth, "-" * depth, "(" * depth, '"' * depth, "'" * depth + "a", "$" * depth):
            with self.assertRaises(Misread):
                term_of(text)

    def test_encodings(self) -> None:
        self.assertEqual(decoded(b"%% coding: latin-1\n\xe9"), "%% coding: latin-1\né")
        self.assertEqual(decoded("é".encode()), "é")
        for source in (b"\xe9", b"%\n%\n% coding: latin-1\n\xe9", b"\xc3", b"\xed\xa0\x80"):
            with self.assertRaises(Misread):
                decoded(source)


@unittest.skipUnless(has_erlang(), "Erlang isn't installed")
class Agreement(unittest.TestCase):
    def compare(self, texts: list[str]) -> None:
        """Each text is read by both, or by none, as one term."""
        for text, own, erlang in zip(texts, read_by_own(texts), read_by_erlang(texts)):
            with self.subTest(text=text[:200]):
                if isinstance(own, Misread) and isinstance(erlang, Misread):
                    self.assertEqual((own.place, own.sentence), (erlang.place, erlang.sentence))
                else:
                    self.assertEqual(own, erlang)

    def test_chosen_texts(self) -> None:
        self.compare([text for text, _ in READ])
        self.compare(list(MISREAD))

    def test_random_texts(self) -> None:
        texts = [random_file(Random(f"term {number}")) for number in range(COUNT)]
        for text, term in zip(texts, read_by_own(texts)):
            self.assertNotIsInstance(term, Misread, text)
        self.compare(texts)

    def test_changed_texts(self) -> None:
        texts = [changed(Random(f"changed {number}"), random_file(Random(f"term {number}"))) for number in range(COUNT)]
        self.compare([text for text in texts if "<<" not in text])

    def test_hostile_texts(self) -> None:
        texts = []
        for source in hostile_sources():
            try:
                texts.append(decoded(source))
            except Misread:
                continue
        for text, own, erlang in zip(texts, read_by_own(texts), read_by_erlang(texts)):
            self.assertEqual(isinstance(own, Misread), isinstance(erlang, Misread), text[:200])

    def test_flags_of_nodes_are_left_out(self) -> None:
        with mock.patch.dict(os.environ, {"ERL_FLAGS": "-sname a -name b", "ERL_AFLAGS": "-no_such_flag +Z"}):
            self.assertEqual(read_by_erlang(["[a]."]), [[Atom("a")]])


class ErlangThatFails(InRoom):
    """An Erlang that is missing, or doesn't answer."""

    def test_none(self) -> None:
        with mock.patch.dict(os.environ, {"PATH": "/no/such/folder"}):
            self.assertFalse(has_erlang())
            with self.assertRaisesRegex(Problem, "install Erlang"):
                read_by_erlang(["[]."])

    def test_others(self) -> None:
        for output, message in ((["/bin/false"], "status 1"), (["/bin/true"], "answered 0 of 1")):
            with mock.patch("shutil.which", lambda _: output[0]), self.assertRaisesRegex(Problem, message):
                read_by_erlang(["[]."])

    def test_why_it_failed(self) -> None:
        script = self.script("escript", "echo loading >&2; echo no memory >&2; exit 3")
        for which, said in ((str(script), "status 3 (no memory): try"), ("/bin/false", "status 1: try")):
            with mock.patch("shutil.which", lambda _: which), self.assertRaises(Problem) as caught:
                read_by_erlang(["[]."])
            self.assertEqual(caught.exception.sentence, f"escript ended with {said} --reader own")
