"""`what-if --fails`: starts that fail, as they were seen with OTP 25."""

from random import Random
from typing import Any, Dict, Tuple

from support import IS_STAND_IN, InRoom, Said, view
from test_what_if import random_config

SYNC = "{sync_nodes_optional,[cp1@h,cp2@h,cp3@h]},{sync_nodes_timeout,6000}"
TEXT = "[{kernel,[{distributed,[{a,300,[cp1@h,cp2@h,cp3@h]},{b,600,[cp2@h,cp3@h]}]},%s]}].\n" % SYNC
TUPLE = "[{kernel,[{distributed,[{a,300,[cp1@h,{cp2@h,cp3@h}]}]},%s]}].\n" % SYNC
COUNT = 6 if IS_STAND_IN else 60

# The places of an application: now, then, and once nodes are back.
Places = Dict[str, Tuple[Any, ...]]


class Failing(InRoom):
    def setUp(self) -> None:
        super().setUp()
        self.config = self.write("cluster.config", TEXT)

    def ask(self, words: str) -> Said:
        return view("what-if", str(self.config), *words.split())

    def json(self, words: str) -> Any:
        return self.answer(0, "what-if", str(self.config), *words.split())

    def places(self, words: str) -> "tuple[Places, list[str]]":
        """The places of each application in the only case, and the nodes that ended."""
        (case,) = self.json(words)["cases"]
        fates = case["applications"]
        return {each["application"]: (each["now"], each["then"], each["back"]) for each in fates}, case["ended"]

    def test_at_the_next_node(self) -> None:
        soft, ended = self.places("--down cp1 --fails a=cp2 --temporary a")
        self.assertEqual((soft["a"], soft["b"], ended), (("cp1@h", None, "cp1@h"), ("cp2@h", "cp2@h", "cp2@h"), []))
        hard, ended = self.places("--down cp1 --fails a=cp2")
        self.assertEqual((hard["a"], hard["b"], ended), (("cp1@h", None, "cp1@h"), ("cp2@h", "cp3@h", "cp3@h"), ["cp2@h"]))
        row = next(each for each in self.json("--down cp1 --fails a=cp2")["cases"][0]["applications"] if each["application"] == "b")
        self.assertEqual((row["how"], row["milliseconds"], row["longest_outage"]), ("failover", 900, 600))

    def test_in_a_tuple(self) -> None:
        self.config.write_text(TUPLE)
        for words, ended in (("--temporary a", []), ("", ["cp2@h"])):
            self.assertEqual(self.places(f"--down cp1 --fails a=cp2 {words}"), ({"a": ("cp1@h", None, "cp1@h")}, ended))
        self.assertEqual(self.places("--down cp1 --fails a=cp3")[0]["a"], ("cp1@h", "cp2@h", "cp1@h"))

    def test_at_a_node_that_comes_back(self) -> None:
        for words, ended in (("--temporary a", []), ("", ["cp1@h"])):
            self.assertEqual(self.places(f"--down cp1 --fails a=cp1 {words}"), ({"a": ("cp1@h", "cp2@h", None), "b": ("cp2@h",) * 3}, ended))

    def test_a_node_of_a_later_group_waits_for_the_one_that_failed(self) -> None:
        words = "--down cp1 cp3 --back cp3 --fails a=cp2"
        self.assertEqual(self.places(f"{words} --temporary a")[0]["a"], ("cp1@h", None, None))
        self.assertIn("cp3@h waits for cp2@h, where a failed, to start it: without end", self.ask(f"{words} --temporary a").output)
        self.assertEqual(self.places(words)[0]["a"], ("cp1@h", None, "cp3@h"))

    def test_a_node_of_a_tuple_waits_for_all_of_the_list(self) -> None:
        self.config.write_text(TUPLE.replace("[cp1@h,{cp2@h,cp3@h}]", "[{cp1@h,cp3@h},cp2@h]"))
        said = self.ask("--down cp1 cp3 --back cp1 --fails a=cp2 --temporary a")
        self.assertRegex(said.output, r"a +cp1 +- +fails at cp2 +300 ms +-\n")
        self.assertIn("cp1@h waits for cp2@h, where a failed, to start it: without end", said.output)

    def test_what_is_printed(self) -> None:
        said = self.ask("--fails a=cp2 b=cp2 --temporary b")
        self.assertEqual(said.output.splitlines()[0], "2 of 3 losses leave an application nowhere; otherwise the longest outage is 75.6 s.")
        self.assertRegex(said.output, r"\ncp1 +a +cp1 +- +fails at cp2 +300 ms +cp1\n")
        self.assertRegex(said.output, r"\ncp2 +b +cp2 +cp3 +failover +600 ms +0.6 to 75.6 s +fails at cp2\n")
        self.assertIn("- a fails to start at cp2@h: OTP tries no other node, so a runs nowhere, and cp2@h ends, since a is permanent.\n", said.output)
        self.assertIn("- b fails to start at cp2@h, for which another node has stopped it: OTP tries no other node", said.output)
        self.assertNotIn("a without cp1", said.output)
        page = self.ask("--fails a=cp2 b=cp2 --temporary b -o -").output
        self.assertIn('class="gone"', page)
        self.assertIn(">nowhere: fails at cp2</td>", page)
        self.assertIn("then nowhere: fails at cp2</td>", page)

    def test_a_start_that_is_never_tried(self) -> None:
        said = self.ask("--down cp1 --fails b=cp3")
        self.assertIn("- No loss and no return here starts b at cp3@h: that failure isn't seen.\n", said.output)
        self.assertEqual([note["id"] for note in self.json("--down cp1 --fails b=cp3")["notes"]].count("NeverTried"), 1)

    def test_others_are_as_without_it(self) -> None:
        for number in range(COUNT):
            random = Random(f"fails {number}")
            self.config.write_text(random_config(random))
            plain = self.json("")
            pairs = [(fate["application"], place["node"]) for case in plain["cases"] for fate in case["applications"] for place in fate["list"]]
            if not pairs:
                continue
            app, node = random.choice(pairs)
            failing = self.json(f"--fails {app}={node}")
            for one, other in zip(plain["cases"], failing["cases"]):
                places = [(fate["then"], fate["back"]) for fate in one["applications"] if fate["application"] == app]
                if node not in places[0]:
                    with self.subTest(number=number, app=app, node=node, down=one["down"], text=self.config.read_text()):
                        self.assertEqual(one["applications"], other["applications"])

    def test_with_a_new_configuration(self) -> None:
        new = self.config.parent / "new.config"
        new.write_text(TEXT.replace("cp1@h,cp2@h,cp3@h]},{b", "cp1@h,cp3@h]},{b"))
        said = self.ask(f"--then {new} --down cp1 --fails a=cp2 --temporary a")
        self.assertRegex(said.output, r"~ a +cp1 down +nowhere -> cp3")

    def test_wrong_use(self) -> None:
        rows = (
            ("--fails a", "takes APP=NODE"),
            ("--fails x=cp1", "no application x"),
            ("--fails a=cp9", "no node cp9"),
            ("--fails b=cp1", "isn't in the list of b"),
            ("--temporary a", "wants --fails"),
            ("--fails a=cp2 --takes 100", "can't stand beside --takes"),
            ("--split cp1 --fails a=cp2", "can't stand beside --fails"),
        )
        for words, part in rows:
            said = self.ask(words)
            self.assertEqual((said.status, part in said.errors), (2, True), (words, said))
