"""`what-if --split`: the applications of each side of a split, and the rest once it is healed."""

from random import Random
from typing import Any, Iterator

from support import InRoom, Said, distac, view
from test_what_if import random_config
from distac_view.asking.snapshots import page_of

FOUR = (
    "[{kernel,[{distributed,[{a1,400,[c1@h,c2@h,c3@h,c4@h]},{a2,700,[c3@h,c1@h,c4@h,c2@h]},"
    "{a3,900,[c1@h,{c2@h,c3@h},c4@h]},{a4,100,[c2@h,c1@h]}]},{net_ticktime,20}]}]."
)
NODES = ("c1@h", "c2@h", "c3@h", "c4@h")
LISTS = {"a1": NODES, "a2": NODES, "a3": NODES, "a4": NODES[:2]}
COUNT = 25
FIRST = (
    "3 of 4 applications run more than once while the split lasts: a1, a2 and a3.\n"
    "Nodes are shown without @h.\nthe split lasts longer than 900 ms\nside "
)


class Splits(InRoom):
    def setUp(self) -> None:
        super().setUp()
        self.config = self.write("cluster.config", FOUR)

    def ask(self, split: str, *words: str) -> Said:
        return view("what-if", str(self.config), "--split", *split.split(), *words)

    def json(self, split: str, *words: str) -> Any:
        return self.answer(0, "what-if", str(self.config), "--split", *split.split(), *words)

    def places(self, split: str, *words: str) -> "list[dict[str, str | None]]":
        """The place of each application on each side."""
        return [{fate["application"]: fate["then"] for fate in part["applications"]} for part in self.json(split, *words)["parts"]]

    def test_two_sides(self) -> None:
        one, other = self.places("c1 c2 / c3 c4")
        self.assertEqual(one, {"a1": "c1@h", "a2": "c1@h", "a3": "c1@h", "a4": "c2@h"})
        self.assertEqual(other, {"a1": "c3@h", "a2": "c3@h", "a3": "c3@h", "a4": None})
        answer = self.json("c1@h c2@h / c3 c4")
        healed = {each["application"]: (each["copies"], each["kept"], each["term"], each["back"]) for each in answer["healed"]}
        self.assertEqual(healed["a1"], (["c1@h", "c3@h"], "c3@h", 2, "c1@h"))
        self.assertEqual(healed["a2"], (["c1@h", "c3@h"], "c1@h", 2, "c3@h"))
        self.assertEqual(healed["a4"], (["c2@h"], "c2@h", 1, "c2@h"))
        times = {fate["application"]: (fate["how"], fate["milliseconds"]) for fate in answer["parts"][1]["applications"]}
        self.assertEqual(times, {"a1": ("failover", 400), "a2": ("stays", None), "a3": ("failover", 900), "a4": ("nobody", None)})
        ids = [note["id"] for note in answer["notes"]]
        self.assertEqual(ids, ["RunsTwice", "OtpKeepsBoth", "HealedByBoots", "NotOnSide", "SplitNoticed", "TupleLoad", "Overlapping"])

    def test_the_table(self) -> None:
        said = self.ask("c1 c2 / c3 c4")
        self.assertTrue(said.output.startswith(FIRST), said.output)
        for row in ("c1 c2  a2           c3      c1    failover  700 ms", "       + 3 stay", "       a4           c2      -     nobody"):
            self.assertIn(f"\n{row}\n", said.output)
        self.assertRegex(said.output, r"\na1 +c1 c3 +c3 +2 +c1\n")
        self.assertIn("\n+ 1 as before\n", said.output)
        self.assertIn("after 15 to 25 s (net_ticktime 20)", said.output)
        self.assertNotIn("+ ", self.ask("c1 c2 / c3 c4", "--all").output)

    def test_nodes_that_no_side_names_are_one_more(self) -> None:
        self.assertEqual(self.json("c1 c2")["parts"], self.json("c1 c2 / c3 c4")["parts"])
        parts = self.json("c1 c3 / c2")["parts"]
        self.assertEqual([part["nodes"] for part in parts], [["c1@h", "c3@h"], ["c2@h"], ["c4@h"]])

    def test_of_equal_claims_the_later_name_is_kept(self) -> None:
        healed = self.json("c1 c3 / c2 / c4")["healed"][0]
        self.assertEqual((healed["copies"], healed["kept"]), (["c1@h", "c2@h", "c4@h"], "c4@h"))

    def test_where_applications_run_now(self) -> None:
        one, other = self.places("c1 c2 / c3 c4", "--now", "a1=c4", "a3=c3")
        self.assertEqual((one["a1"], one["a2"], one["a3"]), ("c1@h", None, "c1@h"))
        self.assertEqual((other["a1"], other["a2"], other["a3"]), ("c3@h", None, "c3@h"))

    def test_a_node_that_is_off(self) -> None:
        now = self.config.parent / "now.txt"
        now.write_text("c1@h a1 a3\nc2@h a4\nc3@h a2\n")
        parts = self.json("c1 / c2 c3 c4", "--now", str(now))["parts"]
        self.assertEqual([part["nodes"] for part in parts], [["c1@h"], ["c2@h", "c3@h"]])

    def test_each_side_is_as_if_the_others_were_down(self) -> None:
        for number in range(COUNT):
            random = Random(f"split {number}")
            self.config.write_text(random_config(random))
            nodes = self.answer(0, "what-if", str(self.config))["nodes"]
            if len(nodes) < 2:
                continue
            side = sorted(random.sample(nodes, random.randrange(1, len(nodes))))
            other = [node for node in nodes if node not in side]
            with self.subTest(number=number, side=side, text=self.config.read_text()):
                answer = self.json(" ".join([*side, "/", *other]))
                for part, down in zip(answer["parts"], (other, side)):
                    alone = self.answer(0, "what-if", str(self.config), "--down", *down)["cases"][0]
                    kept = ("application", "now", "then", "how", "milliseconds", "list")
                    self.assertEqual(*([{name: fate[name] for name in kept} for fate in each["applications"]] for each in (part, alone)))

    def test_the_way_out_that_is_documented_leads_there(self) -> None:
        for split in ("c1 c2 / c3 c4", "c1 c3 / c2 / c4", "c1 / c2 c3 c4", "c4 c1 / c2 c3"):
            healed = self.json(split)["healed"]
            script = self.config.parent / "split.distac"
            script.write_text("\n".join([FOUR, "--", *opening(), *split_lines(split), *way_out(healed), "page c1@h", ""]))
            said = view("play", str(script), "--plain")
            self.assertEqual(said.status, 0, said)
            page = page_of(distac().sim(said.output.encode()).lines[-14:])
            self.assertEqual({app: held.runs_at for app, held in page.held.items()}, {each["application"]: each["back"] for each in healed}, split)

    def test_wrong_use(self) -> None:
        for split, words, part in (
            ("c1 / c1 c2", (), "names c1@h twice"),
            ("c1 c2 c3 c4", (), "two sides at least"),
            ("/", (), "two sides at least"),
            ("c9 / c1", (), "has no node c9"),
            ("c1 / c2", ("--down", "c1"), "--split can't stand beside --down"),
            ("c1 / c2", ("--takes", "5"), "--split can't stand beside --takes"),
            ("c1 / c2", ("--then", str(self.config)), "--split can't stand beside --then"),
        ):
            said = self.ask(split, *words)
            self.assertEqual((said.status, said.output, part in said.errors), (2, "", True), said)


def opening() -> Iterator[str]:
    """All nodes come up, and all applications run."""
    yield from (f"boot {node} 0" for node in NODES)
    yield from ["share", "share", *(f"start c1@h {app} {node}" for app, nodes in LISTS.items() for node in nodes)]
    for _ in range(5):
        yield from ["share", *(f"tick {node} 0" for node in NODES)]
    yield from ["share", "share"]


def split_lines(split: str) -> Iterator[str]:
    """Each side declares all others down, and waits. Then the split is healed."""
    sides = [[f"{name}@h" for name in side.split()] for side in split.split(" / ")]
    for side in sides:
        yield from (f"down {side[0]} {node}" for node in NODES if node not in side)
        for moment in (0, 0, 100, 400, 700, 900, 900, 900):
            yield from [*([f"tell {' '.join(side)}"] * 2 if len(side) > 1 else []), *(f"tick {node} {moment}" for node in side)]
    yield from ["share", "share"]


def way_out(healed: "list[dict[str, Any]]") -> Iterator[str]:
    """The procedure of docs/OPERATORS.md, "After a split"."""
    for node in NODES:
        yield from [f"crash {node}", f"boot {node} 1000", "share", "share"]
    for each in healed:
        yield from [f"start {each['kept']} {each['application']} {each['kept']}", f"tick {each['kept']} 1000", "share"]
    yield from (f"start c1@h {app} {node}" for app, nodes in LISTS.items() for node in nodes)
    for _ in range(4):
        yield from ["share", "share", *(f"tick {node} 2000" for node in NODES)]
    yield from ["share", "share"]
