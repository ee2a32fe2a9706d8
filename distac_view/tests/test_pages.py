"""The pages of `what-if`, `rolling` and `load`: their contents, their places, and that they contain the whole printed
answer."""

from __future__ import annotations

import hashlib
import json
import os
import re
from html import unescape
from html.parser import HTMLParser
from pathlib import Path
from typing import Any
from unittest import mock

from support import EXAMPLES, PROGRAM, InRoom, Said, run_view, view
from distac_view.asking.program import NAMED
from distac_view.common.version import version_line
from distac_view.showing.html_elements import wrapped
from distac_view.showing.provenance import EPOCH

MANUAL = str(EXAMPLES / "manual.config")
FLEET = """[{kernel,[{distributed,[{billing,8000,['shop-1@10.0.0.11',{'shop-2@10.0.0.12',c@h}]},{mail,5000,['shop-2@10.0.0.12',{'shop-1@10.0.0.11',c@h}]},
{reports,5000,[c@h,'shop-1@10.0.0.11']},{audit,5000,['shop-1@10.0.0.11']},{ledger,8000,['shop-1@10.0.0.11',{c@h,'shop-2@10.0.0.12'}]}]},
{sync_nodes_mandatory,[c@h]},{sync_nodes_optional,['shop-1@10.0.0.11','shop-2@10.0.0.12']},{sync_nodes_timeout,3000}]}].
"""
QUESTIONS: tuple[tuple[str, ...], ...] = (
    ("what-if", "FLEET"),
    ("what-if", "FLEET", "--all", "--down", "c", "shop-2", "--back", "shop-2"),
    ("what-if", "FLEET", "--then", "OTHER"),
    ("what-if", "FLEET", "--now", "billing=shop-2", "audit=shop-1"),
    ("rolling", "FLEET", "--drain"),
    ("rolling", "FLEET", "--takes", "6000", "--fail-on", "hang"),
    ("load", "FLEET", "--pairs", "--most", "2", "--fail-on", "lost,load,hang"),
    ("what-if", "FLEET", "--split", "shop-1", "/", "c", "shop-2"),
)
NOON = str(1_800_000_000)


class Text(HTMLParser):
    """The contents of a page: its headings, the cells of its tables by rows, and all of its text."""

    def __init__(self, page: str) -> None:
        super().__init__()
        self.tags: list[str] = []
        self.found: dict[str, list[str]] = {}
        self.rows: list[list[str]] = []
        self.feed(page.replace("<wbr>", "").replace("\u00a0", " ").replace("\u2192", "->"))

    def handle_starttag(self, tag: str, attrs: list[tuple[str, "str | None"]]) -> None:
        """Notes an element."""
        if tag not in ("meta", "br"):
            self.tags.append(tag)
            self.found.setdefault(tag, []).append("")
        if tag == "tr":
            self.rows.append([])
        if tag in ("th", "td"):
            self.rows[-1].append("")

    def handle_endtag(self, tag: str) -> None:
        """Notes the end of one."""
        assert self.tags.pop() == tag, tag

    def handle_data(self, data: str) -> None:
        if self.tags:
            self.found[self.tags[-1]][-1] += data
        if self.tags and self.tags[-1] in ("th", "td"):
            self.rows[-1][-1] += data

    def texts(self, *tags: str) -> list[str]:
        """The texts of the elements of some kinds."""
        return [text for tag in tags for text in self.found.get(tag, [])]


class Pages(InRoom):
    def setUp(self) -> None:
        super().setUp()
        self.write("fleet.config", FLEET)
        self.write("other.config", FLEET.replace("8000", "9000").replace("audit", "mirror").replace("c@h,'shop-1", "'shop-1"))

    def words(self, words: tuple[str, ...]) -> list[str]:
        """A command line with file names."""
        names = {"FLEET": str(self.room / "fleet.config"), "OTHER": str(self.room / "other.config")}
        return [names.get(word, word) for word in words]

    def page(self, *words: str) -> Said:
        """A page on standard output."""
        with mock.patch.dict(os.environ, {EPOCH: NOON}):
            return view(*self.words(words), "-o", "-")

    def asked(self, *words: str) -> dict[str, Any]:
        found: dict[str, Any] = json.loads(view(*self.words(words), "--json").output)
        return found

    def test_it_stands_beside_the_answer(self) -> None:
        for words in QUESTIONS:
            path = self.room / "page.html"
            with mock.patch.dict(os.environ, {EPOCH: NOON}):
                said = view(*self.words(words), "-o", str(path))
            self.assertEqual(said, view(*self.words(words)), words)
            self.assertEqual((self.page(*words).status, self.page(*words).errors), (said.status, said.errors), words)
            text = path.read_text(encoding="utf-8")
            self.assertEqual(self.page(*words).output.replace("-o -", "-o page.html"), text)
            with mock.patch.dict(os.environ, {EPOCH: NOON}):
                self.assertEqual(view(*self.words(words), "--json", "-o", str(path)).output, view(*self.words(words), "--json").output)

    def test_headings(self) -> None:
        for words in QUESTIONS:
            page = self.page(*words).output
            self.assertIn('<html lang="en">', page)
            text = Text(page)
            self.assertEqual(text.texts("title"), text.texts("h1"))
            self.assertIn("fleet.config", text.texts("h1")[0])
            self.assertNotIn("/", text.texts("h1")[0])
            self.assertIn("How this was asked", text.texts("h2"))

    def test_how_it_was_asked(self) -> None:
        for words in QUESTIONS:
            page = self.page(*words).output
            self.assertNotIn(str(self.room), page)
            said = Text(page).texts("dd")[-6:]
            names = [each.replace("FLEET", "fleet.config").replace("OTHER", "other.config") for each in words]
            self.assertIn(" ".join(["distac-view", *names, "-o", "-"]), said)
            self.assertIn("2027-01-15 08:00 UTC", said)
            self.assertIn(version_line(), said)
            for name in ("fleet.config", "other.config"):
                sum_of = hashlib.sha256((self.room / name).read_bytes()).hexdigest()
                self.assertEqual(f"{name}, SHA-256 {sum_of}" in said, name in names, words)

    def test_who_answered(self) -> None:
        said = Text(run_view("load", MANUAL, "-o", "-", "--distac", PROGRAM).output).texts("dd")
        self.assertIn(NAMED, said)
        self.assertIn(f"distac-view load manual.config -o - --distac {Path(PROGRAM).name}", said)
        self.assertIn("the models: nothing of them is proved", Text(run_view("--models", "load", MANUAL, "-o", "-").output).texts("dd"))

    def test_each_note_in_words(self) -> None:
        seen = set()
        for words in QUESTIONS:
            said = Text(self.page(*words).output).texts("li")
            for note in self.asked(*words)["notes"]:
                self.assertIn(note["text"], said, words)
                seen.add(note["id"])
        self.assertLessEqual({"EqualTimes", "CannotComeBack", "NoDrain", "NoRollingChange", "Outage", "NotRunning"}, seen)

    def test_each_row_of_what_if(self) -> None:
        for words in QUESTIONS[:2]:
            printed = view(*self.words(words)).output.split("\n\n")[0].splitlines()
            printed = printed[next(place for place, line in enumerate(printed) if line.startswith("down ")) :]
            rows = [" ".join(cell for cell in row if cell) for row in Text(self.page(*words).output).rows]
            self.assertEqual(rows[-len(printed) :], [" ".join(line.split()) for line in printed], words)

    def test_each_square(self) -> None:
        for words in QUESTIONS[:2]:
            answer = self.asked(*words)
            rows = Text(self.page(*words).output).rows[: len(answer["cases"]) + 2]
            for case, (down, *cells) in zip(answer["cases"], rows[2:]):
                self.assertEqual((down, len(cells)), (f"{' '.join(case['down'])} down", len(case["applications"])))
                for fate, cell in zip(case["applications"], cells):
                    place = fate["then"] or ("nowhere" if fate["now"] else "-")
                    after = f" after {fate['milliseconds'] // 1000} s" if fate["how"] == "failover" and fate["milliseconds"] else ""
                    wanted = place if fate["then"] == fate["now"] or not fate["then"] else f"-> {place}{after}"
                    hangs = ", or OTP hangs" if fate["application"] in case["may_hang"] else ""
                    self.assertEqual(cell, wanted + hangs, (words, fate))

    def test_each_square_of_a_restart(self) -> None:
        for words in QUESTIONS[4:6]:
            answer, (heads, *rows) = self.asked(*words), Text(self.page(*words).output).rows
            self.assertEqual(heads[2:], [f"{number}. {step['node']} restarts" for number, step in enumerate(answer["steps"], 1)])
            for app, place, *squares in rows:
                for step, square in zip(answer["steps"], squares):
                    moves = [move for name in ("drained", "down", "back") for move in step[name] if move["application"] == app]
                    self.assertEqual(square.count("->"), len(moves), (app, square))
                    said = ("nowhere" in square, "down" in square, "hangs" in square)
                    self.assertEqual(said, (app in step["nowhere"], app in step["waiting"], app in step["may_hang"]), square)
                    if moves:
                        place = moves[-1]["to"]
                        self.assertIn(f"-> {place}", square)
                    elif app not in (*step["nowhere"], *step["waiting"]):
                        self.assertEqual(square, place)
                    elif app in step["nowhere"]:
                        place = "-"

    def test_each_square_of_a_split(self) -> None:
        words = QUESTIONS[7]
        answer, (heads, before, *sides) = self.asked(*words), Text(self.page(*words).output).rows
        sides, healed = sides[: len(answer["parts"])], sides[len(answer["parts"])]
        self.assertEqual(healed[1:], [each["back"] for each in answer["healed"]])
        for part, (name, *squares) in zip(answer["parts"], sides):
            self.assertEqual(name, f"side of {' '.join(part['nodes'])}")
            for fate, app, place, square, each in zip(part["applications"], heads[1:], before[1:], squares, answer["healed"]):
                self.assertEqual((fate["application"], fate["now"]), (app, place))
                self.assertEqual(", runs twice" in square, fate["then"] in each["copies"] and len(each["copies"]) == 2)
                self.assertEqual(square.endswith(", or OTP hangs"), fate["application"] in part["may_hang"])
                self.assertIn(fate["then"] or "not here", square)

    def test_the_headlines_come_first(self) -> None:
        for words, count, first in (
            (QUESTIONS[0], 2, "1 of 3 losses leaves an application nowhere; otherwise the longest outage is 83 s."),
            (QUESTIONS[1], 1, "No application is left nowhere; the longest outage is 80 s."),
            (QUESTIONS[4], 1, "1 of 3 steps leaves an application nowhere until its node is back."),
            (QUESTIONS[5], 1, "1 of 3 steps leaves an application nowhere until its node is back; otherwise the longest outage is 6 s."),
            (QUESTIONS[7], 2, "4 of 5 applications run more than once while the split lasts: billing, mail, reports and ledger."),
        ):
            printed = view(*self.words(words)).output.splitlines()
            text = Text(self.page(*words).output)
            self.assertEqual(text.texts("strong"), printed[: len(text.texts("strong"))])
            self.assertEqual((printed[0], len(text.texts("strong"))), (first, count))
            self.assertLess(text.texts("h2").index("At a glance"), 1)

    def test_tables_are_whole_for_all_readers(self) -> None:
        for words in QUESTIONS:
            page = self.page(*words).output
            self.assertNotIn("<script", page)
            for table in re.findall("<table.*?</table>", page, re.DOTALL):
                for tag, role in (("tr", "row"), ("td", "cell"), ("thead", "rowgroup"), ("tbody", "rowgroup"), ("table", "table")):
                    self.assertEqual(len(re.findall(f"<{tag}[ >]", table)), table.count(f'<{tag} role="{role}"'), words)
                self.assertEqual(table.count("<td"), len(re.findall("<td [^>]*(?:data-head|colspan)=", table)), words)
                self.assertTrue(all(re.sub("<[^>]*>", "", cell) for cell in re.findall('<td [^>]*class="(?!end).*?</td>', table)), words)

    def test_each_change(self) -> None:
        words = QUESTIONS[2]
        text = Text(self.page(*words).output)
        printed = view(*self.words(words)).output.split("\n\n")[0].splitlines()
        rows = [" ".join(["~", *row]) for row in text.rows]
        said = [*rows, *text.texts("li"), *(line.rstrip(".") for line in text.texts("p"))]
        self.assertGreater(len(printed), 10)
        self.assertEqual([line for line in printed if " ".join(line.split()) not in said], [])

    def test_each_step(self) -> None:
        for words in QUESTIONS[4:6]:
            answer, text = self.asked(*words), Text(self.page(*words).output)
            self.assertEqual(text.texts("h3"), [f"{number}. {step['node']}" for number, step in enumerate(answer["steps"], 1)])
            said = " ".join(text.texts("dd"))
            for step in answer["steps"]:
                for move in (*step["drained"], *step["down"], *step["back"]):
                    self.assertIn(f"{move['application']} -> {move['to']}", said)
                for names in (step["nowhere"], step["waiting"], step["may_hang"]):
                    self.assertTrue(all(name in said for name in names))
            printed = view(*self.words(words)).output.splitlines()
            paragraphs = text.texts("p")
            self.assertIn(printed[len(text.texts("strong"))], [f"order {order}: {cost}" for order, cost in zip(paragraphs, paragraphs[1:])])
            faults = [line[len("  fault: ") :] for line in printed if line.startswith("  fault: ")]
            self.assertEqual([fault for fault in faults if fault not in text.texts("p")], [])
            self.assertEqual(bool(faults), any(step["barred"] for step in answer["steps"]))

    def test_each_load(self) -> None:
        words = QUESTIONS[6]
        answer, text = self.asked(*words), Text(self.page(*words).output)
        nodes = answer["nodes"]
        self.assertEqual(text.rows[0], ["down", *nodes, "lost"])
        rows = {row[0]: row[1:] for row in text.rows[1:]}
        for loss in answer["losses"][: len(nodes) + 1]:
            counts = {count["node"]: str(count["applications"]) for count in loss["load"]}
            self.assertEqual([cell.strip() for cell in rows[" ".join(loss["down"]) or "-"][:-1]], [counts.get(node, "") for node in nodes])
        for failure in answer["failed"]:
            self.assertIn(f"{failure['what']}: {failure['text']}", text.texts("p"))
        self.assertEqual({failure["what"] for failure in answer["failed"]}, {"lost", "load", "hang"})
        self.assertIn("lost and hang: nothing found", Text(self.page("load", MANUAL, "--fail-on", "lost,hang").output).texts("p"))

    def test_what_is_refused(self) -> None:
        fleet, page = str(self.room / "fleet.config"), self.room / "page.html"
        said = view("load", fleet, "--json", "-o", "-")
        self.assertEqual(said.status, 2)
        self.assertIn("--json and -o - can't stand together", said.errors)
        for words in (("load", fleet), ("rolling", fleet), ("what-if", fleet), ("what-if", fleet, "--split", "c"), ("what-if", MANUAL, "--then", fleet)):
            said = view(*words, "-o", fleet)
            self.assertEqual((said.status, said.output), (2, ""))
            self.assertIn("isn't written over", said.errors)
            self.assertEqual(view(*words, "-o", "/no/such/folder/page.html").status, 2)
        self.assertEqual((self.room / "fleet.config").read_text(), FLEET)
        page.write_text("kept")
        self.write("broken.config", FLEET[:-3])
        self.assertEqual(view("load", str(self.room / "broken.config"), "-o", str(page)).status, 2)
        self.assertEqual(page.read_text(), "kept")

    def test_moments_that_are_none(self) -> None:
        for word in ("", "x", "-1e3", "9" * 40):
            with mock.patch.dict(os.environ, {EPOCH: word}):
                said = view("load", MANUAL, "-o", "-")
            self.assertEqual(said.status, 0, word)
            self.assertRegex(said.output, r"Asked at 20\d\d-\d\d-\d\d \d\d:\d\d UTC")

    def test_narrow_texts(self) -> None:
        for text in ("", "shop1@10.0.0.11", "[a@h,b@h] -> [c]", "x" * 300, "<b>@'&\"", "5 to 80 s", "a -> b after 10 ms"):
            plain = re.sub("<wbr>", "", wrapped(text)).replace("\u00a0", " ").replace("\u2192", "->")
            self.assertEqual(unescape(plain), text)
        self.assertEqual(wrapped("shop1@10.0.0.11"), "shop1@<wbr>10.0.0.11")
        self.assertLessEqual(max(map(len, wrapped("x" * 300).split("<wbr>"))), 12)
        self.assertEqual(wrapped("x" * 24), "x" * 24)
