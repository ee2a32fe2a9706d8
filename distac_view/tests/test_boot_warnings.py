"""Warnings of `check` on files with which a node of OTP doesn't boot, isn't waited for, or hangs."""

from support import InRoom, view

PLACED = "{kernel,[{distributed,[{a,500,[x@h,{y@h,z@h}]},{b,700,[y@h,x@h]}]}%s]}"
SYNC = ",{sync_nodes_optional,[%s]},{sync_nodes_timeout,%s}"
ALL = "x@h,y@h,z@h"
WARNED = (
    (PLACED % (SYNC % (ALL, "0")), "ZeroSyncTime", 'with {sync_nodes_timeout,0} no node boots'),
    (PLACED % (SYNC % (ALL, "-0")), "ZeroSyncTime", ""),
    ("{sasl,[]}," + PLACED % "" + ",{sasl,[]}", "TwiceSection", "the section sasl stands twice"),
    ("{'sasl',[]}," + PLACED % "" + ",{sasl,[{a,b}]}", "TwiceSection", ""),
    (PLACED % ",{net_ticktime,20},{net_ticktime,30}", "TwiceParameter", "net_ticktime stands twice"),
    ("{app,[{p,1},{q,2},{p,3}]}," + PLACED % "", "TwiceParameter", "p stands twice"),
    (PLACED % (SYNC % ("y@h,z@h", "5")), "OwnFile", "x@h runs applications and is in no sync list"),
    ("{app,value}," + PLACED % "", "BadSection", ""),
    ("{app,[value]}," + PLACED % "", "BadSection", ""),
    ("{app,[{receive,1}]}," + PLACED % "", "NotErlang", "receive is a word of Erlang's own"),
    ("{app,[{p,'\u00e9'}]}," + PLACED % "", "", ""),
    ("{app,[{p,\"\\xg\"}]}," + PLACED % "", "NotErlang", "no character has this number"),
    ((PLACED % "").replace("700,[y@h,x@h", "500,[x@h,y@h,z@h"), "EqualTimes", "a and b have the same time and may run at x@h together"),
    ("{kernel,[{distributed,[{a,1,['s@${HOST_A}','s@${HOST_B:-h}']}]}]}", "Template", "s@${HOST_A}' is left of a template"),
)
FINE = (
    PLACED % "",
    PLACED % (SYNC % (ALL, "1")),
    PLACED % (SYNC % ("x@h", "1")),
    "{app,[{p,1},{q,[{p,2},{p,3}]}]},{p,[{p,1}]}," + PLACED % "",
)


class BootWarnings(InRoom):
    """OTP's objections to a file that `distac` accepts."""

    def errors_on(self, sections: str, name: str = "node.config", words: "tuple[str, ...]" = ()) -> str:
        said = view("check", str(self.write(name, f"[\n {sections}].\n")), *words)
        self.assertEqual(said.status, 1 if words and said.errors else 0, said)
        return said.errors

    def test_what_is_warned_of(self) -> None:
        for sections, name, sentence in WARNED:
            with self.subTest(sections=sections):
                errors = self.errors_on(sections, words=("--strict",))
                self.assertEqual(errors.count("node.config:"), int(bool(name)), errors)
                self.assertIn(name, errors)
                self.assertIn(sentence, errors)

    def test_what_is_fine(self) -> None:
        for sections in FINE:
            self.assertEqual(self.errors_on(sections, words=("--strict",)), "", sections)

    def test_sections_of_sys_config(self) -> None:
        """A release makes sys.config of sys.config.src."""
        for name in ("sys.config", "sys.config.src"):
            self.assertEqual(self.errors_on(WARNED[2][0], name), "")

    def test_parameters_of_other_applications(self) -> None:
        """The caret is under kernel's parameter, and not under an earlier one of the same name."""
        rows = (
            ("{app,[{sync_nodes_timeout,7}]}," + PLACED % (SYNC % (ALL, "0")), "ZeroSyncTime", "{sync_nodes_timeout,0"),
            ("{app,[{sync_nodes_optional,[x@h]}]}," + PLACED % (SYNC % ("y@h,z@h", "5")), "OwnFile", "{sync_nodes_optional,[y@h"),
        )
        for sections, name, behind in rows:
            column = len(" ") + sections.index(behind) + len("{") + 1
            self.assertIn(f"node.config:2:{column}: {name}: ", self.errors_on(sections))

    def test_the_caret_stands_under_what_is_no_parameter(self) -> None:
        for section in ("{app, ^value}", "{app,[{a,1}, ^value]}", "{app,[{^1,2}]}", "{app,[{a,[{b}]}, ^{c,d,e}]}"):
            sections = PLACED % "" + ",{other,[]}," + section
            column = len(" ") + sections.index("^") + 1
            self.assertIn(f"node.config:2:{column}: BadSection: ", self.errors_on(sections.replace("^", "")))

    def test_one_warning_for_each_time(self) -> None:
        entries = ["{%s%d,%d,[x@h,{y@h,z@h}]}" % (name, number, 100 * number) for name in "abc" for number in (1, 2)]
        errors = self.errors_on("{kernel,[{distributed,[%s]}]}" % ",".join(entries))
        self.assertEqual(errors.count("EqualTimes"), 2, errors)
        self.assertIn("a1, b1 and c1 have the same time", errors)

    def test_names_without_quotes(self) -> None:
        """A name has quotes only in a cure that shows how to write it."""
        lists = "{'App-1',500,['x-1@h',{'x-2@h','y-1@h'}]},{'App-2',500,['x-1@h',{'x-2@h','y-1@h'}]},{'Lone',1,['x-1@h']}"
        rest = "{permissions,[{'App-3',true}]},{sync_nodes_mandatory,['x-1@h','x-3@h','q-1@far']},{sync_nodes_optional,['y-1@h']}"
        errors = self.errors_on("{kernel,[{distributed,[%s]},%s]}" % (lists, rest) + "].\n%% forbidden 'Lone' at 'x-2@h'\n%%")
        told = [line for line in errors.splitlines() if line.startswith(str(self.room))]
        for name in ("EqualTimes", "SingleNode", "OwnFile", "UnknownPermission", "UnlistedNode", "NearName", "UnknownForbidden"):
            self.assertIn(f": {name}: ", errors)
        for line in told:
            self.assertNotRegex(line.split(": is ")[0], "'[^']+'")
        self.assertIn("x-3@h is in no application's list: is 'x-1@h' meant?", errors)

    def test_control_characters_in_names(self) -> None:
        """The sentence is about the name, even if digits follow the character."""
        path = self.room / "node.config"
        path.write_bytes((PLACED % "").replace("y@h", "'y@10\x0b5.2'", 1).join(("[", "].")).encode())
        said = view("check", str(path))
        self.assertEqual(said.status, 2)
        self.assertIn("Unsupported: names between quotes may hold no backslash, tab or other control character", said.output)

    def test_bytes_that_are_no_text(self) -> None:
        path = self.room / "node.config"
        path.write_bytes(b"[{app,[{p,\"\xff\"}]}," + (PLACED % "").encode() + b"].")
        said = view("check", str(path))
        self.assertEqual(said.status, 0)
        self.assertIn("1:12: NotErlang: Erlang doesn't read this file: the file isn't UTF-8 here", said.errors)
