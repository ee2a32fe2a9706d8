"""Files that `distac` accepts, but with which a node of OTP doesn't boot or isn't waited for."""

from __future__ import annotations

from typing import Iterator

from distac_view.common.diagnostics import Remark, place_of
from distac_view.common.names import bare_name, bare_names, name_of
from distac_view.common.texts import cut, listed, shown
from distac_view.reading.configuration import Checked
from distac_view.reading.equal_times import CURE, Pair, pairs_that_hang
from distac_view.reading.erlang_reader import decoded
from distac_view.reading.erlang_terms import Atom, Term, Way, spot_of, term_of
from distac_view.reading.erlang_tokens import Kind, Misread, Token, byte_tokens
from distac_view.reading.sections import Sections, twice_in, wrong_part
from distac_view.reading.source_file import SourceFile, plain_file

SYNC_LISTS = ("sync_nodes_mandatory", "sync_nodes_optional")
TWICE = "{} stands twice in its section: OTP doesn't boot with that; take one out"


def boot_warnings(checked: Checked, path: str) -> Iterator[Remark]:
    """All of OTP's objections to a file that `distac` accepts, by the reader of `gather`."""
    file = plain_file(path, checked.text)
    sections = Sections(file.text)
    yield from not_erlang(file)
    yield from zero_sync_time(checked, file, sections)
    yield from twice_in(file, sections, TWICE)
    yield from own_file(checked, file, sections)
    yield from equal_times(checked)


def not_erlang(file: SourceFile) -> Iterator[Remark]:
    """A text that Erlang can't read, or whose sections OTP refuses."""
    try:
        items = term_of(decoded(file.source))
    except Misread as misread:
        yield file.remark(misread.place, "NotErlang", f"Erlang doesn't read this file: {misread.sentence}")
        return
    for number, item in enumerate(items if isinstance(items, list) else []):
        wrong = next(wrong_terms(item), None)
        if wrong is not None:
            sentence = "OTP doesn't boot with this: a section is {APPLICATION,[{PARAMETER,VALUE}]}, and each PARAMETER a name"
            yield file.remark(spot_of(file.text).at((number, *wrong)), "BadSection", sentence)


def wrong_terms(section: Term) -> Iterator[Way]:
    """The ways to the faults in a pair that should be an application with a list of parameters."""
    parameters = section[1] if isinstance(section, tuple) else None
    if not isinstance(parameters, list):
        yield (1,)
        return
    for number, each in enumerate(parameters):
        if not (isinstance(each, tuple) and len(each) == 2 and isinstance(each[0], Atom)):
            yield (1, number, *wrong_part(each))


def zero_sync_time(checked: Checked, file: SourceFile, sections: Sections) -> Iterator[Remark]:
    if checked.configuration.sync_timeout == "0":
        sentence = "with {sync_nodes_timeout,0} no node boots in OTP: write 1 or more, or take it out"
        yield file.remark(sections.of_parameter("sync_nodes_timeout"), "ZeroSyncTime", sentence)


def own_file(checked: Checked, file: SourceFile, sections: Sections) -> Iterator[Remark]:
    """A sync list that lacks a single node: it is that node's own file, as in the manual, and not one for all nodes."""
    configuration = checked.configuration
    waited_for = {*configuration.mandatory, *configuration.optional}
    missing = [node for node in configuration.nodes if node not in waited_for]
    if not waited_for or len(missing) != 1:
        return
    place = min(filter(None, map(sections.of_parameter, SYNC_LISTS)), default=0)
    what = f"{shown(bare_name(missing[0]))} runs applications and is in no sync list: no node waits for it"
    cure = "if this is its own file, add it to its list, or make one of the files of all nodes by distac-view gather"
    yield file.remark(place, "OwnFile", f"{what}; {cure}")


def equal_times(checked: Checked) -> Iterator[Remark]:
    """Applications that OTP may fail to restart, with one warning per time."""
    by_time: dict[int, list[Pair]] = {}
    for pair in pairs_that_hang(checked.configuration):
        by_time.setdefault(pair.one.timeout, []).append(pair)
    for pairs in by_time.values():
        yield equal_times_remark(checked, pairs)


def equal_times_remark(checked: Checked, pairs: list[Pair]) -> Remark:
    """The remark on applications with the same time."""
    pair = pairs[0]
    names = [each.name for each in checked.configuration.applications if any(each in (other.one, other.other) for other in pairs)]
    what = f"{cut(shown(listed(bare_names(names))), 200)} have the same time and may run at {shown(bare_name(pair.node))} together"
    sentence = f"{what}: if it goes down, OTP 25 may hang and restart only one of them; {CURE}"
    token = token_of_entry(checked.text, names[-1])
    return Remark(place_of(checked.text, token.start), "EqualTimes", sentence, tuple(names))


def token_of_entry(text: bytes, app: str) -> Token:
    """The name of an application in its entry of `distributed`, six brackets deep."""
    depth, before = 0, ""
    for token in byte_tokens(text):
        depth += {"[": 1, "{": 1, "]": -1, "}": -1}.get(token.written, 0)
        if depth == 6 and before == "{" and token.is_name and name_of(token.written) == app:
            return token
        before = token.written
    return Token(Kind.STOP, 0, 0, "")
