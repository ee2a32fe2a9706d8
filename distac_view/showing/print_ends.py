"""The answer of `ends` as text."""

from typing import Iterator, Mapping

from distac_view.answering.caveats import below
from distac_view.answering.race_ends import End, PageLine, Reply, notes_on
from distac_view.common.names import bare_names
from distac_view.common.texts import listed, shown


def lines_of(reply: Reply) -> Iterator[str]:
    """The whole answer."""
    yield head_of(reply)
    for number, end in enumerate(reply.ends, 1):
        yield ""
        yield f"end {number}: {counted(end.found.counts)}, {verdict_of(reply, end)}"
        yield from (f"  {line_text(line)}" for line in reply.differing(end))
        yield from (f"  not as expected: {shown(text)}" for text in end.unmet)
        yield f"  {script_head(end)}:"
        yield from (f"    {shown(line)}" for line, _ in end.small.rows)
    if reply.ends:
        yield ""
        yield "in each end:" if len(reply.ends) > 1 else "its final pages:"
        yield from (f"  {line_text(line)}" for line in reply.common())
    yield from below(list(notes_on(reply)))


def head_of(reply: Reply) -> str:
    """What was searched, and how many ends were found."""
    search, ends = reply.search, "1 end" if len(reply.ends) == 1 else f"{len(reply.ends)} ends"
    return f"{counted(reply.counts)} of {search.race.name}, seed {search.seed}: {ends}"


def counted(counts: Mapping[str, int]) -> str:
    """A number of schedules, by kind."""
    total = sum(counts.values())
    kinds = listed([f"{count} {kind}" for kind, count in counts.items() if count])
    return f"{total} schedule{'' if total == 1 else 's'} ({kinds})"


def verdict_of(reply: Reply, end: End) -> str:
    """Whether the end was played."""
    return f"{'played' if end.is_played else 'NOT played'} by {reply.player}"


def script_head(end: End) -> str:
    """How much of its schedule an end needs."""
    bound = "" if end.is_smallest else ", maybe not the fewest"
    return f"by {len(end.small.rows)} of the {len(end.whole.rows)} events of schedule {end.found.shortest}{bound}"


def line_text(line: PageLine) -> str:
    """A line of pages, with the nodes on whose pages it is if others have another one."""
    return shown(line.text) + ("" if line.is_common else f"   (page of {listed(bare_names(line.nodes))})")
