"""The answer of `ends` as a page."""

from typing import Iterator, List, Union

from distac_view.answering.race_ends import End, Reply, notes_on
from distac_view.common.texts import shown
from distac_view.showing.html_elements import Cells, Square, Table, bullets, paragraphs, section, text_in
from distac_view.showing.html_frame import page_of
from distac_view.showing.html_plans import notes_section
from distac_view.showing.print_ends import counted, head_of, line_text, script_head, verdict_of
from distac_view.showing.provenance import Asked


def ends_page(reply: Reply, asked: Asked) -> str:
    glance = section("At a glance", table_of(reply).text if reply.ends else "")
    ends = "".join(section(f"End {number}", "".join(parts_of(reply, number, end))) for number, end in enumerate(reply.ends, 1))
    common = section("In each end" if len(reply.ends) > 1 else "Final pages", bullets(map(line_text, reply.common())))
    return page_of(f"Ends of a race: {asked.files[0].name}", asked, "".join([glance, ends, common, notes_section(notes_on(reply))]), head_of(reply))


def table_of(reply: Reply) -> Table:
    """A row for each end: how often it came, and the lines in which it differs, or that it isn't as expected."""
    rows: List[Cells] = []
    for number, end in enumerate(reply.ends, 1):
        lines = "; ".join(map(line_text, reply.differing(end))) or "the only end"
        said: Union[str, Square] = Square("no", f"{lines} - not as expected") if end.unmet else lines
        rows.append((f"end {number}", str(end.count), said))
    return Table("Each end", ("end", "schedules", "last pages"), rows, range(1, 2), True)


def parts_of(reply: Reply, number: int, end: End) -> Iterator[str]:
    yield paragraphs([f"{counted(end.found.counts)}, {verdict_of(reply, end)}"])
    yield "".join(f'<p class="no">not as expected: {text_in(text)}</p>' for text in end.unmet)
    yield bullets(map(line_text, reply.differing(end)))
    yield paragraphs([script_head(end)])
    yield Table(f"Script of end {number}", ("line", "answer"), [(shown(line), shown(said)) for line, said in end.small.rows]).text
