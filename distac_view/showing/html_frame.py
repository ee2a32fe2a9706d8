"""The frame of all pages: one file without a script, colors for light and dark, a style, and the answer's origin."""

from typing import Iterable

from distac_view.common.output import Output
from distac_view.common.writing import PIPE, write_whole
from distac_view.showing.html_elements import paragraphs, text_in
from distac_view.showing.provenance import Asked

LIGHT = """color-scheme: light; --back: #ffffff; --text: #1c2024; --soft: #59626c; --stripe: #f4f6f8; --line: #7d8791;
  --up: #3f8f57; --said: #ffc46b; --dead: #a31515; --share: #5b6b7b; --message: #3b4a5a; --bad: #b3261e; --rule: #cdd3d9; --bar: 44%;"""
DARK = """color-scheme: dark; --back: #15181c; --text: #e4e7eb; --soft: #9fa9b4; --stripe: #1c2127; --line: #76828d;
  --up: #5fb57a; --said: #8a5a12; --dead: #ff6b5a; --share: #a9b7c5; --message: #c3ced9; --bad: #ff8a7c; --rule: #3a434d; --bar: 58%;"""
PAPER = LIGHT.replace("#1c2024", "#000000").replace("#59626c", "#333333").replace("#f4f6f8", "#ffffff").replace("#cdd3d9", "#999999")

STYLE = f":root {{ {LIGHT} }}\n@media (prefers-color-scheme: dark) {{ :root {{ {DARK} }} }}" + """
body { margin: 0; padding: 16px; background: var(--back); color: var(--text); font: 15px/1.45 system-ui, sans-serif;
  -webkit-text-size-adjust: 100%; text-size-adjust: 100%; overflow-wrap: anywhere; }
h1 { font-size: 21px; margin: 0 0 2px; line-height: 1.25; }
h2 { font-size: 17px; margin: 22px 0 6px; }
h3 { font-size: 15px; margin: 12px 0 2px; }
p { margin: 4px 0; max-width: 60em; }
.origin { color: var(--soft); }
.no { color: var(--bad); font-weight: bold; }
table { border-collapse: collapse; }
td, th { padding: 2px 14px 2px 0; text-align: left; vertical-align: top; overflow-wrap: normal; }
td.end, th.end { text-align: right; font-variant-numeric: tabular-nums; }
.wide { overflow-x: auto; margin: 0 0 12px; }
.wide :is(td, th) { white-space: nowrap; }
.wide tbody th { white-space: normal; }
.wide tr > :last-child { white-space: normal; min-width: 9em; }
.wraps :is(td, th), .wraps tr > :last-child { white-space: normal; min-width: 0; }
.wide thead th { border-bottom: 2px solid var(--line); vertical-align: bottom; }
.wide tbody :is(td, th) { border-bottom: 1px solid var(--rule); font-weight: normal; }
.wide tr > :first-child { position: sticky; left: 0; background: var(--back); z-index: 1; }
ul { margin: 4px 0; padding-left: 20px; max-width: 60em; }
li { margin: 0 0 4px; }
dl { margin: 4px 0; display: grid; grid-template-columns: max-content 1fr; gap: 2px 14px; }
dt { color: var(--soft); grid-column: 1; }
dd { margin: 0; grid-column: 2; }
.step dl { grid-template-columns: 14em 1fr; }
@media screen and (max-width: 600px) {
  body { font-size: 16px; }
  dl { display: block; }
  dd { margin: 0 0 6px; }
  .wide :is(table, tbody, tr) { display: block; }
  .wide thead { position: absolute; width: 1px; height: 1px; overflow: hidden; clip-path: inset(50%); }
  .wide tbody tr { border-bottom: 1px solid var(--rule); padding: 6px 0; }
  .wide tbody :is(td, th), .wide tr > :last-child { display: inline-block; min-width: 0; white-space: normal; }
  .wide tbody :is(td, th) { padding: 0 14px 2px 0; border: 0; }
  .wide tbody th { display: block; position: static; font-weight: bold; text-align: left; }
  .wide :is(td, th):empty { display: none; }
  .wide [data-head]::before { content: attr(data-head) ":\\00a0"; content: attr(data-head) ":\\00a0" / ""; color: var(--soft); font-weight: normal; }
}
@media print {
  @page { size: A4; margin: 14mm; }
  :root { PAPER }
  body { padding: 0; font-size: 10pt; }
  h1 { font-size: 15pt; }
  h2 { font-size: 12pt; break-after: avoid; }
  h3 { font-size: 10pt; break-after: avoid; }
  .wide { overflow: visible; }
  .wide tr > :first-child { position: static; }
  .wide :is(td, th), .wide tr > :last-child { padding-right: 8px; white-space: normal; min-width: 0; font-size: 9pt; }
  thead { display: table-header-group; }
  tr, li, dd, .step { break-inside: avoid; }
}
""".replace("PAPER", PAPER)

# A browser that obeys this runs no script and fetches nothing, whatever a file contained.
POLICY = "default-src 'none'; style-src 'unsafe-inline'"


def page_of(title: str, asked: Asked, inside: str, more: str = "", style: str = "") -> str:
    """A whole page: its title, its time, further sentences, its parts, and its command."""
    metadata = '<meta charset="utf-8"><meta name="viewport" content="width=device-width, initial-scale=1">'
    metadata += f'<meta http-equiv="Content-Security-Policy" content="{POLICY}"><title>{text_in(title)}</title>'
    origin = f'<p class="origin">Asked at {text_in(asked.moment)}</p>'
    return (
        f'<!DOCTYPE html>\n<html lang="en"><head>{metadata}<style>{STYLE}{style}</style></head>\n<body>'
        f"<header><h1>{text_in(title)}</h1>{origin}{paragraphs([more] if more else [])}</header>\n"
        f"<main>{inside}\n{asked.section}</main></body></html>\n"
    )


def write_page(path: str, text: str, output: Output, inputs: Iterable[str]) -> None:
    """Writes a page to a file, except over an input, or to standard output for a dash."""
    data = text.encode("utf-8", "replace")
    if path == PIPE:
        output.raw(data)
    else:
        write_whole(path, data, inputs)
