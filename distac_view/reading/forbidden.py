"""Permissions at single nodes: `gather` writes them as comments above its configuration, and questions read them.

A configuration of `distac` forbids an application at all nodes or at none. A booting node forbids these to itself.
"""

from __future__ import annotations

import re
from typing import Iterator

from distac_view.common.diagnostics import Remark, place_of
from distac_view.common.names import bare_name, name_of
from distac_view.common.texts import bytes_of, shown, text_of
from distac_view.reading.configuration import Checked

NAME = r"(?:'[^'\n]*'|[a-z][A-Za-z0-9_@]*)"
REMEMBERED = re.compile(rf"^%+ *forbidden (?P<app>{NAME}) at (?P<node>{NAME})\s*$", re.MULTILINE)


def comment_of(app: str, node: str) -> str:
    """The comment that an application is forbidden at a node."""
    return f"%% forbidden {app} at {node}"


def unknown_in(checked: Checked) -> Iterator[Remark]:
    """The remarks on such comments with an unknown application, or with a node outside its list."""
    known = forbidden_in(checked)
    for found in REMEMBERED.finditer(text_of(checked.text)):
        if (name_of(found["node"]), name_of(found["app"])) not in known:
            node, app = (shown(bare_name(name_of(found[part]))) for part in ("node", "app"))
            sentence = f"{node} is in no list of an application {app}: this comment forbids nothing"
            yield Remark(place_of(checked.text, len(bytes_of(found.string[: found.start("app")]))), "UnknownForbidden", sentence)


def forbidden_in(checked: Checked) -> list[tuple[str, str]]:
    """The applications forbidden at nodes by comments: pairs of a node and an application of its own."""
    lists = {each.name: each.nodes for each in checked.configuration.applications}
    pairs = [(name_of(found["node"]), name_of(found["app"])) for found in REMEMBERED.finditer(text_of(checked.text))]
    return [(node, app) for node, app in dict.fromkeys(pairs) if node in lists.get(app, [])]
