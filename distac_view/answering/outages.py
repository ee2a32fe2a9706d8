"""The time until a lost node is noticed, and the outage of its applications."""

from __future__ import annotations

import re

from distac_view.reading.config_warnings import Source
from distac_view.reading.erlang_tokens import Kind

USUAL_SECONDS = 60
REMEMBERED = re.compile(rb"^%+ *net_ticktime (?P<seconds>[0-9]{1,9})\s*$", re.MULTILINE)


def tick_time_of(text: bytes) -> int:
    """Kernel's net_ticktime in seconds: from the file or a comment of `gather`, or else OTP's default."""
    values = Source(text).values_of("net_ticktime")
    if len(values) == 1 and values[0].kind is Kind.NUMBER and len(values[0].written) < 10 and int(values[0].written) > 0:
        return int(values[0].written)
    found = REMEMBERED.search(text)
    return int(found["seconds"]) if found else USUAL_SECONDS


def notice_range(tick_time: int) -> tuple[int, int]:
    """The least and most milliseconds until a host that dies silently is noticed."""
    return tick_time * 750, tick_time * 1250


def longest_outage(wait: int, tick_time: int, takes: int | None = None) -> int:
    """An application's longest outage: its wait after a dead host is noticed, or until its node is back."""
    noticed = wait + notice_range(tick_time)[1]
    return noticed if takes is None else min(noticed, takes)


def outage_of(wait: int, tick_time: int, takes: int | None = None) -> str:
    """An application's outage: its wait if only its node ends, and up to the noticing of a dead host more."""
    return f"{seconds_of(wait)} to {seconds_of(longest_outage(wait, tick_time, takes))} s"


def seconds_of(milliseconds: int) -> str:
    return f"{milliseconds / 1000:.3f}".rstrip("0").rstrip(".")
