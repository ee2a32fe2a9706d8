"""Configuration files that nobody means: truncated, nested, with odd bytes and huge numbers."""

from __future__ import annotations

FINE = (
    b"[{kernel,[{distributed,[{a,[x@h]}]},{deep," + b"[" * 3_000 + b"]" * 3_000 + b"}]}].",
    b"[{kernel,[{distributed,[{a,[x@h]}]},{huge,-" + b"9" * 20_000 + b"},{text,\"\0\"}]}].",
)


def hostile_sources() -> list[bytes]:
    """Files that nobody means."""
    placed = b"[{kernel,[{distributed,[{a,%s,[x@h]}]}]}]."
    return [
        *FINE,
        *(b"", b"\0", b"\xff\xfe", b"\xef\xbb\xbf[].", b"[{kernel,[{distributed,[{a,[\xff@h]}]}]}].", b"%% coding: latin-1\n[\xff", b"." * 1_000),
        *(sign * 5_000 for sign in (b"[", b"{", b"<<", b"(", b"#{", b"-")),
        *(b'"' * 5_001, b"'" + b"a" * 70_000 + b"'.", b"$" * 999),
        *(placed % (b"9" * 10_000), placed % b"16#" + b"f" * 100, placed % b"1.0e400", placed % b"'\0'", placed % b"\"\\x{110000}\""),
        *(b"[{kernel,[{distributed,[{'%s',[x@h]}]}]}]." % name for name in (b"a\\n", b"a" * 256, b"\0")),
        *(b"%% distac-view: kernel of x@h" + behind for behind in (b"", b"\n", b"\nok\n")),
        b"[" + b"\"x\"," * 50 + b"{a,[]}].",
        *(b"[[0]].", b"[[1114112]].", b"[\"\xc3\xa9\0\"].", b"[\"../../../no/such\"]."),
    ]
