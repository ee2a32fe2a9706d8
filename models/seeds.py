"""The initial inputs of a fuzzer for each command, and the words of its formats.

The inputs are the examples, the rows of examples/rows, and random ones. Those of `feed` are the bytes of packets under
one configuration. The words come from the tables of docs/FORMATS.md and its grammar of configurations.
"""

from __future__ import annotations

import re
from collections.abc import Callable, Iterator

import random_live
import random_scripts
import random_texts
import worked
from check import read_config
from row_files import CHECK, LIVE, SIM, TOP, examples, rows

FORMATS = TOP / "docs" / "FORMATS.md"
PARTED = b"--\n"
# Longer inputs make a fuzzer slow.
MOST_BYTES = 4096
# The configuration for packets.
PACKETS_UNDER = worked.TWO_APPLICATIONS
MARK = read_config(PACKETS_UNDER).mark.to_bytes(8, "big")


# Inputs


def played(command: str) -> Iterator[bytes]:
    return (row.source for read in (examples, rows) for row in read(TOP, command))


def texts() -> Iterator[bytes]:
    yield from played(CHECK)
    yield from (text for text, _ in worked.TEXTS)
    yield from (random_texts.random_text(1, number) for number in range(40))


def scripts() -> Iterator[bytes]:
    """Inputs of `sim`."""
    yield from played(SIM)
    yield from (random_scripts.random_script(1, number) for number in range(40))


def live_scripts() -> Iterator[bytes]:
    yield from played(LIVE)
    yield from (random_live.random_live(1, number) for number in range(25))


def fed_in(source: bytes) -> Iterator[bytes]:
    for digits in re.findall(rb"^feed ((?:[0-9a-f]{2})+)$", source, re.MULTILINE):
        yield bytes.fromhex(digits.decode())


def packets() -> Iterator[bytes]:
    """Packets, with the mark of this configuration."""
    config = read_config(PACKETS_UNDER)
    found = [worked.message_of(config, version) for version in (1, 2)]
    found += [packet for source in (*scripts(), *live_scripts()) for packet in fed_in(source)]
    grown = [source for source in (random_scripts.random_packets(1, number) for number in range(20))]
    found += [packet for source in grown if source.startswith(PACKETS_UNDER) for packet in [*fed_in(source)][::10]]
    yield from (packet[:4] + MARK + packet[12:] if len(packet) >= 12 else packet for packet in found)


SOURCES: dict[str, Callable[[], Iterator[bytes]]] = {
    "check": texts,
    "sim": scripts,
    "live": live_scripts,
    "feed": packets,
    "record": live_scripts,
}


def seeds(command: str) -> list[bytes]:
    """The initial inputs, without duplicates."""
    return [source for source in dict.fromkeys(SOURCES[command]()) if 0 < len(source) <= MOST_BYTES]


# Words


def sections() -> dict[str, str]:
    """The sections of docs/FORMATS.md by their titles."""
    parts = re.split(r"^#+ (.*)$", FORMATS.read_text(), flags=re.MULTILINE)
    return dict(zip(parts[1::2], parts[2::2]))


def spans_of(section: str, columns: int = 1) -> list[str]:
    """The texts in backticks in the first columns of a section's tables."""
    rows = re.findall(r"^\|(.*)\|$", section, re.MULTILINE)
    return [span for row in rows for cell in row.split("|")[:columns] for span in re.findall(r"`([^`]+)`", cell)]


def numbers_in(section: str) -> list[int]:
    """The limits in a section, each with the number above it."""
    powers = [2 ** int(power) for power in re.findall(r"2\^(\d+)", section)]
    written = [int(number.replace(",", "")) for number in re.findall(r"\d{1,3}(?:,\d{3})+", section)]
    return sorted({number + more for number in powers + written for more in (0, 1)})


def words_of_texts(parts: dict[str, str]) -> Iterator[bytes]:
    """The words of configurations: the signs and names of the grammar, without those of its rules."""
    grammar = parts["Shapes"]
    block = grammar.split("```")[1]
    rules = {*re.findall(r"^(\w+) *=", block, re.MULTILINE), *"atom number string fullstop end".split()}
    names = [word for word in re.findall(r"[a-z_]{2,}", block) if word not in rules]
    signs = [*spans_of(parts["Tokens"]), *re.findall(r'"([^"]+)"', block)]
    yield from (word.encode() for word in [*signs, *names])
    yield from (b"%d" % number for number in numbers_in(grammar))


def words_of_lines(parts: dict[str, str], title: str) -> Iterator[bytes]:
    """The words of scripts: those of the tables except placeholders, and limits."""
    words = [word for span in spans_of(parts[title]) for word in span.split()]
    yield from (word.encode() for word in words if word.islower())
    yield from (b"true", b"false", b"\n" + PARTED)
    yield from (b"%d" % number for number in numbers_in(parts["Script lines"]))


def words_of_packets(parts: dict[str, str]) -> Iterator[bytes]:
    """The fields of packets: written bytes, acts and kinds, and limits in each width that holds them."""
    section = parts["State bytes"] + parts["Message bytes"]
    yield from (bytes.fromhex(span) for span in re.findall(r"`((?:[0-9a-f]{2} ?)+)`", section))
    yield from (bytes((number,)) for number in range(8))
    widths = sorted({int(bits) // 8 for bits in re.findall(r"`u(\d+)`", section)})
    for number in [0, 1, 2, *numbers_in(section)]:
        yield from (number.to_bytes(width, "big") for width in widths if number < 256**width)


def words(command: str) -> list[bytes]:
    """The words of a command's inputs, without duplicates."""
    parts = sections()
    found = {
        "check": words_of_texts(parts),
        "sim": words_of_lines(parts, "Script lines"),
        "live": words_of_lines(parts, "`distac live`"),
        "record": words_of_lines(parts, "`distac live`"),
        "feed": words_of_packets(parts),
    }[command]
    return [*dict.fromkeys(found)]


def dictionary(command: str) -> str:
    """The words in AFL++'s format, one per line."""
    spelled = ("".join(f"\\x{byte:02x}" for byte in word) for word in words(command))
    return "".join(f'"{word}"\n' for word in spelled)
