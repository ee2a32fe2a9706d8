#!/usr/bin/env python3
"""Random configuration texts: valid ones, near ones, and faults of each kind.

The same seed and number give the same text.

Usage: python3 random_texts.py SEED NUMBER
"""

from __future__ import annotations

import sys
from collections.abc import Callable
from random import Random
from typing import List

from streams import print_input

Tokens = List[bytes]

NODES = (b"c1@h", b"c2@h", b"c3@h", b"a@b", b"b@h", b"'n-1@h.example'", b"'N'", b"''", b"'fun'", b"z9@Z_", b"'c1@h'")
APPS = (b"a", b"b", b"myapp", b"'my app'", b"'b'", b"kernel", b"x_1", b"'\xc3\xa9'", b"true", b"'Q'", b"fun_")
NUMBERS = (b"0", b"5000", b"-0", b"007", b"4294967295", b"1", b"-00", b"0000000000000000000012")
BAD_NUMBERS = (b"-1", b"4294967296", b"99999999999999999999999", b"-4294967296", b"1.5", b"2#1", b"1_0", b"1.", b"-")
STRINGS = (b'"x.log"', b'""', b'"a\\"b"', b'"\\\\"', b'"%"', b'"\n"', b'"\xff"')
BAD_STRINGS = (b'"""', b'"\\^a"', b'"', b'"\\"', b'"\\^', b'"a"""', b'""""')
BAD_ATOMS = (b"fun", b"'a\\'", b"'a\n'", b"'\x7f'", b"'a", b"'\\", b"A", b"_x", b"@a", b"fun a:b/1", b"'\x1f", b"\xe4")
STRAYS = (b";", b":", b"=", b"<", b"<<", b"#", b"$a", b"+1", b"~", b"|", b"(", b")", b"/", b"\x80", b"\xff", b"\x7f")
MARKS = (b"[", b"]", b"{", b"}", b",", b".", b". ", b".%", b".a")
WORDS = tuple(
    b"kernel 'kernel' distributed permissions sync_nodes_mandatory sync_nodes_optional sync_nodes_timeout infinity true false "
    b"'false'".split()
)
BLANKS = (b" ", b"\n", b"\t", b"\r\n", b"\x00", b"\x20\x20", b"%% note\n", b"% [ { \"\n", b"%\n")
ANY_TOKEN = NODES + APPS + NUMBERS + BAD_NUMBERS + STRINGS + BAD_STRINGS + BAD_ATOMS + STRAYS + MARKS * 3 + WORDS


def parted(items: list[Tokens]) -> Tokens:
    tokens: Tokens = []
    for item in items:
        tokens += ([b","] if tokens else []) + item
    return tokens


def listed(items: list[Tokens]) -> Tokens:
    return [b"[", *parted(items), b"]"]


def tuple_of(items: list[Tokens]) -> Tokens:
    return [b"{", *parted(items), b"}"]


def named(random: Random, kind: str, most: int) -> list[bytes]:
    """Distinct names, a few chosen ones or many made-up ones."""
    pool = list(NODES[:-1] if kind == "node" else APPS)
    if kind == "app" and random.random() < 0.8:
        pool.remove(b"'b'")
    if random.random() < 0.15:
        pool += [b"%s%d@x" % (kind.encode(), number) for number in range(most)]
    return random.sample(pool, min(len(pool), random.choice((1, 1, 2, 3, 3, 4, 6, most))))


def term(random: Random, depth: int = 0) -> Tokens:
    roll = random.random()
    if depth > 4 or roll < 0.5:
        return [random.choice(random.choice((APPS, NUMBERS, STRINGS, NODES)))]
    if roll < 0.6:
        return [random.choice(STRINGS) for _ in range(random.randint(1, 3))]
    items = [term(random, depth + 1) for _ in range(random.randint(0, 3))]
    return listed(items) if random.random() < 0.5 else tuple_of(items)


def node_list(random: Random, nodes: list[bytes]) -> Tokens:
    """A list of some nodes, some of them in tuples."""
    left = random.sample(nodes, random.randint(1, len(nodes)))
    items: list[Tokens] = []
    while left:
        count = random.choice((1, 1, 2, 3, 5))
        group, left = left[:count], left[count:]
        plain = len(group) == 1 and random.random() < 0.6
        items.append(group if plain else tuple_of([[node] for node in group]))
    return listed(items)


def entry(random: Random, app: bytes, nodes: list[bytes]) -> Tokens:
    wait = [[random.choice(NUMBERS)]] if random.random() < 0.5 else []
    return tuple_of([[app], *wait, node_list(random, nodes)])


def permission(random: Random, apps: list[bytes]) -> Tokens:
    """A permission, of a listed application or another."""
    app = random.choice(apps) if random.random() < 0.8 else random.choice(APPS)
    return tuple_of([[app], [random.choice((b"true", b"false", b"false", b"'true'"))]])


def parameters(random: Random) -> list[Tokens]:
    nodes, apps = named(random, "node", 12), named(random, "app", 60)
    found = [tuple_of([[b"distributed"], listed([entry(random, app, nodes) for app in apps])])]
    if random.random() < 0.5:
        count = random.randint(0, 4)
        found.append(tuple_of([[b"permissions"], listed([permission(random, apps) for _ in range(count)])]))
    for name in (b"sync_nodes_mandatory", b"sync_nodes_optional"):
        if random.random() < 0.4:
            some = [[random.choice(nodes)] for _ in range(random.randint(0, 3))]
            found.append(tuple_of([[name], listed(some)]))
    if random.random() < 0.4:
        wait = random.choice((b"infinity", b"'infinity'", *NUMBERS))
        found.append(tuple_of([[b"sync_nodes_timeout"], [wait]]))
    for _ in range(random.choice((0, 0, 0, 1, 2))):
        found.append(tuple_of([[random.choice((b"logger_level", b"'f'", b"b"))], term(random)]))
    random.shuffle(found)
    return found


def valid_tokens(random: Random) -> Tokens:
    """The tokens of a text that is probably valid."""
    kernel = random.choice((b"kernel", b"kernel", b"'kernel'"))
    sections = [tuple_of([[kernel], listed(parameters(random))])]
    for _ in range(random.choice((0, 0, 0, 1, 2))):
        sections.append(tuple_of([[random.choice((b"sasl", b"'my lib'", b"b"))], term(random)]))
    random.shuffle(sections)
    return [*listed(sections), b"."]


def with_blanks(random: Random, tokens: Tokens) -> bytes:
    """The tokens as a text, separated by blanks."""
    rate = random.choice((0.0, 0.02, 0.3))
    text = b"".join(token + (random.choice(BLANKS) if random.random() < rate else b"") for token in tokens)
    return text + random.choice((b"", b"\n", b"\n\n", b" %", b"% end"))


def changed_token(random: Random, tokens: Tokens) -> Tokens:
    """The tokens with one removed, doubled, swapped, inserted or replaced by another."""
    at = random.randrange(len(tokens))
    before, token, after = tokens[:at], tokens[at], tokens[at + 1 :]
    roll = random.randrange(6)
    if roll == 0:
        return before + after or tokens
    if roll == 1:
        return [*before, token, token, *after]
    if roll == 2:
        return [*before, random.choice(ANY_TOKEN), *after]
    if roll == 3:
        return [*before, random.choice(ANY_TOKEN), token, *after]
    if roll == 4:
        return [*before, random.choice(tokens), *after]
    return [*before, *after[:1], token, *after[1:]]


def group_at(tokens: Tokens, at: int) -> int:
    """The end of the group of the opening bracket at a place."""
    depth = 0
    for place in range(at, len(tokens)):
        depth += (tokens[place] in (b"[", b"{")) - (tokens[place] in (b"]", b"}"))
        if depth == 0:
            return place + 1
    return len(tokens)


def perhaps_string(random: Random) -> Tokens:
    found: list[Tokens] = [[], [random.choice(STRINGS + BAD_STRINGS)]]
    return random.choice(found)


def changed_group(random: Random, tokens: Tokens) -> Tokens:
    """The tokens with one list or tuple emptied, doubled, replaced by another, or with something inserted."""
    places = [at for at, token in enumerate(tokens) if token in (b"[", b"{")]
    if not places:
        return tokens
    at = random.choice(places)
    past = group_at(tokens, at)
    group, after = tokens[at:past], tokens[past:]
    other = random.choice(places)
    inner: list[bytes] = random.choice([group[1:-1], [], [*group[1:-1], b",", *group[1:-1]]])
    changed = random.choice(
        (
            [group[0], *inner, *group[-1:]],
            [*group, b",", *group],
            [random.choice(STRINGS + BAD_STRINGS), *perhaps_string(random)],
            tokens[other : group_at(tokens, other)],
            [random.choice(NODES + APPS + NUMBERS)],
        )
    )
    return [*tokens[:at], *changed, *after]


def changed_like(random: Random, tokens: Tokens) -> Tokens:
    """The tokens with a name or a number replaced by another."""
    places = [at for at, token in enumerate(tokens) if token in NODES + APPS + NUMBERS]
    if not places:
        return tokens
    at = random.choice(places)
    token = tokens[at]
    if token in NUMBERS:
        changed = random.choice(NUMBERS + BAD_NUMBERS)
    else:
        changed = random.choice(NODES if b"@" in token else APPS)
    return [*tokens[:at], changed, *tokens[at + 1 :]]


def changed_byte(random: Random, text: bytes) -> bytes:
    """The text with one byte removed, inserted or changed, or with its end cut off."""
    at = random.randrange(len(text) + 1)
    roll = random.randrange(5)
    if roll == 0:
        return text[:at]
    if roll == 1:
        return text[:at] + text[at + 1 :]
    byte = bytes((random.choice((random.randrange(256), *b"[]{},.'\"%\\-0a_#^")),))
    return text[:at] + byte + text[at + (roll == 2) :]


def too_many_nodes(random: Random) -> bytes:
    """Sixty-four nodes or sixty-five, over lists of nodes and nodes to wait for."""
    nodes = [b"n%d@h" % number for number in range(random.choice((64, 65)))]
    random.shuffle(nodes)
    cut = random.randint(1, len(nodes))
    entries = listed([tuple_of([[b"a"], listed([[node] for node in nodes[:cut]])])])
    waits = listed([[node] for node in nodes[cut:] + random.sample(nodes, 3)])
    found = [tuple_of([[b"distributed"], entries]), tuple_of([[b"sync_nodes_optional"], waits])]
    random.shuffle(found)
    return with_blanks(random, [*listed([tuple_of([[b"kernel"], listed(found)])]), b"."])


def too_many_apps(random: Random) -> bytes:
    """Sixty-four applications or sixty-five, sometimes with a repeated one."""
    apps = [b"app%d" % number for number in range(random.choice((64, 65)))]
    if random.random() < 0.3:
        apps[random.randrange(len(apps))] = b"app0"
    random.shuffle(apps)
    entries = listed([entry(random, app, list(NODES[:3])) for app in apps])
    return with_blanks(random, kernel_of([tuple_of([[b"distributed"], entries])]))


def kernel_of(found: list[Tokens]) -> Tokens:
    """A file with only these parameters of the kernel."""
    return [*listed([tuple_of([[b"kernel"], listed(found)])]), b"."]


def long_name(random: Random) -> bytes:
    """A name of 255 or 256 bytes, read or skipped."""
    name = random.choice((b"%s", b"'%s'")) % (b"n" * random.choice((255, 256)))
    tokens = valid_tokens(random)
    places = [at for at, token in enumerate(tokens) if token in NODES + APPS + WORDS]
    tokens[random.choice(places)] = name
    return with_blanks(random, tokens)


def deep_term(random: Random) -> bytes:
    """Brackets 64 or 65 deep, in a skipped parameter."""
    count = random.choice((59, 60, 61))
    opening = [random.choice((b"[", b"{")) for _ in range(count)]
    closing = [b"]" if bracket == b"[" else b"}" for bracket in reversed(opening)]
    found = [tuple_of([[b"deep"], opening + closing])]
    found.append(tuple_of([[b"distributed"], listed([entry(random, b"a", list(NODES[:2]))])]))
    random.shuffle(found)
    return with_blanks(random, kernel_of(found))


def long_text(random: Random) -> bytes:
    """A text of nearly as many bytes as are read, or of a few more."""
    text = with_blanks(random, valid_tokens(random))
    room = random.choice((65_535, 65_536, 65_537, 65_600, 70_000)) - len(text)
    filling = random.choice((b" ", b"\n", b"\x80", b"["))
    return filling * room + text if random.random() < 0.5 else text + b"%" + filling * (room - 1)


def long_number(random: Random) -> bytes:
    """A number of very many digits, read or skipped."""
    number = random.choice((b"", b"-")) + random.choice((b"0", b"9")) * random.choice((9, 10, 11, 5000)) + b"5"
    tokens = valid_tokens(random)
    places = [at for at, token in enumerate(tokens) if token in NUMBERS] or [0]
    tokens[random.choice(places)] = number
    return with_blanks(random, tokens)


def no_applications(random: Random) -> bytes:
    found = [one for one in parameters(random) if b"distributed" not in one]
    if random.random() < 0.5:
        found.append(tuple_of([[b"distributed"], listed([])]))
    nothing: list[bytes] = []
    return with_blanks(random, random.choice((kernel_of(found), [b"[", b"]", b"."], nothing)))


def valid(random: Random) -> bytes:
    """A text that is probably valid."""
    return with_blanks(random, valid_tokens(random))


def near(random: Random) -> bytes:
    """A valid text with one token or group changed, or a few."""
    tokens = valid_tokens(random)
    for _ in range(random.choice((1, 1, 1, 2, 4))):
        tokens = random.choice((changed_token, changed_group, changed_like))(random, tokens)
    return with_blanks(random, tokens)


def emptied(random: Random) -> bytes:
    """A valid text with one of its innermost lists or tuples emptied."""
    tokens = valid_tokens(random)
    places = [at for at, token in enumerate(tokens) if token in (b"[", b"{")]
    inmost = [at for at in places if tokens[at + 1] not in (b"[", b"{")]
    at = random.choice(inmost or places)
    past = group_at(tokens, at)
    return with_blanks(random, [*tokens[: at + 1], *tokens[past - 1 :]])


def broken(random: Random) -> bytes:
    """A valid text or a near one with one byte changed, or a few."""
    text = valid(random) if random.random() < 0.7 else near(random)
    for _ in range(random.choice((1, 1, 1, 2, 4))):
        text = changed_byte(random, text)
    return text


def soup(random: Random) -> bytes:
    """Any tokens in any order."""
    return with_blanks(random, [random.choice(ANY_TOKEN) for _ in range(random.randint(0, 12))])


MAKERS: tuple[tuple[Callable[[Random], bytes], int], ...] = (
    (valid, 25),
    (near, 35),
    (broken, 25),
    (emptied, 3),
    (soup, 3),
    (too_many_nodes, 2),
    (too_many_apps, 1),
    (long_name, 3),
    (deep_term, 2),
    (long_text, 1),
    (long_number, 2),
    (no_applications, 1),
)


def random_text(seed: int, number: int) -> bytes:
    random = Random(f"text {seed} {number}")
    makers, weights = zip(*MAKERS)
    made: bytes = random.choices(makers, weights)[0](random)
    return made


if __name__ == "__main__":
    sys.exit(print_input("random_texts.py", random_text))
