"""Random texts of Erlang's term syntax, as in configuration files."""

from __future__ import annotations

from random import Random

NAMES = ("a", "b@h", "'c d'", "'it\\'s'", "'\\x{e9}\\101\\^a'", "'Été'", "été", "ok", "infinity", "'end'", "x_1@Y")
WHOLE_NUMBERS = ("0", "7", "-3", "- 3", "+5", "1_000", "16#fF", "2#10_01", "36#zZ", "-16#a", "-(4)")
NUMBERS = (*WHOLE_NUMBERS, "1.5", "0.25e-3", "1_0.0_1E+2", "-2.5", "$a", "$\\n", "$ ", "$\\x{263a}", "$'", "-$b", "($c)")
STRINGS = ('""', '"word"', '"a" "b"', '"\\"\\\\\\s"', '"é☺"', '"%no comment"', '"\\x41\\x{42}\\103"', '"line\nline"', '"\\\n"')
BINARIES = ("<<>>", '<<"guest">>', "<<1,2:16,$a>>", '<<"é"/utf8>>', "<<1:8/little-unsigned-integer,(3)>>", "<<<<1>>/binary>>", "<<1.5/float>>")
FUNS = ("fun lists:map/2", "fun 'a b':c/0", "fun m:f/1_0")
CHANGES = (*("", "", "A", "e", "_", "fun", " end ", "\x00", "\u20ac", "\n"), *"[]{},'\"$\\%|.-", "#{", "=>")
BLANKS = ("", "", " ", "\n", "\t", " % a comment with ] and \" and '\n", "\u00a0")


def random_term(random: Random, depth: int) -> str:
    kind = random.randrange(12 if depth else 7)
    if kind < 7:
        return random.choice((NAMES, NUMBERS, STRINGS, BINARIES, FUNS, NAMES, NUMBERS)[kind])
    items = [random_term(random, depth - 1) for _ in range(random.randrange(4))]
    if kind == 7 and items:
        return f"[{spaced(random, items)}{blank(random)}|{blank(random)}{random_term(random, depth - 1)}]"
    if kind == 8:
        pairs = [f"{blank(random)}{item} =>{blank(random)}{random_term(random, depth - 1)}" for item in items]
        return "#{%s}" % ",".join(pairs)
    if kind == 9:
        return f"({blank(random)}{random_term(random, depth - 1)})" if random.random() < 0.3 else "{%s}" % spaced(random, items)
    return f"[{spaced(random, items)}]"


def spaced(random: Random, items: list[str]) -> str:
    """Items separated by commas and blanks."""
    return ",".join(f"{blank(random)}{item}{blank(random)}" for item in items)


def blank(random: Random) -> str:
    """Nothing, a blank or a comment."""
    return random.choice(BLANKS)


def random_file(random: Random) -> str:
    """A configuration file that Erlang reads, with its placement among other parameters."""
    pairs = ["{p%d,%s}" % (number, random_term(random, 4)) for number in range(random.randrange(5))]
    pairs.insert(random.randrange(len(pairs) + 1), "{distributed,[{app,%s,[a@h,{b@h,c@h}]}]}" % random.choice(("5_000", "16#1388", "5000", "+5000")))
    sections = ["{kernel,[%s]}" % spaced(random, pairs), "{other,[{q,%s}]}" % random_term(random, 5)]
    random.shuffle(sections)
    return f"{blank(random)}[{spaced(random, sections)}]{blank(random)}.{random.choice(BLANKS)}"


def changed(random: Random, text: str) -> str:
    """A text with a few changes, possibly unreadable for Erlang."""
    signs = list(text)
    for _ in range(random.randint(1, 3)):
        place = random.randrange(len(signs))
        signs[place : place + random.randrange(3)] = random.choice(CHANGES)
    return "".join(signs)
