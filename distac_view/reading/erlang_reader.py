"""Two readers of configuration files: Erlang itself, if installed, and one of our own."""

from __future__ import annotations

import os
import re
import shutil
import subprocess
import tempfile
from pathlib import Path
from typing import Callable, Union

from distac_view.common.problems import Problem
from distac_view.common.texts import shown
from distac_view.reading.erlang_terms import Term, term_of
from distac_view.reading.erlang_tokens import Misread

Read = Union[Term, Misread]
Reader = Callable[["list[str]"], "list[Read]"]

SECONDS = 120
LATIN = re.compile(rb"%.*coding[ \t]*[:=][ \t]*latin-?1", re.IGNORECASE)

# Reads each file as the application controller reads that of -config, and prints its term, or the place and kind of its
# fault.
PROGRAM = """\
#!/usr/bin/env escript
main([Folder | Names]) ->
    ok = io:setopts([{encoding, unicode}]),
    [io:put_chars([answer(filename:join(Folder, Name)), $\\n]) || Name <- Names].

answer(File) ->
    {ok, Bytes} = file:read_file(File),
    Text = unicode:characters_to_list(Bytes) ++ " ",
    case erl_scan:tokens([], Text, {1, 1}) of
        {done, {ok, Tokens, _}, Rest} -> parsed(erl_parse:parse_term(Tokens), Rest);
        {done, {error, Info, _}, _} -> fault(Info);
        {done, {eof, _}, _} -> "end";
        {more, _} -> "end"
    end.

parsed({ok, Term}, Rest) ->
    case erl_scan:string(Rest) of
        {ok, [], _} -> io_lib:format("term ~tw.", [Term]);
        _ -> "behind"
    end;
parsed({error, Info}, _) -> fault(Info).

fault({{Line, Column}, Module, What}) ->
    Sentence = unicode:characters_to_list(Module:format_error(What)),
    io_lib:format("fault ~w ~w ~ts", [Line, Column, re:replace(Sentence, "\\\\s+", " ", [global, unicode, {return, list}])]);
fault(_) -> "end".
"""
ANSWER = re.compile(r"fault (\d+) (\d+) (.*)\Z")


def decoded(source: bytes) -> str:
    """The text of a file: UTF-8, unless a comment in its first two lines says otherwise."""
    try:
        return source.decode(encoding_of(source))
    except UnicodeDecodeError as error:
        before = source[: error.start].decode("utf-8")
        raise Misread(len(before), "the file isn't UTF-8 here, and says no other encoding in its first two lines") from error


def decoded_anyway(source: bytes) -> str:
    """The text of a file, with invalid bytes as characters."""
    return source.decode(encoding_of(source), "surrogateescape")


def encoding_of(source: bytes) -> str:
    """The encoding of a file: Latin-1 if a comment in the first two lines says so."""
    return "latin-1" if any(LATIN.search(line) for line in source.split(b"\n", 2)[:2]) else "utf-8"


def read_by_own(texts: list[str]) -> list[Read]:
    """Texts by our own reader."""
    found: list[Read] = []
    for text in texts:
        try:
            found.append(term_of(text))
        except Misread as misread:
            found.append(misread)
    return found


def has_erlang() -> bool:
    """Whether Erlang's scripts can be run here."""
    return shutil.which("escript") is not None


def read_by_erlang(texts: list[str]) -> list[Read]:
    """Texts by Erlang itself, all at once, because its start takes longer than reading."""
    with tempfile.TemporaryDirectory(prefix="distac-view-") as room:
        program = Path(room) / "reader.escript"
        program.write_text(PROGRAM, "utf-8")
        names = [str(number) for number in range(len(texts))]
        for name, text in zip(names, texts):
            (Path(room) / name).write_bytes(text.encode("utf-8"))
        answers = run_escript([str(program), room, *names], room).split("\n")[:-1]
    if len(answers) != len(texts):
        raise Problem(f"escript answered {len(answers)} of {len(texts)} files: try --reader own")
    return [read_of(answer, text) for answer, text in zip(answers, texts)]


def run_escript(words: list[str], folder: str) -> str:
    """The output of an Erlang script. The environment's flags for nodes are left out."""
    escript = shutil.which("escript")
    if escript is None:
        raise Problem("escript isn't in PATH: install Erlang, or take --reader own")
    surroundings = {name: value for name, value in os.environ.items() if not re.match(r"ERL_\w*FLAGS\Z", name)}
    surroundings["ERL_CRASH_DUMP_SECONDS"] = "0"
    try:
        nothing = subprocess.DEVNULL
        done = subprocess.run([escript, *words], cwd=folder, env=surroundings, stdin=nothing, capture_output=True, timeout=SECONDS, check=False)
    except subprocess.TimeoutExpired as error:
        raise Problem(f"escript didn't end within {SECONDS} seconds: try --reader own") from error
    except OSError as error:
        raise Problem(f"{escript} can't be run: {error.strerror or error}") from error
    if done.returncode:
        last = shown((done.stderr.decode("utf-8", "replace").splitlines() or [""])[-1])
        raise Problem(f"escript ended with status {done.returncode}{f' ({last})' if last else ''}: try --reader own")
    return done.stdout.decode("utf-8", "replace")


def read_of(answer: str, text: str) -> Read:
    """The term of an answer, or the text's fault, in the words of our own reader if that doesn't read it either."""
    if answer.startswith("term "):
        return term_of(answer[len("term ") :])
    own = read_by_own([text])[0]
    return own if isinstance(own, Misread) else misread_of(answer, text)


def misread_of(answer: str, text: str) -> Misread:
    """The fault in Erlang's own words."""
    found = ANSWER.match(answer)
    if found:
        return Misread(place_at(text, int(found[1]), int(found[2])), f"Erlang doesn't read it: {found[3]}")
    if answer == "behind":
        return Misread(len(text.rstrip()), "something stands behind the first full stop, and one term is wanted")
    return Misread(len(text.rstrip()), "the full stop at the end is missing")


def place_at(text: str, line: int, column: int) -> int:
    """The character of a line and a column, or the end of the text."""
    start = 0
    for _ in range(line - 1):
        start = text.find("\n", start) + 1
    return min(start + column - 1, len(text))


READERS: dict[str, Reader] = {"erl": read_by_erlang, "own": read_by_own}


def reader_named(name: str | None) -> Reader:
    """A reader by its name, by default Erlang if installed."""
    return READERS[name or ("erl" if has_erlang() else "own")]
