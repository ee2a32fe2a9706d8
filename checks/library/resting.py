"""Finds the definitions that a contract rests on: the closure of its clauses' words."""

import re
from typing import Dict, Iterator, List, NamedTuple, Optional, Sequence, Set, Tuple

from checks.library.contracts import Function
from checks.library.modules import CodeType, Definition, Import, Module, Modules, Word

TOKEN = re.compile(r"[^\s(){}\[\],;]+")
BINDER = re.compile(r"[({]((?:[^\s(){}\[\],;:.]+ )+): ")
LAMBDA = re.compile(r"λ ((?:[^\s(){}\[\],;:.]+ ?)+)\.")
FIELD_VALUE = re.compile(r"([{;]\s*)([^\s(){}\[\],;:.=]+)(\s*=\s)")
FIELD = re.compile(r"^\s*pub (?!data |record |mod |use )[^\s:(){}]+ : ", re.MULTILINE)


class Rest(NamedTuple):
    """The definitions and laws that a contract rests on."""

    # in reading order: each after those that it cites
    definitions: Tuple[Definition, ...]
    # laws named by a definition or a clause
    laws: Tuple[Definition, ...]
    types: Tuple[CodeType, ...]


def bound_in(text: str) -> Set[str]:
    """The names that a text binds: after `λ`, and before the colon of a binder."""
    bound = {one for match in LAMBDA.finditer(text) for one in match[1].split()}
    return bound | {one for match in BINDER.finditer(text) for one in match[1].split()}


def patterns_in(name: str, text: str) -> Set[str]:
    """The names bound on the left of a definition's equations."""
    bound: Set[str] = set()
    for line in text.split("\n"):
        left, sign, _ = line.strip().partition(" = ")
        words = TOKEN.findall(left)
        if sign and words and words[0] == name:
            bound |= {one for one in words[1:] if one[0].islower()}
    return bound


def tokens_of(text: str) -> List[str]:
    """The words of a text in order, without comments and names of fields. A word keeps its path."""
    text = re.sub(r"(^|\s)--[^\n]*", " ", text)
    text = FIELD.sub(" ", text)
    text = FIELD_VALUE.sub(r"\1\3", text)
    return [token for token in TOKEN.findall(text) if not token.startswith(".")]


def heads_of(tokens: Sequence[str]) -> Iterator[Tuple[str, Optional[str]]]:
    """Each word with the one after its dot, as in `map.get`. A `¬` or an operator before a word isn't part of it."""
    for token in tokens:
        head, _, rest = token.lstrip("¬").partition(".")
        yield head, rest.split(".")[0] or None


class Scope:
    """The meanings of words in a module, or in a file of code."""

    def __init__(self, modules: Modules, imports: Sequence[Import], own: Optional[Module]) -> None:
        """Takes the imports, and the module itself if it is one of definitions."""
        self.modules = modules
        self.own = own
        self.names: Dict[str, Tuple[Tuple[str, ...], str]] = {}
        self.aliases: Dict[str, Tuple[str, ...]] = {}
        for one in imports:
            if one.names is None:
                self.aliases[one.alias] = one.path
                continue
            for here, there in one.names.items():
                self.names[here] = (one.path, there)

    def meaning(self, word: str, behind: Optional[str]) -> Optional[Word]:
        if self.own is not None:
            found = self.own.definitions.get(word) or self.own.constructors.get(word)
            if found is not None:
                return found
        if word in self.names:
            return self.modules.find(*self.names[word])
        if word in self.aliases and behind is not None:
            return self.modules.find(self.aliases[word], behind)
        return None

    def operators(self, tokens: Sequence[str]) -> Iterator[Tuple[str, str]]:
        """The operators in use, by sign and by name with places."""
        names = list(self.names) + (list(self.own.definitions) if self.own is not None else [])
        for name in names:
            signs = [one for one in name.split("◌") if one]
            if "◌" in name and all(sign in tokens for sign in signs):
                yield signs[0], name

    def library_words(self, text: str, bound: Set[str]) -> Iterator[Tuple[str, str]]:
        """The words of the toolchain's libraries in a text, with their modules."""
        tokens = tokens_of(text)
        signs = dict(self.operators(tokens))
        for word, behind in heads_of(tokens):
            name = signs.get(word, word)
            path, there = self.names.get(name, (self.aliases.get(word, ()), behind or ""))
            if word not in bound and path and there and path[0] not in self.modules.crates.listed:
                yield ".".join(one for one in path if one != "specs"), there

    def cited_in(self, text: str, bound: Set[str]) -> Iterator[Word]:
        """The definitions that a text cites, in its order."""
        tokens = tokens_of(text)
        signs = dict(self.operators(tokens))
        for word, behind in heads_of(tokens):
            if word in bound:
                continue
            found = self.meaning(signs.get(word, word), behind)
            if found is not None:
                yield found


class Resting:
    """Follows the citations of clauses and definitions."""

    def __init__(self, modules: Modules) -> None:
        self.modules = modules
        self._cited: Dict[Definition, Tuple[Word, ...]] = {}

    def cited_by(self, one: Definition) -> Tuple[Word, ...]:
        if one not in self._cited:
            module = self.modules.of_file(one.crate, one.module, one.file)
            assert module is not None
            text = "\n".join(one.under + one.text)
            bound = bound_in(text) | patterns_in(one.name, text)
            scope = Scope(self.modules, module.imports, module)
            found = dict.fromkeys(scope.cited_in(text, bound))
            self._cited[one] = tuple(word for word in found if word != one)
        return self._cited[one]

    def library_of(self, one: Definition) -> Iterator[Tuple[str, str]]:
        """The words of the toolchain's libraries in a definition, with their modules."""
        module = self.modules.of_file(one.crate, one.module, one.file)
        assert module is not None
        text = "\n".join(one.under + one.text)
        yield from Scope(self.modules, module.imports, module).library_words(text, bound_in(text) | patterns_in(one.name, text))

    def cited_by_function(self, function: Function, clause: str = "") -> List[Word]:
        found: Dict[Word, None] = {}
        scope = Scope(self.modules, function.imports, None)
        for one in function.clauses:
            if clause in ("", one.name):
                found.update(dict.fromkeys(scope.cited_in(one.text, bound_in(one.text))))
        return list(found)

    def above(self, one: Definition) -> Set[Word]:
        """All definitions that rest on this one, including itself."""
        citing: Dict[Word, List[Definition]] = {}
        for crate in self.modules.crates.order():
            for other in self.modules.definitions_of(crate):
                for word in self.cited_by(other):
                    citing.setdefault(word, []).append(other)
        found: Set[Word] = {one}
        left: List[Word] = [one]
        while left:
            for other in citing.get(left.pop(), []):
                if other not in found:
                    found.add(other)
                    left.append(other)
        return found

    def promising(self, one: Definition, functions: Sequence[Function]) -> Iterator[str]:
        """The functions with clauses that rest on a definition, each with the names of these clauses."""
        above = self.above(one)
        for each in functions:
            names = dict.fromkeys(
                clause.name for clause in each.clauses if above.intersection(self.cited_by_function(each, clause.name))
            )
            if names:
                listed = ", ".join(name for name in names if name)
                yield "::".join(each.shown()) + (f" ({listed})" if listed else "")

    def under(self, words: Sequence[Word]) -> Rest:
        """All definitions that these rest on, including themselves, each after those that it cites."""
        done: Dict[Word, None] = {}
        begun: Set[Word] = set()
        stack: List[Tuple[Word, bool]] = [(word, False) for word in reversed(words)]
        while stack:
            word, is_over = stack.pop()
            if is_over:
                done[word] = None
                continue
            if word in begun:
                continue
            begun.add(word)
            stack.append((word, True))
            if isinstance(word, Definition) and not word.is_law():
                stack.extend((below, False) for below in reversed(self.cited_by(word)) if below not in begun)
        defined = sorted((word for word in done if isinstance(word, Definition)), key=self.modules.rank)
        return Rest(
            tuple(one for one in defined if not one.is_law()),
            tuple(one for one in defined if one.is_law()),
            tuple(word for word in done if isinstance(word, CodeType)),
        )
