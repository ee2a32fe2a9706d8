"""Checks that the names, paths and calls cited in documents exist."""

import os
import pathlib
import re
import subprocess
from typing import Dict, FrozenSet, Iterator, List, NamedTuple, Set

from checks.library.contracts import Sources
from checks.library.spans import SPAN

NAME = re.compile(r"(?<![\\\w])[A-Za-z_][A-Za-z0-9_]{3,}")
PATH = re.compile(r"(?<![\w/:.-])(?:\.\/)?((?:[\w.-]+/)+[\w.-]*|[\w-]+\.(?:md|py|rt|antt|txt))(?![\w/])")
# a path in a command, and a section that is cited, with its document
COMMANDED = re.compile(r"(?<![\w/.-])(?:\./)?((?:examples|models|checks|distac_view)/[\w./-]*\w)")
CITED = re.compile(r"\"([A-Z][^\"]{3,60})\"\s+in\s+(docs/\w+\.md)")
# names that documents use and no file of the repository contains, each with its meaning
OUTSIDE: Dict[str, str] = {
    "HashMap": "a type of Rust that isn't used",
    "smallvec": "a library of Rust that isn't used",
    "lemma": "a subcommand of rt",
    "plant": "a subcommand of rt",
    "tidy": "a subcommand of rt",
    "mismatched": "a word of the compiler",
    "sha256sum": "a command of the system",
    "Shop": "a name that somebody may give an application",
    "nodedown": "a message of Erlang",
    "dac8208d650f15bf": "the sum of the toolchain's logic",
}
# folders without sources
IGNORED = frozenset((".git", "out", "__pycache__"))
# parts of paths that are placeholders
STANDS_FOR = frozenset(("NAME", "CRATE", "PATH", "FILE", "FOLDER"))
# words in capitals that are placeholders
PLACEHOLDER = re.compile(r"(?<![\w])[A-Z]{2,}(?![\w])")


class Line(NamedTuple):
    """A line of a document, outside code blocks."""

    file: pathlib.Path
    number: int
    text: str

    def place(self, root: pathlib.Path) -> str:
        return f"{self.file.relative_to(root)}:{self.number}"


def files_of(root: pathlib.Path) -> List[pathlib.Path]:
    """The files tracked by git, and new ones that it doesn't ignore. Without git, or in a copy that is no clone or
    another user's, they are all files but those that git would ignore."""
    words = ["git", "-C", str(root), "ls-files", "--cached", "--others", "--exclude-standard", "-z"]
    try:
        ran = subprocess.run(words, stdout=subprocess.PIPE, stderr=subprocess.DEVNULL, check=False)
        listed = ran.stdout.decode("utf-8", errors="surrogateescape").split("\0") if ran.returncode == 0 else all_below(root)
    except FileNotFoundError:
        listed = all_below(root)
    return [root / one for one in listed if one and (root / one).is_file()]


def all_below(root: pathlib.Path) -> List[str]:
    """All files, without the folders that .gitignore names, and without git's own."""
    found: List[str] = []
    for folder, folders, names in os.walk(str(root)):
        folders[:] = sorted(one for one in folders if one not in IGNORED)
        found += (os.path.relpath(os.path.join(folder, name), str(root)) for name in sorted(names))
    return found


class Documents:
    """All documents, and all other files."""

    def __init__(self, root: pathlib.Path) -> None:
        self.root = root
        self.files = files_of(root)
        pages = [file for file in self.files if file.suffix == ".md"]
        self.lines = [line for file in pages for line in lines_of(file)]
        self.code = [line for file in pages for line in lines_of(file, of_code=True)]

    def words(self) -> FrozenSet[str]:
        """All words of other files, and the parts of all paths."""
        words: Set[str] = set()
        for file in self.files:
            words.update(re.findall(r"\w+", str(file.relative_to(self.root))))
            if file.suffix != ".md":
                words.update(re.findall(r"\w+", file.read_text(encoding="utf-8", errors="replace")))
        return frozenset(words)


def lines_of(file: pathlib.Path, of_code: bool = False) -> Iterator[Line]:
    """The lines of a document outside code blocks, or inside."""
    is_code = False
    for number, text in enumerate(file.read_text(encoding="utf-8").split("\n"), 1):
        if text.startswith("```"):
            is_code = not is_code
        elif is_code == of_code:
            yield Line(file, number, text)


def name_faults(documents: Documents) -> Iterator[str]:
    """Names in backticks that occur in no file."""
    words = documents.words()
    for line in documents.lines:
        for span in SPAN.findall(line.text):
            for name in NAME.findall(span):
                known = name in words or name in OUTSIDE or PLACEHOLDER.fullmatch(name)
                is_beginning = name.endswith("_") and any(word.startswith(name) for word in words)
                if not known and not is_beginning:
                    yield f"{line.place(documents.root)}: no file has the name {name}"


def is_there(documents: Documents, line: Line, path: str) -> bool:
    """Whether a path exists from the top, from the document's folder, from a crate, or from a crate's specs/."""
    root = documents.root
    if "out" in path.split("/") or STANDS_FOR.intersection(re.split(r"[/.]", path)):
        return True
    if (root / path).exists() or (line.file.parent / path).exists():
        return True
    crates = root / "crates"
    below = [one for pattern in ("*", "*/src", "*/specs") for one in crates.glob(pattern)]
    folders = (root / one for one in ("distac_view", "models", "checks/library"))
    return any((one / path).exists() for one in (*below, *folders))


def path_faults(documents: Documents) -> Iterator[str]:
    """Paths that don't exist."""
    tops = {one.name for one in documents.root.iterdir()} | {"src", "specs", "proofs", "must-fail"}
    for line in documents.lines:
        for path in PATH.findall(re.sub(r"https?://\S+|www\.\S+", " ", line.text)):
            is_path = path.split("/")[0] in tops if "/" in path else True
            if is_path and not is_there(documents, line, path.rstrip(".")):
                yield f"{line.place(documents.root)}: there is no {path}"


def command_faults(documents: Documents) -> Iterator[str]:
    """Examples, models and checks that commands in code blocks name and that don't exist."""
    for line in documents.code:
        for path in COMMANDED.findall(line.text):
            if not is_there(documents, line, path):
                yield f"{line.place(documents.root)}: there is no {path}"


def section_faults(documents: Documents) -> Iterator[str]:
    """Sections that a document cites, as ("Sizes" in docs/OPERATORS.md), and that don't exist."""
    text_of = {line.file: "" for line in documents.lines}
    for line in documents.lines:
        text_of[line.file] += f"{line.text}\n"
    for file, text in text_of.items():
        for match in CITED.finditer(text):
            title, page = " ".join(match[1].split()), match[2]
            cited = documents.root / page if page else file
            if not re.search(rf"^##+ {re.escape(title)}$", text_of.get(cited, ""), re.MULTILINE):
                yield f"{file.relative_to(documents.root)}:{text[: match.start()].count(chr(10)) + 1}: {page or 'it'} has no section {title}"


def calling_faults(root: pathlib.Path, sources: Sources) -> Iterator[str]:
    """A crate's public calls that its CALLING.md doesn't name, and calls named there that don't exist."""
    for page in sorted(root.glob("crates/*/CALLING.md")):
        named = set(SPAN.findall(page.read_text(encoding="utf-8")))
        own = [one for one in sources.functions if one.crate == page.parent.name and one.public and one.name not in ("drop", "from")]
        for one in own:
            name = "::".join(part for part in (one.of, one.name) if part)
            if not named & {name, "::".join((*one.modules, name))}:
                yield f"{page.relative_to(root)}: lacks {name}"
        every = {"::".join(part for part in (one.of, one.name) if part) for one in sources.functions}
        for name in sorted(named):
            if re.fullmatch(r"[A-Z]\w+::[a-z]\w*", name) and name not in every:
                yield f"{page.relative_to(root)}: there is no call {name}"
