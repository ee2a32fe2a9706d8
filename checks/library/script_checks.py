"""Checks the form of shell and Python scripts with the tools available."""

import ast
import os
import pathlib
import re
import shutil
import subprocess
from typing import Iterator, List, Sequence, Tuple

# the oldest Python for the files of a folder or for a file at the top; all others need 3.10
OLDEST: Tuple[Tuple[str, Tuple[int, int]], ...] = (
    ("distac_view/tests", (3, 10)),
    ("distac_view", (3, 8)),
    ("distac-view", (3, 8)),
    ("models", (3, 8)),
    ("checks/library", (3, 8)),
    ("checks/__init__.py", (3, 8)),
    ("checks/check-documents", (3, 8)),
    ("checks/dead-names", (3, 8)),
    ("checks/lines", (3, 8)),
    ("believe", (3, 8)),
)
# the oldest mypy with correct results, that of Debian 12
OLDEST_MYPY = (1, 0)


def first_line(file: pathlib.Path) -> str:
    """The first line of a file, if it is text."""
    with file.open("rb") as opened:
        return opened.readline(200).decode("utf-8", errors="replace")


def shell_scripts(files: Sequence[pathlib.Path]) -> List[pathlib.Path]:
    return [one for one in files if not one.suffix and "bash" in first_line(one)]


def python_scripts(files: Sequence[pathlib.Path]) -> List[pathlib.Path]:
    """The Python files, with the scripts at the top."""
    return [one for one in files if one.suffix == ".py" or not one.suffix and "python" in first_line(one)]


def output_of(words: Sequence[str], root: pathlib.Path, **variables: str) -> Tuple[int, str]:
    """The status and output of a command in a folder, with additional variables."""
    environment = {**os.environ, **variables}
    pipe = subprocess.PIPE
    done = subprocess.run(words, cwd=str(root), env=environment, stdout=pipe, stderr=subprocess.STDOUT, check=False)
    return done.returncode, done.stdout.decode("utf-8", errors="replace")


def bash_faults(root: pathlib.Path, files: Sequence[pathlib.Path]) -> Iterator[str]:
    """The errors of `bash -n`. For some of them its status is 0."""
    for script in shell_scripts(files):
        status, said = output_of(["bash", "-n", str(script)], root)
        if status != 0 or said:
            yield said.strip() or f"{script}: bash -n ended with status {status}"


def shellcheck_faults(root: pathlib.Path, files: Sequence[pathlib.Path]) -> Iterator[str]:
    scripts = [str(one.relative_to(root)) for one in shell_scripts(files)]
    status, said = output_of(["shellcheck", "--severity=warning", "--format=gcc"] + scripts, root)
    if status != 0:
        yield from said.strip().split("\n")


def oldest_for(name: str) -> Tuple[int, int]:
    """The oldest Python that must read a file."""
    return next((version for start, version in OLDEST if name == start or name.startswith(start + "/")), (3, 10))


def python_faults(root: pathlib.Path, files: Sequence[pathlib.Path]) -> Iterator[str]:
    """The files that the grammar of their oldest Python rejects."""
    for script in python_scripts(files):
        name = str(script.relative_to(root))
        try:
            ast.parse(script.read_text(encoding="utf-8"), filename=name, feature_version=oldest_for(name))
        except SyntaxError as fault:
            yield f"{name}:{fault.lineno}: Python {'.'.join(map(str, oldest_for(name)))}: {fault.msg}"


def type_faults(root: pathlib.Path) -> Iterator[str]:
    """The errors of mypy in the files of pyproject.toml, and then in the models and the tests of distac-view, which run
    from their folders."""
    models, tests = root / "models", root / "distac_view" / "tests"
    here = ["mypy", "--config-file", str(root / "pyproject.toml")]
    yield from faults_of_types(*output_of(here, root))
    yield from faults_of_types(*output_of(here + names_in(models), models))
    path = os.pathsep.join((str(root), str(models)))
    yield from faults_of_types(*output_of(here + ["--explicit-package-bases"] + names_in(tests), tests, MYPYPATH=path))


def names_in(folder: pathlib.Path) -> List[str]:
    """The Python files in a folder."""
    return sorted(one.name for one in folder.glob("*.py"))


def faults_of_types(status: int, said: str) -> Iterator[str]:
    """The faults in mypy's output."""
    if status != 0:
        yield from (line for line in said.strip().split("\n") if not line.startswith("Found "))


def is_here(tool: str) -> bool:
    return shutil.which(tool) is not None


def why_not(tool: str) -> str:
    """Why scripts aren't checked by a tool, or empty."""
    return "" if is_here(tool) else f"{tool} isn't in PATH"


def why_no_types() -> str:
    """Why mypy isn't used, or empty."""
    needed = ".".join(map(str, OLDEST_MYPY))
    if not is_here("mypy"):
        return f"mypy {needed} or later isn't in PATH"
    _, said = output_of(["mypy", "--version"], pathlib.Path("."))
    found = re.match(r"mypy (\d+)\.(\d+)", said)
    if found is not None and (int(found[1]), int(found[2])) < OLDEST_MYPY:
        return f"this is {said.partition(' (')[0].strip()}, and {needed} or later is needed"
    return ""
