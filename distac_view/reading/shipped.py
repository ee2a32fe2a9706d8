"""The files of a node in the folder of its release: `sys.config` and `vm.args` of the version that starts."""

import os

from distac_view.common.problems import Problem
from distac_view.common.texts import shown

CONFIGS = ("sys.config", "sys.config.src")
ARGUMENTS = ("vm.args", "vm.args.src")
STARTED = "start_erl.data"


def files_of(path: str) -> "list[str]":
    """A file itself, or those of a release in a folder: of the whole release, of its folder `releases`, or of one
    version there."""
    if not os.path.isdir(path):
        return [path]
    folder = version_in(path)
    config = first_of(folder, CONFIGS)
    if not config:
        raise Problem(f"{shown(path)} is a folder, and no release with sys.config or sys.config.src is in it: write the files themselves")
    arguments = first_of(folder, ARGUMENTS)
    return [config, arguments] if arguments else [config]


def version_in(path: str) -> str:
    """The folder of the version that starts: the one that `start_erl.data` names, or the only one."""
    if first_of(path, CONFIGS):
        return path
    inner = os.path.join(path, "releases")
    releases = inner if os.path.isdir(inner) else path
    started = os.path.join(releases, STARTED)
    if os.path.isfile(started):
        with open(started, encoding="utf-8", errors="replace") as file:
            words = file.read(200).split()
        return os.path.join(releases, words[1]) if len(words) == 2 else releases
    versions = [each for each in (os.path.join(releases, name) for name in sorted(os.listdir(releases))) if first_of(each, CONFIGS)]
    if len(versions) > 1:
        raise Problem(f"{shown(releases)} has several versions and no {STARTED}: write the folder of one")
    return versions[0] if versions else releases


def first_of(folder: str, names: "tuple[str, ...]") -> str:
    """The first of some files that a folder has, if any."""
    return next((each for each in (os.path.join(folder, name) for name in names) if os.path.isfile(each)), "")
