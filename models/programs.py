"""Finds out which command runs the proved program, from `./distac --which`."""

from __future__ import annotations

import subprocess
from pathlib import Path

LAUNCHER = Path(__file__).resolve().parent.parent / "distac"


def is_proved(command: list[str]) -> bool:
    """Whether this command runs the proved program, with no newer source. Unknown programs count as not proved."""
    asked = subprocess.run([str(LAUNCHER), "--which"], stdout=subprocess.PIPE, text=True, check=False)
    state, _, path = asked.stdout.strip().partition(": ")
    ways = {(Path(path).resolve(),), (LAUNCHER,), (LAUNCHER, "--proved")}
    return state == "proved" and (Path(command[0]).resolve(), *command[1:]) in ways
