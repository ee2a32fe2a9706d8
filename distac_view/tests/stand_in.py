#!/usr/bin/env python3
"""A stand-in for `distac`, made of the models, for tests if the environment names no program."""

from __future__ import annotations

import sys
from pathlib import Path
from typing import Callable

sys.dont_write_bytecode = True
sys.path.insert(0, str(Path(__file__).resolve().parents[2] / "models"))

import check
import live
import simulator

MODELS: dict[str, Callable[[bytes], tuple[bytes, int]]] = {"check": check.check, "sim": simulator.simulate, "live": live.run_live}


def main() -> int:
    output, status = MODELS[sys.argv[1]](sys.stdin.buffer.read())
    sys.stdout.buffer.write(output)
    return status


if __name__ == "__main__":
    sys.exit(main())
