#!/usr/bin/env python3
"""Runs the model of `distac sim`: a configuration and a script in, the program's output for each line out.

Usage: python3 sim.py < FILE
"""

import sys

# Older Pythons must print this, so nothing above may need a newer one.
if sys.version_info < (3, 8):
    sys.stderr.write("sim.py: this is Python %d.%d, and 3.8 or later is needed\n" % sys.version_info[:2])
    sys.exit(2)

from simulator import main

if __name__ == "__main__":
    sys.exit(main())
