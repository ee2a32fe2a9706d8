"""Finds texts in backticks."""

import re

SPAN = re.compile(r"`([^`]+)`")
