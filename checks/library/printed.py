"""Reports if a script's output can't be written, as the models do."""

import sys

from checks.library.crates import HERE

sys.path.insert(0, str(HERE / "models"))

from streams import printed  # noqa: E402

__all__ = ["printed"]
