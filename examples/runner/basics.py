"""What all of the runner shares: lines on standard error, the fault that ends it, and the unit of moments."""

import contextlib
import sys

SECOND = 1_000_000_000


class Fault(Exception):
    """What ends the runner with status 1. Its text is told."""


def tell(text: str) -> None:
    """Writes a line to standard error, where that can be written."""
    with contextlib.suppress(OSError, AttributeError):
        sys.stderr.write(text + "\n")
        sys.stderr.flush()
