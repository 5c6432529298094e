"""What all modules share: lines on standard error, the fault that ends a command, and the unit of moments."""

import contextlib
import sys
from typing import Any, Protocol

# An object as JSON and TOML have it.
Json = dict[str, Any]
SECOND = 1_000_000_000


class HasDescriptor(Protocol):
    def fileno(self) -> int: ...


# What can be waited for.
File = int | HasDescriptor


class Fault(Exception):
    """What ends a command with status 1. Its text is told."""


def tell(text: str) -> None:
    """Writes a line to standard error, where that can be written."""
    with contextlib.suppress(OSError, AttributeError):
        sys.stderr.write(text + "\n")
        sys.stderr.flush()
