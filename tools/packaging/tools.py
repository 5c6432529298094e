"""The commands that packages are built and tried with."""

from __future__ import annotations

import os
import subprocess
from collections.abc import Mapping
from pathlib import Path
from typing import Any


class ToolError(Exception):
    """A command that failed, with what it wrote; or something that it should have found."""


def output(command: list[Any], *, environment: Mapping[str, str] | None = None, folder: Path | None = None,
           given: bytes = b"") -> str:
    """What a command wrote to standard output. It has to end well."""
    words = [str(word) for word in command]
    done = subprocess.run(words, input=given, env=environment, cwd=folder, capture_output=True)
    text = done.stdout.decode(errors="replace")
    if done.returncode:
        raise ToolError(f"{' '.join(words)}: status {done.returncode}\n{text}{done.stderr.decode(errors='replace')}".strip())
    return text


def compiler() -> str:
    """The C compiler."""
    return os.environ.get("CC", "cc")
