"""Debian's packages, as apt fetches them by lists of its own, into a folder: nothing of the system changes."""

from __future__ import annotations

import re
import shutil
from pathlib import Path
from typing import Any

from tools import ToolError, output


class Packages:
    """The packages that a folder has, or gets."""

    def __init__(self, folder: Path) -> None:
        self.folder = folder
        for name in ("lists/partial", "cache/archives/partial", "sources.d"):
            (folder / name).mkdir(parents=True, exist_ok=True)

    def apt(self, *words: Any, folder: Path | None = None) -> str:
        """What a command of apt writes."""
        front = ["-o", "Dir::Etc::SourceList=/dev/null", "-o", f"Dir::Etc::SourceParts={self.folder / 'sources.d'}", "-o",
                 f"Dir::State::Lists={self.folder / 'lists'}", "-o", f"Dir::Cache={self.folder / 'cache'}", "-o", "APT::Sandbox::User="]
        return output([words[0], *front, *words[1:]], folder=folder)

    def update(self) -> None:
        """Fetches the lists, of packages and of sources, from where the system has them."""
        for file in [*Path("/etc/apt").glob("sources.list"), *Path("/etc/apt/sources.list.d").iterdir()]:
            if file.suffix == ".sources":
                text = re.sub(r"^Types:.*$", "Types: deb deb-src", file.read_text(), flags=re.MULTILINE)
            elif file.suffix == ".list":
                text = re.sub(r"^deb(-src)?\s", "deb-src ", file.read_text(), flags=re.MULTILINE) + file.read_text()
            else:
                continue
            (self.folder / "sources.d" / file.name).write_text(text)
        self.apt("apt-get", "update")

    def prepare(self) -> None:
        """Fetches the lists where they are not there. Where there is no apt or no network, that is told."""
        if not shutil.which("apt-get"):
            print("apt-get is not there: nothing is fetched", flush=True)
            return
        try:
            if not any((self.folder / "lists").glob("*_*")):
                self.update()
        except (OSError, ToolError) as error:
            print(f"no lists of packages: {str(error).splitlines()[-1]}", flush=True)

    def unpacked(self, *names: str) -> Path:
        """The root into which packages are unpacked, with all that they stand on, as if none were installed."""
        root, empty = self.folder / "root", self.folder / "no-packages"
        if not root.exists():
            empty.touch()
            self.apt("apt-get", "-o", f"Dir::State::Status={empty}", "-o", "Debug::NoLocking=1", "install", "--yes", "--download-only",
                     "--no-install-recommends", *names)
            for file in sorted((self.folder / "cache" / "archives").glob("*.deb")):
                output(["dpkg-deb", "-x", file, root])
        return root
