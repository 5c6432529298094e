"""Files with their places, and archives of them whose bytes hang on nothing else."""

from __future__ import annotations

import gzip
import hashlib
import io
import tarfile
from collections.abc import Iterator, Mapping
from dataclasses import dataclass
from pathlib import Path


@dataclass(frozen=True)
class File:
    """A file, which may be a program."""
    content: bytes
    is_program: bool = False


@dataclass(frozen=True)
class Link:
    """A name for what stands elsewhere, as seen from its own folder."""
    target: str


Tree = dict[str, File | Link]


def copied(file: Path) -> File:
    """A file as it stands, which is a program where it may be run."""
    return File(file.read_bytes(), bool(file.stat().st_mode & 0o100))


def compressed(content: bytes) -> bytes:
    """The bytes as gzip has them, with no name and no moment."""
    return gzip.compress(content, 9, mtime=0)


def members(tree: Tree, moment: int, front: str) -> Iterator[tuple[tarfile.TarInfo, bytes]]:
    """The members of an archive of all files. Folders are none: those that are there already stay as they are."""
    for place, entry in sorted(tree.items()):
        member = tarfile.TarInfo(front + place)
        member.mtime, member.uname, member.gname = moment, "root", "root"
        match entry:
            case Link(target):
                member.type, member.linkname, member.mode, content = tarfile.SYMTYPE, target, 0o777, b""
            case File(content, is_program):
                member.size, member.mode = len(content), 0o755 if is_program else 0o644
        yield member, content


def tarred(tree: Tree, moment: int, front: str = "") -> bytes:
    """A compressed archive, in which each place stands behind `front`."""
    buffer = io.BytesIO()
    with tarfile.open(fileobj=buffer, mode="w", format=tarfile.GNU_FORMAT) as archive:
        for member, content in members(tree, moment, front):
            archive.addfile(member, io.BytesIO(content))
    return compressed(buffer.getvalue())


def written(tree: Tree, folder: Path) -> None:
    """Writes all files below a folder."""
    for place, entry in tree.items():
        path = folder / place
        path.parent.mkdir(parents=True, exist_ok=True)
        match entry:
            case Link(target):
                path.symlink_to(target)
            case File(content, is_program):
                path.write_bytes(content)
                path.chmod(0o755 if is_program else 0o644)


def files(tree: Tree) -> dict[str, bytes]:
    """The bytes of each file that is no link, by its place."""
    return {place: entry.content for place, entry in tree.items() if isinstance(entry, File)}


def checksums(contents: Mapping[str, bytes], kind: str) -> bytes:
    """The checksum of each file, as `sha256sum` and `md5sum` write and read them."""
    lines = (f"{hashlib.new(kind, content).hexdigest()}  {name}\n" for name, content in sorted(contents.items()))
    return "".join(lines).encode()
