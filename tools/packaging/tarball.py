"""The archive that is unpacked below any folder, such as /usr/local: the program, the libraries, the runner, pages and examples."""

from __future__ import annotations

import parts as made
from parts import LIBRARY_CRATES, Parts, Places
from tree import File, Tree, checksums, files, tarred

PLACES = Places("", "lib", "site-functions")
DOCUMENTS = f"{PLACES.documents}/sched"
SUMS = f"{DOCUMENTS}/SHA256SUMS"


def name(parts: Parts) -> str:
    """The folder that the archive unpacks to."""
    return f"sched-{parts.version}-linux-x86_64"


def tree(parts: Parts) -> Tree:
    """All files, with a list of their checksums."""
    # So that the folder may stand anywhere, its place is told as seen from sched.pc.
    prefix = "${pcfiledir}/../.."
    content = (made.program_tree(parts, PLACES) | made.runner_tree(parts, PLACES) | made.shared_tree(parts, PLACES)
               | made.development_tree(parts, PLACES, prefix) | made.document_tree(parts, DOCUMENTS) | made.example_tree(DOCUMENTS))
    content[f"{DOCUMENTS}/NOTICES"] = made.notices(["sched", *LIBRARY_CRATES])
    return content | {SUMS: File(checksums(files(content), "sha256"))}


def package(parts: Parts) -> dict[str, bytes]:
    """The archive, by its name."""
    return {f"{name(parts)}.tar.gz": tarred(tree(parts), parts.moment, f"{name(parts)}/")}
