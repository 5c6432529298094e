"""How a wheel is written. Its bytes hang on what it has and on one moment alone.

A source archive has this module too, beside `wheel_backend`, so it needs nothing but Python's own library.
"""

from __future__ import annotations

import base64
import hashlib
import io
import time
import zipfile
from collections.abc import Mapping


def recorded(content: Mapping[str, bytes], record: str) -> str:
    """The list of the files with their checksums, which has itself too."""
    lines = []
    for place, data in content.items():
        digest = base64.urlsafe_b64encode(hashlib.sha256(data).digest()).rstrip(b"=").decode()
        lines.append(f"{place},sha256={digest},{len(data)}\n")
    return "".join([*lines, f"{record},,\n"])


def zipped(content: Mapping[str, bytes], moment: int) -> bytes:
    """An archive of files in their order."""
    buffer = io.BytesIO()
    with zipfile.ZipFile(buffer, "w", zipfile.ZIP_DEFLATED) as archive:
        for place, data in content.items():
            member = zipfile.ZipInfo(place, time.gmtime(moment)[:6])
            member.external_attr = (0o100755 if place.endswith(".so") else 0o100644) << 16
            member.compress_type = zipfile.ZIP_DEFLATED
            archive.writestr(member, data)
    return buffer.getvalue()


def wheel(front: str, tag: str, package: Mapping[str, bytes], metadata: bytes, notices: bytes, moment: int) -> tuple[str, bytes]:
    """A wheel and its name, which begins with `front`, the name and the version of what is packaged."""
    information = f"{front}.dist-info"
    built_for = f"Wheel-Version: 1.0\nGenerator: tools/package\nRoot-Is-Purelib: false\nTag: {tag}\n"
    content = dict(package) | {
        f"{information}/METADATA": metadata,
        f"{information}/WHEEL": built_for.encode(),
        f"{information}/licenses/NOTICES": notices,
    }
    record = f"{information}/RECORD"
    content[record] = recorded(content, record).encode()
    return f"{front}-{tag}.whl", zipped(content, moment)
