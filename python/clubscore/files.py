"""Files read and written whole, and the exit statuses of the commands."""
from __future__ import annotations

import os
import re
import sys
import tempfile
from typing import Iterable

OK, LEFT_OUT, NOT_READ = 0, 1, 2

_HEX = re.compile(rb"(?:[0-9A-Fa-f]{2}|[ \t\r\n])*")
_COMMENT = re.compile(rb"#[^\n]*")


class NotRead(Exception):
    """What could not be read or written, in words that name the file."""


def read(name: str) -> bytes:
    with open(name, "rb") as file:
        return file.read()


def read_record(name: str) -> bytes:
    """A record's bytes, as the terminal reads them: standard input where the name is -, hexadecimal, with comments from # on, where it ends in .hex."""
    content = sys.stdin.buffer.read() if name == "-" else read(name)
    if not name.endswith(".hex"):
        return content
    digits = _COMMENT.sub(b"", content)
    if not _HEX.fullmatch(digits):
        raise NotRead(f"{name}: is not hexadecimal, two digits a byte")
    return bytes.fromhex(digits.decode("ascii"))


def write_whole(name: str, content: bytes, inputs: Iterable[str]) -> None:
    """Writes a file beside the name and renames it, so that what stands there is whole or as it was; never over one of the inputs."""
    if os.path.exists(name) and any(os.path.exists(one) and os.path.samefile(name, one) for one in inputs):
        raise NotRead(f"{name}: is one of the inputs, and is not written over")
    folder = os.path.dirname(name) or "."
    handle, beside = tempfile.mkstemp(prefix=".clubscore-", dir=folder)
    try:
        with os.fdopen(handle, "wb") as file:
            file.write(content)
        os.chmod(beside, 0o666 & ~_umask())
        os.replace(beside, name)
    except BaseException:
        os.unlink(beside)
        raise


def _umask() -> int:
    mask = os.umask(0)
    os.umask(mask)
    return mask
