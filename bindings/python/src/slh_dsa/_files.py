"""Messages in files: mapped where they are signed as they are, in pieces where they are hashed."""

from __future__ import annotations

import hashlib
import io
import mmap
import os
from contextlib import contextmanager
from typing import BinaryIO, Iterator, Union

from ._errors import UnknownPrehashError
from ._library import BytesLike
from ._sets import Prehash, mode_of

Source = Union[str, "os.PathLike[str]", BinaryIO]
_PIECE_BYTES = 1 << 18


@contextmanager
def _opened(source: Source) -> Iterator[BinaryIO]:
    """A file by its path, or an open one, whose message is what is left to read."""
    if isinstance(source, (str, os.PathLike)):
        with open(source, "rb") as file:
            yield file
    elif hasattr(source, "read"):
        yield source
    else:
        raise TypeError(f"a path or a binary file is wanted, not {type(source).__name__}")


def _mapped(file: BinaryIO) -> mmap.mmap | None:
    """The memory of a file of the system that has some."""
    if not isinstance(getattr(file, "raw", file), io.FileIO) or file.writable():
        return None
    try:
        return mmap.mmap(file.fileno(), 0, access=mmap.ACCESS_READ)
    except (OSError, ValueError):
        return None


@contextmanager
def message_of(source: Source) -> Iterator[BytesLike]:
    """The whole message, mapped where that can be."""
    with _opened(source) as file:
        mapped = _mapped(file)
        if mapped is None:
            yield file.read()
            return
        with mapped, memoryview(mapped) as whole, whole[file.tell() :] as left:
            yield left


def digest_of(source: Source, prehash: Prehash) -> bytes:
    """The digest of a message, which is read in pieces."""
    if mode_of(prehash) == 0:
        raise UnknownPrehashError("a digest is made by 'sha256' or 'sha512'")
    digest = hashlib.new(prehash)
    with _opened(source) as file:
        while piece := file.read(_PIECE_BYTES):
            digest.update(piece)
    return digest.digest()
