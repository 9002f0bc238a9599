"""What signatures are used for: manifests, batches, logs."""

from __future__ import annotations

import ctypes
from typing import Iterator, NamedTuple, Sequence

from ._errors import NoEntryError
from ._library import (
    BatchHeadStructure,
    BytesLike,
    FileStructure,
    LogHeadStructure,
    Written,
    done,
)
from ._sets import Parameters


class ManifestFile(NamedTuple):
    """What a manifest says of a file: its name, its bytes, and their SHA-256."""

    name: bytes
    size: int
    digest: bytes


class Manifest:
    """A manifest whose signature was verified: `VerifyingKey.open_manifest` makes one."""

    __slots__ = ("_bytes", "_len")

    def __init__(self, parameters: Parameters, key: bytes, manifest: BytesLike) -> None:
        self._bytes = bytes(memoryview(manifest))
        entries = ctypes.c_uint32()
        done("slh_manifest_open", parameters.number, key, self._bytes, ctypes.byref(entries))
        self._len = entries.value

    def __len__(self) -> int:
        return self._len

    def entry(self, number: int) -> ManifestFile:
        """The entry of a number, from 0 on; NoEntryError where there is none."""
        if not 0 <= number < self._len:
            raise NoEntryError
        found = FileStructure()
        done("slh_manifest_entry", self._bytes, number, ctypes.byref(found))
        return self._file(found)

    def find(self, name: BytesLike) -> ManifestFile:
        """The entry of a name; NoEntryError where there is none."""
        found = FileStructure()
        done("slh_manifest_find", self._bytes, name, ctypes.byref(found))
        return self._file(found)

    def __iter__(self) -> Iterator[ManifestFile]:
        return (self.entry(number) for number in range(self._len))

    def _file(self, found: FileStructure) -> ManifestFile:
        name = self._bytes[found.name_at : found.name_at + found.name_bytes]
        return ManifestFile(name, found.file_bytes, bytes(found.digest))


def _joined(proof: Sequence[bytes]) -> bytes:
    return b"".join(proof)


class BatchHead(NamedTuple):
    """The head of a batch whose signature was verified: `VerifyingKey.open_batch` makes one."""

    count: int  # type: ignore[assignment]  # in place of the method of tuples
    root: bytes

    @classmethod
    def opened(cls, parameters: Parameters, key: bytes, signed_head: BytesLike) -> BatchHead:
        """The head, under a verifying key's bytes."""
        found = BatchHeadStructure()
        done("slh_batch_open", parameters.number, key, signed_head, ctypes.byref(found))
        return cls(found.count, bytes(found.root))

    def accept(self, message: BytesLike, index: int, path: Sequence[bytes]) -> None:
        """Returns where message `index` of the batch is this one, by its path, else raises."""
        if not 0 <= index < self.count:
            raise NoEntryError
        head = BatchHeadStructure(self.count, (ctypes.c_uint8 * 32)(*self.root))
        done("slh_batch_accept_under", ctypes.byref(head), message, index, _joined(path))


class LogHead(NamedTuple):
    """What a checkpoint says that was opened: `VerifyingKey.open_checkpoint` makes one."""

    size: int
    root: bytes

    @classmethod
    def opened(
        cls, parameters: Parameters, key: bytes, origin: str, checkpoint: BytesLike
    ) -> LogHead:
        """What the checkpoint says, under a verifying key's bytes."""
        found, scratch = LogHeadStructure(), bytearray(4 + parameters.signature_bytes)
        name = origin.encode()
        buffers = key, name, checkpoint, Written(scratch)
        done("slh_log_open", parameters.number, *buffers, ctypes.byref(found))
        return cls(found.size, bytes(found.root))

    def check_presence(self, index: int, entry: BytesLike, proof: Sequence[bytes]) -> None:
        """Returns where the proof shows that entry `index` of the log is this one, else raises."""
        if not 0 <= index < self.size:
            raise NoEntryError
        head = ctypes.byref(self._structure())
        done("slh_log_check_presence", head, index, entry, _joined(proof))

    def check_growth(self, later: LogHead, proof: Sequence[bytes]) -> None:
        """Returns where the proof shows that the log grew into a later head, else raises."""
        heads = ctypes.byref(self._structure()), ctypes.byref(later._structure())
        done("slh_log_check_growth", *heads, _joined(proof))

    def _structure(self) -> LogHeadStructure:
        return LogHeadStructure(self.size, (ctypes.c_uint8 * 32)(*self.root))
