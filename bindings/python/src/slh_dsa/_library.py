"""The shared object that the package carries, and its calls on buffers that aren't copied."""

from __future__ import annotations

import ctypes
import mmap
from pathlib import Path
from typing import Any, NamedTuple, Union

from ._errors import error_of
from ._sets import SETS
from ._version import __version__

BytesLike = Union[bytes, bytearray, memoryview, mmap.mmap]

OK, INVALID, FOREIGN, NOT_SHOWN = range(4)
_PREFIX = "slh_dsa_sha2_"
_READ, _WRITE = 0, 1  # PyBUF_SIMPLE, PyBUF_WRITABLE


class Secret(bytearray):
    """Bytes of ours that are cleared once nobody has them any more."""

    def __del__(self) -> None:
        self[:] = bytes(len(self))


class _View(ctypes.Structure):
    """Python's `Py_buffer`."""

    _fields_ = [
        ("address", ctypes.c_void_p),
        ("owner", ctypes.c_void_p),
        ("length", ctypes.c_ssize_t),
        ("item_bytes", ctypes.c_ssize_t),
        ("is_read_only", ctypes.c_int),
        ("dimensions", ctypes.c_int),
        ("format", ctypes.c_void_p),
        ("shape", ctypes.c_void_p),
        ("strides", ctypes.c_void_p),
        ("suboffsets", ctypes.c_void_p),
        ("internal", ctypes.c_void_p),
    ]


class EvidenceStructure(ctypes.Structure):
    """`slh_dsa_evidence` of slh_dsa.h."""

    _fields_ = [(name, ctypes.c_uint32) for name in ("kind", "layer", "index", "level")]


class VerifierStructure(ctypes.Structure):
    """`slh_dsa_verifier` of slh_dsa.h."""

    _fields_ = [("words", ctypes.c_uint64 * 93)]


class SignerStructure(ctypes.Structure):
    """`slh_dsa_signer` of slh_dsa.h. It is cleared once nobody has it any more."""

    _fields_ = [("words", ctypes.c_uint64 * 101)]

    def __del__(self) -> None:
        ctypes.memset(ctypes.addressof(self), 0, ctypes.sizeof(self))


class EndStructure(ctypes.Structure):
    """`slh_chain_end` of slh_dsa.h."""

    _fields_ = [("budget", ctypes.c_uint32), ("links", ctypes.c_uint32)]


class FileStructure(ctypes.Structure):
    """`slh_manifest_file` of slh_dsa.h."""

    _fields_ = [
        ("name_at", ctypes.c_uint64),
        ("name_bytes", ctypes.c_uint64),
        ("file_bytes", ctypes.c_uint64),
        ("digest", ctypes.c_uint8 * 32),
    ]


class BatchHeadStructure(ctypes.Structure):
    """`slh_batch_head` of slh_dsa.h."""

    _fields_ = [("count", ctypes.c_uint32), ("root", ctypes.c_uint8 * 32)]


class LogHeadStructure(ctypes.Structure):
    """`slh_log_head` of slh_dsa.h."""

    _fields_ = [("size", ctypes.c_uint64), ("root", ctypes.c_uint8 * 32)]


_view = ctypes.POINTER(_View)
_borrow = ctypes.PYFUNCTYPE(ctypes.c_int, ctypes.py_object, _view, ctypes.c_int)(
    ("PyObject_GetBuffer", ctypes.pythonapi)
)
_give_back = ctypes.PYFUNCTYPE(None, _view)(("PyBuffer_Release", ctypes.pythonapi))
_Reference = type(ctypes.byref(ctypes.c_int()))
_nothing = ctypes.create_string_buffer(1)  # where an empty buffer has no address


def interface_of(version: str) -> str:
    """What of a version the name of the shared object has."""
    first, second, _ = version.split(".")
    return f"0.{second}" if first == "0" else first


def _declared(library: ctypes.CDLL) -> dict[str, Any]:
    """The calls, by their names without `slh_dsa_sha2_`, and what else they take than numbers."""
    number, size = ctypes.c_uint32, ctypes.c_size_t
    buffer = [ctypes.c_void_p, size]
    verifier, signer = ctypes.POINTER(VerifierStructure), ctypes.POINTER(SignerStructure)
    evidence = ctypes.POINTER(EvidenceStructure)
    log_head = ctypes.POINTER(LogHeadStructure)
    batch_head = ctypes.POINTER(BatchHeadStructure)
    file = ctypes.POINTER(FileStructure)
    calls: dict[str, list[Any]] = {
        "keygen": [number, *buffer * 3],
        "public": [number, *buffer * 2],
        "check_key": [number, *buffer],
        "sign": [number, number, *buffer * 5],
        "sign_deterministic": [number, number, *buffer * 4],
        "sign_digest": [number, number, *buffer * 5],
        "sign_digest_deterministic": [number, number, *buffer * 4],
        "verify": [number, number, *buffer * 4],
        "verify_digest": [number, number, *buffer * 4],
        "audit": [number, number, *buffer * 4, evidence],
        "check_evidence": [number, number, *buffer * 4, evidence],
        "verify_begin": [verifier, number, number, *buffer * 3],
        "verify_update": [verifier, *buffer],
        "verify_finish": [verifier, *buffer],
        "sign_begin": [signer, number, *buffer * 3],
        "sign_begin_deterministic": [signer, number, *buffer * 2],
        "sign_update": [signer, *buffer],
        "sign_again": [signer, *buffer],
        "sign_finish": [signer, *buffer * 2],
    }
    named: dict[str, tuple[str, Any, list[Any]]] = {
        _PREFIX + name: (name, number, arguments) for name, arguments in calls.items()
    }
    for name in ("n", "signature_bytes"):
        named[_PREFIX + name] = (name, size, [number])
    others: dict[str, list[Any]] = {
        "slh_dsa_version": [],
        "slh_chain_walk": [number, *buffer * 3, ctypes.POINTER(EndStructure)],
        "slh_manifest_open": [number, *buffer * 2, ctypes.POINTER(number)],
        "slh_manifest_entry": [*buffer, number, file],
        "slh_manifest_find": [*buffer * 2, file],
        "slh_batch_accept": [number, *buffer * 3],
        "slh_batch_open": [number, *buffer * 2, batch_head],
        "slh_batch_accept_under": [batch_head, *buffer, number, *buffer],
        "slh_log_open": [number, *buffer * 4, log_head],
        "slh_log_check_presence": [log_head, ctypes.c_uint64, *buffer * 2],
        "slh_log_check_growth": [log_head, log_head, *buffer],
    }
    for name, arguments in others.items():
        named[name] = (name, number, arguments)
    declared = {}
    for symbol, (name, result, arguments) in named.items():
        call = getattr(library, symbol)
        call.restype, call.argtypes = result, arguments
        declared[name] = call
    return declared


def check_sizes(calls: dict[str, Any]) -> None:
    """Refuses a library of another version than the package, as far as its sizes tell."""
    for parameters in SETS.values():
        sizes = calls["n"](parameters.number), calls["signature_bytes"](parameters.number)
        if sizes != (parameters.n, parameters.signature_bytes):
            raise ImportError(f"the library has other sizes of {parameters.name}: {sizes}")


def _loaded() -> dict[str, Any]:
    """The calls of the shared object that stands beside this file."""
    path = Path(__file__).with_name(f"libslh_dsa.so.{interface_of(__version__)}")
    try:
        calls = _declared(ctypes.CDLL(str(path)))
    except (OSError, AttributeError) as error:
        raise ImportError(f"no library of version {__version__}: {error}") from error
    check_sizes(calls)
    return calls


_calls = _loaded()


class Written(NamedTuple):
    """A buffer that a call writes."""

    buffer: bytearray


def status_of(name: str, *arguments: Any) -> int:
    """Makes a call: a buffer becomes its address and its length, all else is handed over as it is.

    While the call runs no buffer can be closed or get another size.
    """
    views: list[_View] = []
    places: list[Any] = []
    try:
        for argument in arguments:
            if isinstance(argument, (int, _Reference)):
                places.append(argument)
                continue
            view, flag = _View(), _READ
            if isinstance(argument, Written):
                argument, flag = argument.buffer, _WRITE
            _borrow(argument, ctypes.byref(view), flag)
            views.append(view)
            places += [view.address or ctypes.addressof(_nothing), view.length]
        return int(_calls[name](*places))
    finally:
        for view in views:
            _give_back(ctypes.byref(view))


def done(name: str, *arguments: Any) -> None:
    """Makes a call, and raises what its status says."""
    status = status_of(name, *arguments)
    if status != OK:
        raise error_of(status)


def clear(ours: bytes) -> None:
    """Clears bytes that nobody else has, though Python calls them immutable."""
    if len(ours) < 2:  # Python shares these
        return
    view = _View()
    _borrow(ours, ctypes.byref(view), _READ)
    ctypes.memset(view.address, 0, view.length)
    _give_back(ctypes.byref(view))
