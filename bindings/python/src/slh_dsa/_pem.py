"""Keys in PEM, as OpenSSL 3.5 writes them: PKCS #8 and SubjectPublicKeyInfo."""

from __future__ import annotations

import base64
import binascii
import re
from typing import Sequence

from ._errors import PemError
from ._library import BytesLike, Secret, clear
from ._sets import SETS, Parameters

PRIVATE, PUBLIC = b"PRIVATE KEY", b"PUBLIC KEY"
_BEGIN = re.compile(rb"-----BEGIN ([A-Z0-9 ]+)-----")
_ARCS = bytes.fromhex("6086480165030403")  # 2.16.840.1.101.3.4.3


def _element(tag: int, content_bytes: int) -> bytes:
    """The tag and the length of an element of DER."""
    if content_bytes < 0x80:
        return bytes([tag, content_bytes])
    return bytes([tag, 0x81, content_bytes])


def _head(label: bytes, parameters: Parameters) -> tuple[bytes, int]:
    """What the DER of a key has before the key, and the bytes of the key."""
    identifier = _ARCS + bytes([parameters.last_arc])
    algorithm = _element(0x06, len(identifier)) + identifier
    algorithm = _element(0x30, len(algorithm)) + algorithm
    if label == PRIVATE:
        key_bytes = 4 * parameters.n
        front = bytes.fromhex("020100") + algorithm + _element(0x04, key_bytes)
    else:
        key_bytes = 2 * parameters.n
        front = algorithm + _element(0x03, key_bytes + 1) + b"\0"
    return _element(0x30, len(front) + key_bytes) + front, key_bytes


def written(label: bytes, parameters: Parameters, key: bytes | bytearray) -> bytes:
    """A key in PEM."""
    head, _ = _head(label, parameters)
    der = Secret(len(head) + len(key))
    der[: len(head)] = head
    der[len(head) :] = key
    text = base64.b64encode(der)
    lines = [text[at : at + 64] for at in range(0, len(text), 64)]
    return b"\n".join((b"-----BEGIN %s-----" % label, *lines, b"-----END %s-----" % label, b""))


def _block(wanted: Sequence[bytes], pem: bytes) -> tuple[bytes, bytes]:
    """The label and the digits of the only block of a text."""
    found = list(_BEGIN.finditer(pem))
    if not found:
        raise PemError("there is no PEM block")
    if len(found) > 1:
        raise PemError("there is more than one PEM block")
    label = found[0].group(1)
    if label not in wanted:
        labels = b" or ".join(wanted)
        raise PemError(f"a {labels.decode()} is wanted, not a {label.decode()}")
    body, end, _ = pem[found[0].end() :].partition(b"-----END %s-----" % label)
    if not end:
        raise PemError("the PEM block has no end line")
    return label, b"".join(body.split())


def read(wanted: Sequence[bytes], pem: str | BytesLike) -> tuple[bytes, Parameters, Secret]:
    """The label, the set and the bytes of a key in PEM, with whatever text around it."""
    text = pem.encode() if isinstance(pem, str) else bytes(memoryview(pem))
    label, digits = _block(wanted, text)
    try:
        decoded = base64.b64decode(digits, validate=True)
    except binascii.Error:
        raise PemError("the PEM block isn't Base64") from None
    der = Secret(decoded)
    clear(decoded)
    for parameters in SETS.values():
        head, key_bytes = _head(label, parameters)
        if der.startswith(head) and len(der) == len(head) + key_bytes:
            return label, parameters, Secret(memoryview(der)[len(head) :])
    raise PemError("the PEM block isn't a key of SLH-DSA over SHA-2")
