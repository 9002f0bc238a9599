"""Envelopes of DSSE 1.0, as in-toto signs them: a payload, its type, and signatures of both."""

from __future__ import annotations

import base64
import json
from typing import Any, NamedTuple

from ._errors import FormError
from ._library import BytesLike

_ALPHABETS = b"+/", b"-_"


def dsse_pae(payload: BytesLike, payload_type: str) -> bytes:
    """What is signed of a payload and its type. No two pairs have the same."""
    kind, body = str.encode(payload_type), bytes(memoryview(payload))
    return b"DSSEv1 %d %b %d %b" % (len(kind), kind, len(body), body)


class Signed(NamedTuple):
    """What an envelope says, of which nothing was verified."""

    payload: bytes
    payload_type: str
    signatures: list[tuple[str, bytes]]  # with the key's id, which may be empty

    def of_key(self, key_id: str) -> list[bytes]:
        """The signatures that may be by a key."""
        return [signature for named, signature in self.signatures if named in (key_id, "")]


def _encoded(data: bytes) -> str:
    return base64.b64encode(data).decode()


def _decoded(text: object) -> bytes:
    """The bytes of a text in Base64. Its alphabet may be that of URLs."""
    if isinstance(text, str):
        for alphabet in _ALPHABETS:
            try:
                data = base64.b64decode(text, altchars=alphabet)
            except ValueError:
                continue
            if base64.b64encode(data, altchars=alphabet).decode() == text:
                return data
    raise FormError("a payload or a signature isn't Base64")


def _object(pairs: list[tuple[str, Any]]) -> dict[str, Any]:
    """An object of JSON. Of two fields with one name, others may read the other one."""
    fields = dict(pairs)
    if len(fields) != len(pairs):
        raise FormError("an object has two fields of one name")
    return fields


def _parsed(envelope: str | BytesLike) -> Any:
    try:
        text = envelope if isinstance(envelope, str) else bytes(memoryview(envelope)).decode()
        return json.loads(text, object_pairs_hook=_object)
    except FormError:
        raise
    except (ValueError, RecursionError):
        raise FormError("the envelope isn't JSON") from None


def _signature(entry: object) -> tuple[str, bytes]:
    """A signature and its key's id, which need not be there."""
    if not isinstance(entry, dict):
        raise FormError("a signature isn't an object")
    key_id = entry.get("keyid")
    if not isinstance(key_id, (str, type(None))):
        raise FormError("a key's id isn't a text")
    return key_id or "", _decoded(entry.get("sig"))


def read(envelope: str | BytesLike) -> Signed:
    """What an envelope says, in JSON. Fields that aren't known are skipped."""
    fields = _parsed(envelope)
    if not isinstance(fields, dict):
        raise FormError("the envelope isn't an object")
    kind, signatures = fields.get("payloadType"), fields.get("signatures")
    if not isinstance(kind, str) or not isinstance(signatures, list):
        raise FormError("the envelope has no type or no signatures")
    return Signed(_decoded(fields.get("payload")), kind, [_signature(each) for each in signatures])


def written(payload: BytesLike, payload_type: str, key_id: str, signature: bytes) -> bytes:
    """An envelope with one signature, a line of JSON."""
    fields = {
        "payload": _encoded(bytes(memoryview(payload))),
        "payloadType": payload_type,
        "signatures": [{"keyid": key_id, "sig": _encoded(signature)}],
    }
    return json.dumps(fields).encode() + b"\n"
