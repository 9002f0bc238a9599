"""Signing and verifying keys."""

from __future__ import annotations

import ctypes
import hashlib
import operator
import os
from typing import NamedTuple, NoReturn, Sequence

from . import _dsse, _pem
from ._errors import (
    InvalidSignature,
    LengthError,
    PayloadTypeError,
    UnknownEvidenceError,
    UnsignedError,
    error_of,
)
from ._files import Source, digest_of, message_of
from ._library import (
    FOREIGN,
    NOT_SHOWN,
    OK,
    BytesLike,
    EndStructure,
    EvidenceStructure,
    Secret,
    Written,
    clear,
    done,
    status_of,
)
from ._pieces import FirstPass, MessageVerifier
from ._sets import Parameters, Prehash, mode_of, parameters_of
from ._signed import BatchHead, LogHead, Manifest

EVIDENCE_KINDS = ("fors-node", "fors-roots", "chain-step", "leaf", "tree-node", "early")


class Evidence(NamedTuple):
    """Where an accepted signature differs from what the key makes: slh_dsa.h has the kinds."""

    kind: str
    layer: int = 0
    index: int = 0  # type: ignore[assignment]  # in place of the method of tuples
    level: int = 0


def _structure(evidence: Evidence) -> EvidenceStructure:
    """Evidence as the library has it."""
    kind, *places = evidence
    if kind not in EVIDENCE_KINDS:
        raise UnknownEvidenceError(f"{kind!r} is none of {', '.join(EVIDENCE_KINDS)}")
    if not all(0 <= operator.index(place) < 1 << 32 for place in places):
        raise UnknownEvidenceError(f"the numbers of evidence have 32 bits: {places}")
    return EvidenceStructure(EVIDENCE_KINDS.index(kind) + 1, *places)


def _wrong_length(what: str, parameters: Parameters, wanted: int, given: int) -> LengthError:
    return LengthError(f"{what} of {parameters.name} has {wanted} bytes, not {given}")


class ChainEnd(NamedTuple):
    """Where a chain of delegations ends."""

    key: VerifyingKey
    budget: int  # the key may delegate with depths below it
    links: int


class VerifyingKey:
    """A public key. `from_bytes` and `from_pem` make one, and `SigningKey.verifying_key`."""

    __slots__ = ("_parameters", "_key")

    def __init__(self, parameters: Parameters, key: bytes) -> None:
        self._parameters = parameters
        self._key = key

    @classmethod
    def from_bytes(cls, parameter_set: str, key: BytesLike) -> VerifyingKey:
        """The key of 2n bytes: the public seed and the root."""
        parameters = parameters_of(parameter_set)
        copied = bytes(memoryview(key))
        if len(copied) != 2 * parameters.n:
            raise _wrong_length("a verifying key", parameters, 2 * parameters.n, len(copied))
        return cls(parameters, copied)

    @classmethod
    def from_pem(cls, pem: str | BytesLike) -> VerifyingKey:
        """The key of a `PUBLIC KEY` in PEM."""
        _, parameters, key = _pem.read((_pem.PUBLIC,), pem)
        return cls(parameters, bytes(key))

    @property
    def parameter_set(self) -> str:
        """The name of the key's parameter set."""
        return self._parameters.name

    @property
    def key_id(self) -> str:
        """SHA-256 of the key's bytes in hexadecimal: what envelopes of DSSE name a key by."""
        return hashlib.sha256(self._key).hexdigest()

    def to_bytes(self) -> bytes:
        """The public seed and the root."""
        return self._key

    def to_pem(self) -> bytes:
        """A `PUBLIC KEY` in PEM, as OpenSSL 3.5 writes it."""
        return _pem.written(_pem.PUBLIC, self._parameters, self._key)

    def verify(
        self,
        signature: BytesLike,
        message: BytesLike,
        *,
        context: BytesLike = b"",
        prehash: Prehash | None = None,
    ) -> None:
        """Returns where the signature is accepted, and else raises InvalidSignature."""
        self._verify("verify", signature, message, context, prehash)

    def verify_digest(
        self,
        signature: BytesLike,
        digest: BytesLike,
        *,
        prehash: Prehash,
        context: BytesLike = b"",
    ) -> None:
        """`verify` by the digest of a message that was hashed elsewhere."""
        self._verify("verify_digest", signature, digest, context, prehash)

    def verify_file(
        self,
        signature: BytesLike,
        source: Source,
        *,
        context: BytesLike = b"",
        prehash: Prehash | None = None,
    ) -> None:
        """`verify` of what a file has, or of what is left to read of an open one."""
        if prehash is not None:
            self._verify("verify_digest", signature, digest_of(source, prehash), context, prehash)
            return
        with message_of(source) as message:
            self._verify("verify", signature, message, context, None)

    def verifier(
        self,
        signature: BytesLike,
        *,
        context: BytesLike = b"",
        prehash: Prehash | None = None,
    ) -> MessageVerifier:
        """A verifier of a message that comes in pieces, from a socket say."""
        return MessageVerifier(self._parameters, self._key, signature, context, prehash)

    def walk(self, chain: BytesLike) -> ChainEnd:
        """Walks a chain of delegations from this root key, and verifies each link."""
        public, found = bytearray(len(self._key)), EndStructure()
        done(
            "slh_chain_walk",
            self._parameters.number,
            self._key,
            chain,
            Written(public),
            ctypes.byref(found),
        )
        return ChainEnd(VerifyingKey(self._parameters, bytes(public)), found.budget, found.links)

    def open_manifest(self, manifest: BytesLike) -> Manifest:
        """Reads a manifest and verifies its signature."""
        return Manifest(self._parameters, self._key, manifest)

    def accept(self, receipt: BytesLike, message: BytesLike) -> None:
        """Returns where the receipt of a batch is one of the message, else raises InvalidSignature."""
        done("slh_batch_accept", self._parameters.number, self._key, message, receipt)

    def open_batch(self, signed_head: BytesLike) -> BatchHead:
        """Reads the head of a batch and verifies its signature, once for all its messages."""
        return BatchHead.opened(self._parameters, self._key, signed_head)

    def open_checkpoint(self, origin: str, checkpoint: BytesLike) -> LogHead:
        """Opens a checkpoint that this key signed for the log of an origin."""
        return LogHead.opened(self._parameters, self._key, origin, checkpoint)

    def verify_dsse(self, envelope: str | BytesLike, payload_type: str) -> bytes:
        """The payload of an envelope of DSSE, of this type and with a signature of this key."""
        opened = _dsse.read(envelope)
        signed = _dsse.dsse_pae(opened.payload, payload_type)
        if opened.payload_type != payload_type:
            raise PayloadTypeError
        signatures = opened.of_key(self.key_id)
        if not signatures:
            raise UnsignedError("the envelope has no signature of this key")
        for signature in signatures:
            try:
                self.verify(signature, signed)
            except (InvalidSignature, LengthError):
                continue
            return opened.payload
        raise InvalidSignature

    def _verify(
        self,
        call: str,
        signature: BytesLike,
        message: BytesLike,
        context: BytesLike,
        prehash: Prehash | None,
    ) -> None:
        numbers = self._parameters.number, mode_of(prehash)
        done(call, *numbers, self._key, message, context, signature)

    def __eq__(self, other: object) -> bool:
        if not isinstance(other, VerifyingKey):
            return NotImplemented
        return (self._parameters, self._key) == (other._parameters, other._key)

    def __hash__(self) -> int:
        return hash((self._parameters, self._key))

    def __repr__(self) -> str:
        return f"<VerifyingKey {self.parameter_set} {self._key.hex()}>"


class SigningKey:
    """A secret key. Its bytes are cleared once nobody has the key any more."""

    __slots__ = ("_parameters", "_key")

    def __init__(self, parameters: Parameters, key: Secret) -> None:
        self._parameters = parameters
        self._key = key

    @classmethod
    def generate(cls, parameter_set: str) -> SigningKey:
        """A new key of the system's random bytes."""
        seeds = os.urandom(3 * parameters_of(parameter_set).n)
        try:
            return cls.from_seeds(parameter_set, seeds)
        finally:
            clear(seeds)

    @classmethod
    def from_seeds(cls, parameter_set: str, seeds: BytesLike) -> SigningKey:
        """The key of 3n random and secret bytes: secret seed, PRF key and public seed."""
        parameters = parameters_of(parameter_set)
        key, public = Secret(4 * parameters.n), bytearray(2 * parameters.n)
        done("keygen", parameters.number, seeds, Written(key), Written(public))
        return cls(parameters, key)

    @classmethod
    def from_bytes(cls, parameter_set: str, key: BytesLike, *, check: bool = True) -> SigningKey:
        """The key of 4n bytes, whose root has to be that of its seeds.

        To find that out takes as long as making a key. `check=False` leaves it out.
        """
        parameters = parameters_of(parameter_set)
        return cls._checked(parameters, Secret(memoryview(key)), check)

    @classmethod
    def from_pem(cls, pem: str | BytesLike, *, check: bool = True) -> SigningKey:
        """The key of a `PRIVATE KEY` in PEM, checked as by `from_bytes`."""
        _, parameters, key = _pem.read((_pem.PRIVATE,), pem)
        return cls._checked(parameters, key, check)

    @classmethod
    def _checked(cls, parameters: Parameters, key: Secret, check: bool) -> SigningKey:
        if len(key) != 4 * parameters.n:
            raise _wrong_length("a signing key", parameters, 4 * parameters.n, len(key))
        if check:
            done("check_key", parameters.number, key)
        return cls(parameters, key)

    @property
    def parameter_set(self) -> str:
        """The name of the key's parameter set."""
        return self._parameters.name

    @property
    def verifying_key(self) -> VerifyingKey:
        """The public half."""
        public = bytearray(2 * self._parameters.n)
        done("public", self._parameters.number, self._key, Written(public))
        return VerifyingKey(self._parameters, bytes(public))

    def to_bytes(self) -> bytes:
        """A copy of the key's bytes, which the package can't clear."""
        return bytes(self._key)

    def to_pem(self) -> bytes:
        """A `PRIVATE KEY` in PEM as OpenSSL 3.5 writes it, which isn't encrypted."""
        return _pem.written(_pem.PRIVATE, self._parameters, self._key)

    def sign(
        self,
        message: BytesLike,
        *,
        context: BytesLike = b"",
        prehash: Prehash | None = None,
        deterministic: bool = False,
        randomizer: BytesLike | None = None,
    ) -> bytes:
        """A signature, with n fresh random bytes if it isn't `deterministic`.

        `randomizer` are n bytes in their place, as known answers have them.
        """
        return self._sign("sign", (message, context), prehash, deterministic, randomizer)

    def sign_digest(
        self,
        digest: BytesLike,
        *,
        prehash: Prehash,
        context: BytesLike = b"",
        deterministic: bool = False,
        randomizer: BytesLike | None = None,
    ) -> bytes:
        """`sign` by the digest of a message that was hashed elsewhere."""
        return self._sign("sign_digest", (digest, context), prehash, deterministic, randomizer)

    def sign_file(
        self,
        source: Source,
        *,
        context: BytesLike = b"",
        prehash: Prehash | None = None,
        deterministic: bool = False,
    ) -> bytes:
        """`sign` of what a file has, or of what is left to read of an open one."""
        if prehash is not None:
            digest = digest_of(source, prehash)
            return self._sign("sign_digest", (digest, context), prehash, deterministic, None)
        with message_of(source) as message:
            return self._sign("sign", (message, context), prehash, deterministic, None)

    def sign_dsse(
        self, payload: BytesLike, payload_type: str, *, deterministic: bool = False
    ) -> bytes:
        """An envelope of DSSE: a line of JSON with the payload, its type and a signature."""
        signed = _dsse.dsse_pae(payload, payload_type)
        signature = self.sign(signed, deterministic=deterministic)
        return _dsse.written(payload, payload_type, self.verifying_key.key_id, signature)

    def signer(
        self,
        *,
        context: BytesLike = b"",
        deterministic: bool = False,
        randomizer: BytesLike | None = None,
    ) -> FirstPass:
        """The first pass over a message that comes in pieces, twice, and is signed as it is."""
        if deterministic and randomizer is not None:
            raise TypeError("a deterministic signature has no randomizer")
        if deterministic or randomizer is not None:
            return FirstPass(self._parameters, self._key, context, randomizer)
        fresh = os.urandom(self._parameters.n)
        try:
            return FirstPass(self._parameters, self._key, context, fresh)
        finally:
            clear(fresh)

    def _sign(
        self,
        call: str,
        signed: Sequence[BytesLike],
        prehash: Prehash | None,
        deterministic: bool,
        randomizer: BytesLike | None,
    ) -> bytes:
        if deterministic and randomizer is not None:
            raise TypeError("a deterministic signature has no randomizer")
        begun = self._parameters.number, mode_of(prehash), self._key, *signed
        signature = bytearray(self._parameters.signature_bytes)
        if deterministic:
            done(f"{call}_deterministic", *begun, Written(signature))
        elif randomizer is not None:
            done(call, *begun, randomizer, Written(signature))
        else:
            fresh = os.urandom(self._parameters.n)
            try:
                done(call, *begun, fresh, Written(signature))
            finally:
                clear(fresh)
        return bytes(signature)

    def audit(
        self,
        signature: BytesLike,
        message: BytesLike,
        *,
        context: BytesLike = b"",
        prehash: Prehash | None = None,
    ) -> Evidence | None:
        """None where the key made the signature, which it accepts, else evidence that it didn't."""
        found = EvidenceStructure()
        inputs = self._key, message, context, signature
        numbers = self._parameters.number, mode_of(prehash)
        status = status_of("audit", *numbers, *inputs, ctypes.byref(found))
        if status == FOREIGN:
            kind = EVIDENCE_KINDS[found.kind - 1]
            return Evidence(kind, found.layer, found.index, found.level)
        if status != OK:
            raise error_of(status)
        return None

    def check_evidence(
        self,
        evidence: Evidence,
        signature: BytesLike,
        message: BytesLike,
        *,
        context: BytesLike = b"",
        prehash: Prehash | None = None,
    ) -> bool:
        """Whether evidence shows against a signature."""
        inputs = self._key, message, context, signature
        numbers = self._parameters.number, mode_of(prehash)
        place = ctypes.byref(_structure(evidence))
        status = status_of("check_evidence", *numbers, *inputs, place)
        if status not in (OK, NOT_SHOWN):
            raise error_of(status)
        return status == OK

    def __reduce__(self) -> NoReturn:
        raise TypeError("a signing key isn't pickled: to_pem writes it")

    def __repr__(self) -> str:
        return f"<SigningKey {self.parameter_set}>"


def key_from_pem(pem: str | BytesLike, *, check: bool = True) -> SigningKey | VerifyingKey:
    """The key of a `PRIVATE KEY`, checked as by `SigningKey.from_bytes`, or of a `PUBLIC KEY`."""
    label, parameters, key = _pem.read((_pem.PRIVATE, _pem.PUBLIC), pem)
    if label == _pem.PUBLIC:
        return VerifyingKey(parameters, bytes(key))
    return SigningKey._checked(parameters, key, check)
