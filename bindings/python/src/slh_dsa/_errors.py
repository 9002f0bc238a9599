"""What the package raises, by the statuses of the library for C."""

from __future__ import annotations

from typing import ClassVar


class SlhDsaError(Exception):
    """The base of all of them. `status` is the number that slh_dsa.h has, or None."""

    status: ClassVar[int | None] = None
    text: ClassVar[str] = "SLH-DSA failed"

    def __init__(self, text: str | None = None) -> None:
        super().__init__(self.text if text is None else text)


class InvalidSignature(SlhDsaError):
    """The signature isn't one of this message, context and mode under this key."""

    status = 1
    text = "the signature isn't one of this message under this key"


class Refused(SlhDsaError, ValueError):
    """The base of the refusals of an argument."""


class KeyMismatchError(Refused):
    """The root of a signing key isn't that of its seeds."""

    status = 4
    text = "the key's root isn't that of its seeds"


class LengthError(Refused):
    """Seeds, a key, a digest or a signature have a wrong length."""

    status = 5
    text = "seeds, a key, a digest or a signature have a wrong length"


class ContextTooLongError(Refused):
    """A context has more than 255 bytes."""

    status = 6
    text = "the context has more than 255 bytes"


class RandomizerLengthError(Refused):
    """A randomizer doesn't have n bytes."""

    status = 7
    text = "the randomizer has a wrong length"


class MessageTooLongError(Refused):
    """A message has more than 2^60 bytes."""

    status = 8
    text = "the message has more than 2^60 bytes"


class UnknownSetError(Refused):
    """No parameter set has the name."""

    status = 9
    text = "there is no such parameter set"


class UnknownPrehashError(Refused):
    """`prehash` is none of None, "sha256" and "sha512"."""

    status = 10
    text = "there is no such mode"


class UnknownEvidenceError(Refused):
    """No evidence has this kind or these numbers."""

    status = 11
    text = "there is no such evidence"


class StateError(Refused):
    """A state in pieces was never begun, or was finished, or is of another key or signature."""

    status = 13
    text = "the state isn't one of this call, key or signature"


class FormError(Refused):
    """Bytes aren't a chain, manifest, receipt, head, checkpoint or envelope, or don't fit there."""

    status = 14
    text = "the bytes don't have the form"


class BudgetError(Refused):
    """A link of a chain delegates deeper than it may."""

    status = 15
    text = "a link delegates deeper than it may"


class NoEntryError(Refused):
    """A manifest, a batch or a log has no such entry."""

    status = 16
    text = "there is no such entry"


class OriginError(Refused):
    """A checkpoint is of another log."""

    status = 17
    text = "the checkpoint is of another log"


class UnsignedError(Refused):
    """A checkpoint or an envelope has no signature of this key."""

    status = 18
    text = "the checkpoint has no signature of this key"


class EmptyLogError(Refused):
    """The old head of a log has no entries, so nothing shows that it grew."""

    status = 19
    text = "the old log has no entries"


class SmallerLogError(Refused):
    """The new head of a log has fewer entries than the old."""

    status = 20
    text = "the new log has fewer entries than the old"


class ChangedError(Refused):
    """The second pass of signing was over other bytes than the first."""

    status = 21
    text = "the second pass was over other bytes than the first"


class PemError(Refused):
    """A text isn't a key in PEM as it is wanted."""


class PayloadTypeError(Refused):
    """The payload of an envelope isn't of the type that is wanted."""

    text = "the payload is of another type"


_ERRORS: tuple[type[SlhDsaError], ...] = (InvalidSignature, *Refused.__subclasses__())
_BY_STATUS = {error.status: error for error in _ERRORS if error.status is not None}


def error_of(status: int) -> SlhDsaError:
    """The exception of a status that isn't OK."""
    error = _BY_STATUS.get(status)
    return SlhDsaError(f"the library answers {status}") if error is None else error()
