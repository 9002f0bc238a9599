"""SLH-DSA (FIPS 205) over SHA-2, by the verified library for C that the package carries.

    key = SigningKey.generate("SLH-DSA-SHA2-128f")
    signature = key.sign(b"message", context=b"example.org")
    key.verifying_key.verify(signature, b"message", context=b"example.org")

Bytes may be `bytes`, or any other buffer, which isn't copied and nobody may change during a call.
A call runs beside other threads, each of which needs 112 kB of stack.
"""

from ._dsse import dsse_pae
from ._errors import (
    BudgetError,
    ChangedError,
    ContextTooLongError,
    EmptyLogError,
    FormError,
    InvalidSignature,
    KeyMismatchError,
    LengthError,
    MessageTooLongError,
    NoEntryError,
    OriginError,
    PayloadTypeError,
    PemError,
    RandomizerLengthError,
    Refused,
    SlhDsaError,
    SmallerLogError,
    StateError,
    UnknownEvidenceError,
    UnknownPrehashError,
    UnknownSetError,
    UnsignedError,
)
from ._keys import EVIDENCE_KINDS, ChainEnd, Evidence, SigningKey, VerifyingKey, key_from_pem
from ._pieces import FirstPass, MessageVerifier, SecondPass
from ._sets import PARAMETER_SETS
from ._signed import BatchHead, LogHead, Manifest, ManifestFile
from ._version import __version__

__all__ = [
    "EVIDENCE_KINDS",
    "PARAMETER_SETS",
    "BatchHead",
    "BudgetError",
    "ChainEnd",
    "ChangedError",
    "ContextTooLongError",
    "EmptyLogError",
    "Evidence",
    "FirstPass",
    "FormError",
    "InvalidSignature",
    "KeyMismatchError",
    "LengthError",
    "LogHead",
    "Manifest",
    "ManifestFile",
    "MessageTooLongError",
    "MessageVerifier",
    "NoEntryError",
    "OriginError",
    "PayloadTypeError",
    "PemError",
    "RandomizerLengthError",
    "Refused",
    "SecondPass",
    "SigningKey",
    "SlhDsaError",
    "SmallerLogError",
    "StateError",
    "UnknownEvidenceError",
    "UnknownPrehashError",
    "UnknownSetError",
    "UnsignedError",
    "VerifyingKey",
    "__version__",
    "dsse_pae",
    "key_from_pem",
]
