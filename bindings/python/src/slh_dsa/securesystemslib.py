"""SLH-DSA for securesystemslib, and so for in-toto and TUF: a Key, and a Signer of key files.

    import slh_dsa.securesystemslib as slh
    key = slh.SlhKey.from_pem(Path("release.pub").read_bytes())
    signer = Signer.from_priv_key_uri("slh:release.key", key)

When this is imported, `Key.from_dict` and `Signer.from_priv_key_uri` know both. It was tried with
securesystemslib 0.26. Later ones want a signer's `public_key`, too, which is here.
"""

from __future__ import annotations

from typing import Any

from securesystemslib import exceptions
from securesystemslib.signer import (
    KEY_FOR_TYPE_AND_SCHEME,
    SIGNER_FOR_URI_SCHEME,
    Key,
    SecretsHandler,
    Signature,
    Signer,
)

from ._errors import InvalidSignature, PemError, SlhDsaError
from ._keys import SigningKey, VerifyingKey
from ._library import BytesLike
from ._sets import PARAMETER_SETS

KEYTYPE = "slh-dsa"  # its schemes are the names of the sets in lower case


class SlhKey(Key):
    """A verifying key: its `keyval` has the PEM, and `from_pem` takes `key_id` as its id."""

    def __init__(
        self,
        keyid: str,
        keytype: str,
        scheme: str,
        keyval: dict[str, Any],
        unrecognized_fields: dict[str, Any] | None = None,
    ) -> None:
        super().__init__(keyid, keytype, scheme, keyval, unrecognized_fields)
        self.verifying_key()

    @classmethod
    def from_pem(cls, pem: str | BytesLike, keyid: str | None = None) -> SlhKey:
        """The key of a `PUBLIC KEY` in PEM."""
        key = VerifyingKey.from_pem(pem)
        keyval = {"public": key.to_pem().decode()}
        return cls(keyid or key.key_id, KEYTYPE, key.parameter_set.lower(), keyval)

    @classmethod
    def from_dict(cls, keyid: str, key_dict: dict[str, Any]) -> SlhKey:
        """The key of what `to_dict` tells; what isn't known of it is kept."""
        keytype, scheme, keyval = (key_dict.pop(name) for name in ("keytype", "scheme", "keyval"))
        return cls(keyid, keytype, scheme, keyval, key_dict)

    def to_dict(self) -> dict[str, Any]:
        """What stands in metadata of the key."""
        known = {"keytype": self.keytype, "scheme": self.scheme, "keyval": self.keyval}
        return {**known, **self.unrecognized_fields}

    def verifying_key(self) -> VerifyingKey:
        """The key itself; ValueError where it isn't one of the scheme."""
        public = self.keyval.get("public")
        if not isinstance(public, str):
            raise PemError(f"a public key in PEM is wanted for {self.scheme}")
        key = VerifyingKey.from_pem(public)
        if (self.keytype, self.scheme) != (KEYTYPE, key.parameter_set.lower()):
            raise PemError(f"the key is one of {key.parameter_set}, and not of {self.scheme}")
        return key

    def verify_signature(self, signature: Signature, data: bytes) -> None:
        """Returns where the signature is accepted, and else raises what the library's keys do."""
        try:
            if signature.keyid != self.keyid:
                raise ValueError("the signature is by another key")
            self.verifying_key().verify(bytes.fromhex(signature.signature), data)
        except InvalidSignature as error:
            raise exceptions.UnverifiedSignatureError(
                f"Failed to verify signature by {self.keyid}"
            ) from error
        except (SlhDsaError, TypeError, ValueError) as error:
            raise exceptions.VerificationError(
                f"Unknown failure to verify signature by {self.keyid}"
            ) from error


class SlhSigner(Signer):
    """A signing key, of a file by the URI `slh:PATH`. Its root isn't checked against its seeds."""

    SCHEME = "slh"

    def __init__(self, key: SigningKey, public_key: Key) -> None:
        if not isinstance(public_key, SlhKey) or public_key.verifying_key() != key.verifying_key:
            raise ValueError("the public key isn't that of the signing key")
        self._key = key
        self._public_key = public_key

    @classmethod
    def from_priv_key_uri(
        cls,
        priv_key_uri: str,
        public_key: Key,
        secrets_handler: SecretsHandler | None = None,
    ) -> SlhSigner:
        """The signer of a `PRIVATE KEY` in PEM, which has no passphrase."""
        scheme, _, path = priv_key_uri.partition(":")
        if scheme != cls.SCHEME:
            raise ValueError(f"SlhSigner does not support {priv_key_uri}")
        with open(path, "rb") as file:
            key = SigningKey.from_pem(file.read(), check=False)
        return cls(key, public_key)

    @property
    def public_key(self) -> Key:
        """The key that verifies what this signs."""
        return self._public_key

    def sign(self, payload: bytes) -> Signature:
        """A signature with fresh random bytes."""
        return Signature(self._public_key.keyid, self._key.sign(payload).hex())


SIGNER_FOR_URI_SCHEME[SlhSigner.SCHEME] = SlhSigner
for _name in PARAMETER_SETS:
    KEY_FOR_TYPE_AND_SCHEME[KEYTYPE, _name.lower()] = SlhKey
