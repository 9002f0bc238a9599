"""Messages that come in pieces."""

from __future__ import annotations

import ctypes

from ._library import BytesLike, Secret, SignerStructure, VerifierStructure, Written, done
from ._sets import Parameters, Prehash, mode_of


class MessageVerifier:
    """A verification of a message that comes in pieces: `VerifyingKey.verifier` makes one.

    `update` takes a piece; nothing is verified before `verify` has returned. It is used once, and
    by one thread at a time.
    """

    __slots__ = ("_state", "_signature")

    def __init__(
        self,
        parameters: Parameters,
        key: bytes,
        signature: BytesLike,
        context: BytesLike,
        prehash: Prehash | None,
    ) -> None:
        self._state = VerifierStructure()
        self._signature = bytes(memoryview(signature))
        numbers = parameters.number, mode_of(prehash)
        state = ctypes.byref(self._state)
        done("verify_begin", state, *numbers, key, context, self._signature)

    def update(self, piece: BytesLike) -> None:
        """Takes a piece of the message, after those before."""
        done("verify_update", ctypes.byref(self._state), piece)

    def verify(self) -> None:
        """Returns where the signature of what was taken is accepted, else raises InvalidSignature.

        After it the verifier is used up: StateError.
        """
        done("verify_finish", ctypes.byref(self._state), self._signature)


class SecondPass:
    """The second pass over a message that is signed: `FirstPass.again` begins it."""

    __slots__ = ("_parameters", "_key", "_state")

    def __init__(self, parameters: Parameters, key: Secret, state: SignerStructure) -> None:
        self._parameters = parameters
        self._key = key
        self._state = state

    def update(self, piece: BytesLike) -> None:
        """Takes a piece of the message, after those before: the same bytes as in the first pass."""
        done("sign_update", ctypes.byref(self._state), piece)

    def sign(self) -> bytes:
        """The signature of what this pass took; ChangedError where the first took something else.

        After it the pass is used up: StateError.
        """
        signature = bytearray(self._parameters.signature_bytes)
        done("sign_finish", ctypes.byref(self._state), self._key, Written(signature))
        return bytes(signature)


class FirstPass:
    """The first pass over a message that comes in pieces: `SigningKey.signer` makes one.

    `update` takes a piece; `again` begins the second pass, over the same pieces once more. It is
    used by one thread at a time.
    """

    __slots__ = ("_parameters", "_key", "_context", "_state")

    def __init__(
        self,
        parameters: Parameters,
        key: Secret,
        context: BytesLike,
        randomizer: BytesLike | None,
    ) -> None:
        self._parameters = parameters
        self._key = key
        self._context = bytes(memoryview(context))
        self._state = SignerStructure()
        begun = ctypes.byref(self._state), parameters.number, key, self._context
        if randomizer is None:
            done("sign_begin_deterministic", *begun)
        else:
            done("sign_begin", *begun, randomizer)

    def update(self, piece: BytesLike) -> None:
        """Takes a piece of the message, after those before."""
        done("sign_update", ctypes.byref(self._state), piece)

    def again(self) -> SecondPass:
        """The second pass. This one is used up."""
        done("sign_again", ctypes.byref(self._state), self._context)
        state, self._state = self._state, SignerStructure()
        return SecondPass(self._parameters, self._key, state)
