"""Known answers, and what a signature is of and what not."""

import array
import hashlib
import mmap
import threading
import unittest

from slh_dsa import (
    PARAMETER_SETS,
    ChangedError,
    ContextTooLongError,
    InvalidSignature,
    LengthError,
    RandomizerLengthError,
    SigningKey,
    StateError,
    UnknownPrehashError,
    VerifyingKey,
)
from support import DATA, FAST, bent, known_key, n_of

# What the known answers are of, by examples/data/README.md.
SIGNED = {
    "pure": (b"Hello", {"deterministic": True}),
    "sha256": (
        b"Hello, world!",
        {"context": b"Test context!", "prehash": "sha256", "deterministic": True},
    ),
    "sha512": (b"abc", {"prehash": "sha512"}),
}


class KnownAnswers(unittest.TestCase):
    """Signatures that the Rust crate slh-dsa made."""

    def test_each_set_and_mode(self):
        keys = {name: known_key(name) for name in PARAMETER_SETS}
        rows = (DATA / "known_answers.txt").read_text().splitlines()
        answers = [row.split() for row in rows if not row.startswith("#")]
        self.assertEqual(len(answers), 18)
        for name, mode, digest in answers:
            with self.subTest(set=name, mode=mode):
                self.check(keys[name], mode, digest)

    def check(self, key, mode, digest):
        message, options = SIGNED[mode]
        if mode == "sha512":
            options = {**options, "randomizer": bytes(range(n_of(key.parameter_set)))}
        signature = key.sign(message, **options)
        self.assertEqual(hashlib.sha256(signature).hexdigest(), digest)
        if mode == "pure":
            return
        by_digest = key.sign_digest(hashlib.new(mode, message).digest(), **options)
        self.assertEqual(by_digest, signature)


class RoundTrips(unittest.TestCase):
    """Signatures of new keys."""

    def test_each_set_with_a_new_key(self):
        for name in PARAMETER_SETS:
            with self.subTest(set=name):
                key = SigningKey.generate(name)
                signature = key.sign(b"message", context=b"context", prehash="sha512")
                public = VerifyingKey.from_bytes(name, key.verifying_key.to_bytes())
                public.verify(signature, b"message", context=b"context", prehash="sha512")
                with self.assertRaises(InvalidSignature):
                    public.verify(signature, b"message", context=b"context")

    def test_new_keys_differ(self):
        first, second = SigningKey.generate(FAST), SigningKey.generate(FAST)
        self.assertNotEqual(first.to_bytes(), second.to_bytes())
        self.assertNotEqual(first.verifying_key, second.verifying_key)

    def test_two_signatures_differ_unless_they_are_deterministic(self):
        key = known_key(FAST)
        self.assertNotEqual(key.sign(b"m"), key.sign(b"m"))
        self.assertEqual(key.sign(b"m", deterministic=True), key.sign(b"m", deterministic=True))


class Pieces(unittest.TestCase):
    """Messages in pieces against the calls for the whole."""

    MESSAGE = bytes(range(256)) * 2

    def verified(self, key, signature, pieces, **options):
        verifier = key.verifying_key.verifier(signature, **options)
        for piece in pieces:
            verifier.update(piece)
        verifier.verify()
        return verifier

    def test_each_cut_is_verified_as_the_whole(self):
        for name in (FAST, "SLH-DSA-SHA2-192f"):
            key = known_key(name)
            for prehash in (None, "sha256", "sha512"):
                options = {"context": b"context", "prehash": prehash}
                signature = key.sign(self.MESSAGE, **options)
                for cut in (0, 1, 63, 64, 127, 128, 300, len(self.MESSAGE)):
                    pieces = self.MESSAGE[:cut], memoryview(self.MESSAGE)[cut:]
                    self.verified(key, signature, pieces, **options)
                with self.assertRaises(InvalidSignature):
                    self.verified(key, signature, (self.MESSAGE[1:],), **options)

    def signed(self, key, first, second, **options):
        one = key.signer(**options)
        for piece in first:
            one.update(piece)
        other = one.again()
        for piece in second:
            other.update(piece)
        return one, other, other.sign()

    def test_pieces_are_signed_as_the_whole(self):
        for name in (FAST, "SLH-DSA-SHA2-192f"):
            key = known_key(name)
            first, second = (self.MESSAGE[:100], self.MESSAGE[100:]), (self.MESSAGE,)
            for options in (
                {"deterministic": True},
                {"context": b"context", "randomizer": bytes(n_of(name))},
            ):
                one, other, signature = self.signed(key, first, second, **options)
                self.assertEqual(signature, key.sign(self.MESSAGE, **options))
            for used in (one.again, other.sign):
                with self.assertRaises(StateError):
                    used()
            key.verifying_key.verify(self.signed(key, first, second)[2], self.MESSAGE)

    def test_a_second_pass_over_other_bytes_is_refused(self):
        key = known_key(FAST)
        for second in (self.MESSAGE[1:], bent(self.MESSAGE, 300), b""):
            with self.assertRaises(ChangedError):
                self.signed(key, (self.MESSAGE,), (second,))
        with self.assertRaises(TypeError):
            key.signer(deterministic=True, randomizer=bytes(16))
        with self.assertRaises(RandomizerLengthError):
            key.signer(randomizer=bytes(15))

    def test_a_verifier_is_used_once(self):
        key = known_key(FAST)
        verifier = self.verified(key, key.sign(b"m"), (b"m",))
        for call in (verifier.verify, lambda: verifier.update(b"")):
            with self.assertRaises(StateError):
                call()

    def test_what_can_not_begin_is_refused(self):
        public, signature = known_key(FAST).verifying_key, known_key(FAST).sign(b"m")
        with self.assertRaises(LengthError):
            public.verifier(signature[1:])
        with self.assertRaises(ContextTooLongError):
            public.verifier(signature, context=bytes(256))
        with self.assertRaises(UnknownPrehashError):
            public.verifier(signature, prehash="sha3")


class Verifying(unittest.TestCase):
    """What is refused as no signature of this."""

    @classmethod
    def setUpClass(cls):
        cls.key = known_key(FAST)
        cls.public = cls.key.verifying_key
        cls.signature = cls.key.sign(b"message", context=b"context")

    def refuses(self, *arguments, key=None, **options):
        with self.assertRaises(InvalidSignature):
            (key or self.public).verify(*arguments, **options)

    def test_bent_signatures(self):
        for at in (0, 15, 16, 3711, 3712, len(self.signature) - 1):
            self.refuses(bent(self.signature, at), b"message", context=b"context")

    def test_another_message_context_mode_or_key(self):
        self.refuses(self.signature, b"messag", context=b"context")
        self.refuses(self.signature, b"", context=b"context")
        self.refuses(self.signature, b"message")
        self.refuses(self.signature, b"message", context=b"context", prehash="sha256")
        other = SigningKey.generate(FAST).verifying_key
        self.refuses(self.signature, b"message", context=b"context", key=other)

    def test_a_digest_is_the_message_of_its_mode(self):
        digest = hashlib.sha256(b"message").digest()
        signature = self.key.sign(b"message", prehash="sha256")
        self.public.verify_digest(signature, digest, prehash="sha256")
        with self.assertRaises(InvalidSignature):
            self.public.verify_digest(signature, bent(digest, 31), prehash="sha256")

    def test_each_kind_of_buffer(self):
        wanted = self.key.sign(b"buffers!", deterministic=True)
        with mmap.mmap(-1, 8) as mapped:
            mapped[:] = b"buffers!"
            plain = bytearray(b"buffers!"), memoryview(b"buffers!")
            for message in (*plain, mapped, array.array("H", b"buffers!")):
                self.assertEqual(self.key.sign(message, deterministic=True), wanted)
                self.public.verify(memoryview(wanted), message)
        for empty in (b"", bytearray(), memoryview(b""), array.array("B")):
            self.public.verify(self.key.sign(empty), b"")

    def test_threads_at_once(self):
        wanted, made = self.key.sign(b"thread", deterministic=True), []

        def work():
            for _ in range(5):
                made.append(self.key.sign(b"thread", deterministic=True))
                self.public.verify(self.signature, b"message", context=b"context")

        threads = [threading.Thread(target=work) for _ in range(4)]
        for thread in threads:
            thread.start()
        for thread in threads:
            thread.join()
        self.assertEqual(made, [wanted] * 20)


class Audits(unittest.TestCase):
    """Who made a signature."""

    def test_a_signature_of_the_key(self):
        key = known_key(FAST)
        self.assertIsNone(key.audit(key.sign(b"m", context=b"c"), b"m", context=b"c"))

    def test_a_foreign_signature(self):
        line = (DATA / "foreign_128f.txt").read_text().split()
        name, verb, key, context, message, signature = line
        self.assertEqual((name, verb, context), (FAST, "audit", "-"))
        key = SigningKey.from_bytes(name, bytes.fromhex(key))
        signature, message = bytes.fromhex(signature), bytes.fromhex(message)
        key.verifying_key.verify(signature, message)
        found = key.audit(signature, message)
        self.assertEqual((found.kind, found.layer, found.index), ("early", 0, 1))
        self.assertTrue(key.check_evidence(found, signature, message))
        self.assertFalse(key.check_evidence(found._replace(layer=1), signature, message))


if __name__ == "__main__":
    unittest.main()
