"""Keys as bytes and in PEM, and each refusal by its name."""

import base64
import copy
import os
import pickle
import re
import subprocess
import tempfile
import unittest
from pathlib import Path

import slh_dsa
from slh_dsa import PARAMETER_SETS, SigningKey, VerifyingKey, _library
from support import FAST, TOP, bent, known_key, n_of, openssl_keys

# A row of docs/FORMATS.md: a set, its identifier, the bytes before a signing and a verifying key.
PEM_ROW = re.compile(
    r"^ *\| (\d+[sf]) \| 2\.16\.\S+ \| `([0-9a-f ]+)` \| `([0-9a-f ]+)` \|$", re.MULTILINE
)


def pem_of(label, der):
    """Some DER in PEM."""
    return f"-----BEGIN {label}-----\n{base64.b64encode(der).decode()}\n-----END {label}-----\n"


def der_of(pem):
    """The DER of a PEM."""
    return base64.b64decode(b"".join(pem.splitlines()[1:-1]))


class Pem(unittest.TestCase):
    """The bytes of OpenSSL and of docs/FORMATS.md."""

    def test_keys_that_openssl_made(self):
        for name, private, public in openssl_keys():
            with self.subTest(set=name):
                key = SigningKey.from_pem(private)
                self.assertEqual(key.parameter_set, name)
                self.assertEqual(key.to_pem(), private)
                self.assertEqual(key.verifying_key.to_pem(), public)
                self.assertEqual(VerifyingKey.from_pem(public), key.verifying_key)

    def test_the_bytes_of_the_page(self):
        rows = PEM_ROW.findall((TOP / "docs" / "FORMATS.md").read_text())
        self.assertEqual([f"SLH-DSA-SHA2-{row[0]}" for row in rows], list(PARAMETER_SETS))
        for short, before_key, before_vk in rows:
            name = f"SLH-DSA-SHA2-{short}"
            key = bytes(range(4 * n_of(name)))
            signing = SigningKey.from_bytes(name, key, check=False)
            self.assertEqual(der_of(signing.to_pem()), bytes.fromhex(before_key) + key)
            public = key[2 * n_of(name) :]
            der = der_of(VerifyingKey.from_bytes(name, public).to_pem())
            self.assertEqual(der, bytes.fromhex(before_vk) + public)

    def test_text_around_and_other_ends_of_lines(self):
        _, private, public = openssl_keys()[1]
        key = VerifyingKey.from_pem(public)
        crlf = public.replace(b"\n", b"\r\n")
        for text in (b"The key:\n" + public + b"Bye.\n", crlf, public.replace(b"\n", b" ")):
            self.assertEqual(VerifyingKey.from_pem(text), key)
        self.assertEqual(VerifyingKey.from_pem(public.decode()), key)
        self.assertEqual(VerifyingKey.from_pem(bytearray(public)), key)
        self.assertEqual(SigningKey.from_pem(private.decode()).verifying_key, key)

    def test_other_texts_are_refused(self):
        _, private, public = openssl_keys()[1]
        der = der_of(public)
        ed25519 = "MCowBQYDK2VwAyEAGb9ECWmEzf6FQbrBZ9w7lshQhqowtrbLDFw4rXAxZuE="
        wrong = {
            "no PEM block": b"hello",
            "more than one": public + public,
            "not a PRIVATE KEY": private,
            "not a ENCRYPTED": private.replace(b"PRIVATE", b"ENCRYPTED PRIVATE"),
            "no end line": public.replace(b"END", b"ENT"),
            "isn't Base64": public.replace(b"MDAw", b"M*Aw"),
            "isn't a key of SLH-DSA": pem_of("PUBLIC KEY", base64.b64decode(ed25519)),
        }
        for text, pem in wrong.items():
            with self.subTest(text), self.assertRaisesRegex(slh_dsa.PemError, text):
                VerifyingKey.from_pem(pem)
        for bytes_of_der in (b"", der[:1], der[:-1], der + b"x", bent(der, 14)[:-1]):
            with self.assertRaises(slh_dsa.PemError):
                VerifyingKey.from_pem(pem_of("PUBLIC KEY", bytes_of_der))
        with self.assertRaisesRegex(slh_dsa.PemError, "not a PUBLIC KEY"):
            SigningKey.from_pem(public)

    @unittest.skipUnless(os.environ.get("SLH"), "SLH names no command")
    def test_keys_of_the_command(self):
        slh = os.environ["SLH"]
        with tempfile.TemporaryDirectory() as folder:
            place = Path(folder)
            (place / "message").write_bytes(b"message")

            def run(*words):
                command = [slh, *words]
                return subprocess.run(command, cwd=folder, check=True, capture_output=True).stdout

            run("keygen", "--set", FAST, "theirs")
            run("sign", "--key", "theirs.key", "message")
            key = SigningKey.from_pem((place / "theirs.key").read_bytes())
            self.assertEqual(key.to_pem(), (place / "theirs.key").read_bytes())
            self.assertEqual(key.verifying_key.to_pem(), (place / "theirs.pub").read_bytes())
            key.verifying_key.verify((place / "message.sig").read_bytes(), b"message")

            ours = SigningKey.generate(FAST)
            (place / "ours.pub").write_bytes(ours.verifying_key.to_pem())
            (place / "ours.sig").write_bytes(ours.sign_file(place / "message"))
            words = ("verify", "--key", "ours.pub", "--signature", "ours.sig", "message")
            self.assertEqual(run(*words), b"accepted\n")


class Refusals(unittest.TestCase):
    """Each status of slh_dsa.h that can come, and wrong types."""

    @classmethod
    def setUpClass(cls):
        cls.key = known_key(FAST)
        cls.public = cls.key.verifying_key
        cls.signature = cls.key.sign(b"m", deterministic=True)

    def refuses(self, error, status, call, *arguments, **options):
        with self.assertRaises(error) as caught:
            call(*arguments, **options)
        self.assertIs(type(caught.exception), error)
        self.assertEqual(caught.exception.status, status)
        self.assertIsInstance(caught.exception, slh_dsa.SlhDsaError)
        self.assertIsInstance(caught.exception, ValueError)

    def test_lengths(self):
        key, public = self.key.to_bytes(), self.public.to_bytes()
        calls = [
            (SigningKey.from_seeds, FAST, bytes(47)),
            (SigningKey.from_seeds, FAST, b""),
            (SigningKey.from_bytes, FAST, key[:-1]),
            (SigningKey.from_bytes, "SLH-DSA-SHA2-192f", key),
            (VerifyingKey.from_bytes, FAST, public + b"\0"),
            (self.public.verify, self.signature[:-1], b"m"),
            (self.public.verify, b"", b"m"),
            (self.key.audit, self.signature + b"\0", b"m"),
        ]
        for call in calls:
            self.refuses(slh_dsa.LengthError, 5, *call)
        self.refuses(slh_dsa.LengthError, 5, self.key.sign_digest, bytes(32), prehash="sha512")
        self.refuses(slh_dsa.LengthError, 5, self.key.sign_digest, bytes(32), prehash=None)

    def test_a_root_of_other_seeds(self):
        key = bent(self.key.to_bytes(), 63)
        self.refuses(slh_dsa.KeyMismatchError, 4, SigningKey.from_bytes, FAST, key)
        unchecked = SigningKey.from_bytes(FAST, key, check=False)
        self.refuses(slh_dsa.KeyMismatchError, 4, SigningKey.from_pem, unchecked.to_pem())
        self.refuses(slh_dsa.KeyMismatchError, 4, unchecked.audit, self.signature, b"m")

    def test_contexts_and_randomizers(self):
        long, error = bytes(256), slh_dsa.ContextTooLongError
        self.refuses(error, 6, self.key.sign, b"m", context=long)
        self.refuses(error, 6, self.public.verify, self.signature, b"m", context=long)
        self.public.verify(self.key.sign(b"m", context=bytes(255)), b"m", context=bytes(255))
        for randomizer in (b"", bytes(15), bytes(17)):
            error = slh_dsa.RandomizerLengthError
            self.refuses(error, 7, self.key.sign, b"m", randomizer=randomizer)

    def test_what_is_unknown(self):
        for name in ("SLH-DSA-SHA2-128", "slh-dsa-sha2-128f", "SLH-DSA-SHAKE-128f", ""):
            self.refuses(slh_dsa.UnknownSetError, 9, SigningKey.generate, name)
            self.refuses(slh_dsa.UnknownSetError, 9, VerifyingKey.from_bytes, name, bytes(32))
        for prehash in ("SHA256", "sha1", ""):
            self.refuses(slh_dsa.UnknownPrehashError, 10, self.key.sign, b"m", prehash=prehash)
        for evidence in (("no", 0, 0, 0), ("leaf", 1 << 32, 0, 0), ("leaf", -1, 0, 0)):
            check = self.key.check_evidence
            evidence = slh_dsa.Evidence(*evidence)
            self.refuses(slh_dsa.UnknownEvidenceError, 11, check, evidence, self.signature, b"m")

    def test_invalid_is_no_refusal(self):
        with self.assertRaises(slh_dsa.InvalidSignature) as caught:
            self.public.verify(self.signature, b"n")
        self.assertEqual(caught.exception.status, 1)
        self.assertNotIsInstance(caught.exception, ValueError)
        with self.assertRaises(slh_dsa.InvalidSignature):
            self.key.audit(self.signature, b"n")

    def test_each_status_has_an_exception(self):
        header = (TOP / "crates" / "slh_dsa_c" / "include" / "slh_dsa.h").read_text()
        body = re.search(r"enum slh_dsa_statuses \{(.*?)\};", header, re.DOTALL).group(1)
        statuses = {int(number) for number in re.findall(r"= (\d+)", body)}
        self.assertEqual(statuses, {*range(12), *range(13, 22)})
        for status in statuses - {_library.OK, _library.FOREIGN, _library.NOT_SHOWN}:
            self.assertEqual(slh_dsa._errors.error_of(status).status, status)
        self.assertIs(type(slh_dsa._errors.error_of(99)), slh_dsa.SlhDsaError)

    def test_wrong_types(self):
        calls = [
            (SigningKey.generate, 1),
            (SigningKey.generate, None),
            (SigningKey.from_seeds, FAST, "seeds"),
            (SigningKey.from_bytes, FAST, 64),
            (SigningKey.from_pem, None),
            (VerifyingKey.from_bytes, FAST, [0] * 32),
            (VerifyingKey.from_pem, 7),
            (self.key.sign, "m"),
            (self.key.sign, None),
            (self.public.verify, self.signature.hex(), b"m"),
            (self.public.verify, None, b"m"),
        ]
        for call, *arguments in calls:
            with self.subTest(call=call, arguments=arguments), self.assertRaises(TypeError):
                call(*arguments)
        wrong = [{"context": None}, {"context": ""}, {"prehash": 1}, {"prehash": b"sha256"}]
        for options in [*wrong, {"deterministic": True, "randomizer": bytes(16)}]:
            with self.subTest(options=options), self.assertRaises(TypeError):
                self.key.sign(b"m", **options)
        with self.assertRaises(BufferError):
            self.key.sign(memoryview(b"every second")[::2])


class Objects(unittest.TestCase):
    """Keys as objects of Python."""

    def test_a_verifying_key_is_its_set_and_bytes(self):
        public = known_key(FAST).verifying_key
        self.assertEqual(VerifyingKey.from_pem(public.to_pem()), public)
        self.assertEqual(len({public, VerifyingKey.from_bytes(FAST, public.to_bytes())}), 1)
        other = VerifyingKey.from_bytes("SLH-DSA-SHA2-128s", public.to_bytes())
        self.assertNotEqual(other, public)
        self.assertNotEqual(public, public.to_bytes())
        self.assertIn(FAST, repr(public))

    def test_a_signing_key_shows_and_gives_no_secret(self):
        key = known_key(FAST)
        self.assertEqual(repr(key), f"<SigningKey {FAST}>")
        for refused in (pickle.dumps, copy.copy, copy.deepcopy):
            with self.assertRaises(TypeError):
                refused(key)

    def test_secrets_are_cleared(self):
        secret = _library.Secret(b"secret")
        secret.__del__()
        self.assertEqual(secret, bytes(6))
        ours = os.urandom(32)
        _library.clear(ours)
        self.assertEqual(ours, bytes(32))
        _library.clear(b"x"[:])
        self.assertEqual(b"x"[0], 120)

    def test_a_library_of_other_sizes_is_refused(self):
        calls = dict(_library._calls, n=lambda number: 16)
        with self.assertRaisesRegex(ImportError, "other sizes of SLH-DSA-SHA2-192s"):
            _library.check_sizes(calls)

    def test_the_version_is_that_of_the_header(self):
        header = (TOP / "crates" / "slh_dsa_c" / "include" / "slh_dsa.h").read_text()
        self.assertIn(f'#define SLH_DSA_VERSION "{slh_dsa.__version__}"\n', header)
        self.assertEqual(_library.interface_of("0.11.3"), "0.11")
        self.assertEqual(_library.interface_of("2.11.3"), "2")


if __name__ == "__main__":
    unittest.main()
