"""Keys and signers of securesystemslib: its own keys against ours, links and layouts of in-toto."""

import abc
import base64
import json
import random
import tempfile
import unittest
from pathlib import Path

from slh_dsa import InvalidSignature, SigningKey, UnsignedError, dsse_pae
from support import FAST, bent, known_key, openssl_keys

try:
    import securesystemslib.keys
    from securesystemslib import exceptions
    from securesystemslib.signer import Key, Signature, Signer, SSlibKey, SSlibSigner

    import slh_dsa.securesystemslib as slh
except ImportError as error:
    raise unittest.SkipTest("no securesystemslib") from error

try:
    from in_toto.exceptions import SignatureVerificationError
    from in_toto.models.layout import Layout
    from in_toto.models.link import Link
    from in_toto.models.metadata import Metablock
except ImportError:
    Metablock = None


def coded(data):
    return base64.b64encode(data).decode()


UNVERIFIED = "^Failed to verify signature by "
UNKNOWN = "^Unknown failure to verify signature by "


class Places(unittest.TestCase):
    """A folder with a key file, its public key, and an ECDSA key of the library."""

    @classmethod
    def setUpClass(cls):
        folder = tempfile.TemporaryDirectory()
        cls.addClassCleanup(folder.cleanup)
        cls.folder = Path(folder.name)
        cls.file = cls.folder / "a key"
        cls.file.write_bytes(known_key(FAST).to_pem())
        cls.key = slh.SlhKey.from_pem(known_key(FAST).verifying_key.to_pem())
        cls.signer = Signer.from_priv_key_uri(f"slh:{cls.file}", cls.key)
        cls.ecdsa = securesystemslib.keys.generate_ecdsa_key()
        cls.ecdsa_key = SSlibKey.from_securesystemslib_key(cls.ecdsa)

    def refuses(self, text, signature, data, key=None):
        """Another word for a signature that isn't good than for one that can't be looked at."""
        with self.assertRaisesRegex(exceptions.UnverifiedSignatureError, text) as caught:
            (key or self.key).verify_signature(signature, data)
        is_unknown = isinstance(caught.exception, exceptions.VerificationError)
        self.assertEqual(is_unknown, text == UNKNOWN)


class Keys(Places):
    """Keys as metadata has them."""

    def test_each_set_by_the_registry(self):
        for name, private, public in openssl_keys():
            (self.folder / name).write_bytes(private)
            key = slh.SlhKey.from_pem(public)
            self.assertEqual((key.keytype, key.scheme), ("slh-dsa", name.lower()))
            self.assertEqual(key.keyval, {"public": public.decode()})
            again = Key.from_dict(key.keyid, json.loads(json.dumps(key.to_dict())))
            self.assertIs(type(again), slh.SlhKey)
            self.assertEqual(again, key)
            signature = Signer.from_priv_key_uri(f"slh:{self.folder / name}", again).sign(b"m")
            self.assertEqual(signature.keyid, SigningKey.from_pem(private).verifying_key.key_id)
            again.verify_signature(signature, b"m")
            self.refuses(UNVERIFIED, signature, b"n", again)

    def test_what_is_not_known_is_kept(self):
        fields = {**self.key.to_dict(), "expires": "never"}
        key = Key.from_dict("id of its own", dict(fields))
        self.assertEqual((key.keyid, key.to_dict()), ("id of its own", fields))
        self.assertNotEqual(key, self.key)
        self.assertEqual(slh.SlhKey.from_pem(self.key.keyval["public"], "abc").keyid, "abc")

    def test_keys_that_are_none(self):
        public = self.key.keyval["public"]
        ed25519 = openssl_keys()[0][2].replace(b"MDAw", b"MDAx").decode()
        values = [{"public": 5}, {"public": None}, {}, {"public": ed25519}, {"public": "\ud800"}]
        values += [{"public": public + public}, {"public": openssl_keys()[0][2].decode()}]
        for keyval in values:
            with self.subTest(keyval=keyval), self.assertRaises(ValueError):
                Key.from_dict("id", {**self.key.to_dict(), "keyval": keyval})
        for changed in ({"keyval": None}, {"keyval": [public]}, {"keytype": None}, {"scheme": 3}):
            with self.assertRaises((TypeError, ValueError)):
                Key.from_dict("id", {**self.key.to_dict(), **changed})
            with self.assertRaises((TypeError, ValueError)):
                slh.SlhKey.from_dict("id", {**self.key.to_dict(), **changed})
        for scheme in ("slh-dsa-shake-128f", "SLH-DSA-SHA2-128f", ""):
            with self.assertRaisesRegex(ValueError, f"^Unsupported public key slh-dsa/{scheme}$"):
                Key.from_dict("id", {**self.key.to_dict(), "scheme": scheme})
        with self.assertRaises(KeyError):
            slh.SlhKey.from_dict("id", {"keytype": "slh-dsa", "scheme": self.key.scheme})

    def test_a_key_that_is_changed_later(self):
        signature, key = self.signer.sign(b"m"), Key.from_dict("", self.key.to_dict())
        signature.keyid = ""
        key.verify_signature(signature, b"m")
        key.scheme = "slh-dsa-sha2-128s"
        self.refuses(UNKNOWN, signature, b"m", key)


class Signers(Places):
    """Signing keys in files."""

    def test_files_that_are_no_key_of_it(self):
        def refuses(error, text, uri, key):
            with self.assertRaisesRegex(error, text):
                Signer.from_priv_key_uri(uri, key)

        other = slh.SlhKey.from_pem(SigningKey.generate(FAST).verifying_key.to_pem())
        for key in (other, self.ecdsa_key):
            refuses(ValueError, "isn't that of the signing key", f"slh:{self.file}", key)
        refuses(FileNotFoundError, "", f"slh:{self.folder / 'none'}", self.key)
        (self.folder / "public").write_text(self.key.keyval["public"])
        (self.folder / "cut").write_bytes(self.file.read_bytes()[:100])
        refuses(ValueError, "a PRIVATE KEY is wanted", f"slh:{self.folder / 'public'}", self.key)
        refuses(ValueError, "no end line", f"slh:{self.folder / 'cut'}", self.key)
        with self.assertRaisesRegex(ValueError, "does not support"):
            slh.SlhSigner.from_priv_key_uri(f"file:{self.file}", self.key)
        with self.assertRaisesRegex(ValueError, "Expected SSlibKey"):
            Signer.from_priv_key_uri(f"file:{self.file}?encrypted=false", self.key)

    def test_seeds_that_are_bent_sign_nothing_that_is_accepted(self):
        key = SigningKey.from_bytes(FAST, bent(known_key(FAST).to_bytes(), 0), check=False)
        (self.folder / "bent").write_bytes(key.to_pem())
        signature = Signer.from_priv_key_uri(f"slh:{self.folder / 'bent'}", self.key).sign(b"m")
        self.refuses(UNVERIFIED, signature, b"m")

    def test_what_later_versions_ask_for(self):
        class Later(Signer):
            """`Signer` as 1.0 has it, as far as it is known here: it wasn't at hand."""

            @property
            @abc.abstractmethod
            def public_key(self):
                """The key."""

        class Both(slh.SlhSigner, Later):
            """None of the methods is missing."""

        self.assertEqual(Both(known_key(FAST), self.key).public_key, self.key)
        self.assertEqual(self.signer.public_key, self.key)
        with self.assertRaises(AttributeError):
            self.signer.public_key = self.key


class Signatures(Places):
    """What is accepted, and what is refused in the library's words."""

    def test_signatures_that_are_none(self):
        good = self.signer.sign(b"m")
        self.assertEqual(good, Signature.from_dict(json.loads(json.dumps(good.to_dict()))))
        data, keyid = bytes.fromhex(good.signature), self.key.keyid
        unverified = [
            bent(data, 0),
            bent(data, 17087),
            known_key(FAST).sign(b"m", context=b"c"),
            known_key(FAST).sign(b"m", prehash="sha512"),
            SigningKey.generate(FAST).sign(b"m"),
        ]
        for signature in unverified:
            self.refuses(UNVERIFIED, Signature(keyid, signature.hex()), b"m")
        texts = [good.signature[2:], good.signature + "00", "", "zz", "\u0660" * 34176]
        for text in (*texts, None, 5, b"00", []):
            self.refuses(UNKNOWN, Signature(keyid, text), b"m")
        self.refuses(UNKNOWN, Signature("00", good.signature), b"m")
        self.refuses(UNKNOWN, good, "m")
        self.refuses(UNVERIFIED, good, b"")

    def test_random_changes(self):
        good, chance = self.signer.sign(b"m"), random.Random(2026)
        for _ in range(300):
            at = chance.randrange(len(good.signature))
            digit = chance.choice("0123456789abcdefg \0\u20ac")
            text = good.signature[:at] + digit + good.signature[at + 1 :]
            with self.subTest(at=at, digit=digit):
                try:
                    self.key.verify_signature(Signature(good.keyid, text), b"m")
                    self.assertEqual(text, good.signature)
                except exceptions.UnverifiedSignatureError:
                    self.assertNotEqual(text, good.signature)

    def test_keys_of_other_algorithms(self):
        theirs = SSlibSigner(self.ecdsa).sign(b"m")
        self.ecdsa_key.verify_signature(theirs, b"m")
        theirs.keyid, ours = self.key.keyid, self.signer.sign(b"m")
        self.refuses(UNKNOWN, theirs, b"m")
        ours.keyid = self.ecdsa_key.keyid
        with self.assertRaises(exceptions.UnverifiedSignatureError):
            self.ecdsa_key.verify_signature(ours, b"m")
        other_set = known_key("SLH-DSA-SHA2-192f").sign(b"m")
        self.refuses(UNKNOWN, Signature(self.key.keyid, other_set.hex()), b"m")

    def test_envelopes_both_ways(self):
        """What the package seals the library's keys verify, and the other way round."""
        kind, body = "application/vnd.in-toto+json", b'{"_type": "link"}'
        signed, public = dsse_pae(body, kind), known_key(FAST).verifying_key
        fields = json.loads(known_key(FAST).sign_dsse(body, kind))
        (entry,) = fields["signatures"]
        read = Signature(entry["keyid"], base64.b64decode(entry["sig"]).hex())
        self.key.verify_signature(read, signed)
        made = [self.signer.sign(signed), SSlibSigner(self.ecdsa).sign(signed)]
        fields["signatures"] = [
            {"keyid": each.keyid, "sig": coded(bytes.fromhex(each.signature))} for each in made
        ]
        self.assertEqual(public.verify_dsse(json.dumps(fields), kind), body)
        self.ecdsa_key.verify_signature(Signature(made[1].keyid, made[1].signature), signed)
        foreign = fields["signatures"].pop()
        for keyid, error in ((foreign["keyid"], UnsignedError), (entry["keyid"], InvalidSignature)):
            fields["signatures"] = [{**foreign, "keyid": keyid}]
            with self.assertRaises(error):
                public.verify_dsse(json.dumps(fields), kind)


@unittest.skipUnless(Metablock, "no in-toto with metadata of 1.3")
class InToto(Places):
    """Links and layouts as in-toto writes and reads them."""

    def signables(self):
        products = {"a": {"sha256": "00" * 32}}
        link = Link(name="build", command=["make"], materials={}, products=products)
        layout = Layout(readme="\u00e4", steps=[], inspect=[], keys={})
        layout.set_relative_expiration(months=1)
        return link, layout

    def signed(self, signable):
        """A file that in-toto writes, with a signature by an ECDSA key of its own and by ours."""
        block = Metablock(signed=signable)
        block.sign(self.ecdsa)
        block.signatures.append(self.signer.sign(signable.signable_bytes).to_dict())
        path = self.folder / "metadata"
        block.dump(str(path))
        return path

    def ours(self, block):
        (found,) = [each for each in block.signatures if each["keyid"] == self.key.keyid]
        return Signature.from_dict(dict(found))

    def test_links_and_layouts(self):
        for signable in self.signables():
            block = Metablock.load(str(self.signed(signable)))
            self.key.verify_signature(self.ours(block), block.signed.signable_bytes)
            block.verify_signature(self.ecdsa)
            block.signed.byproducts = block.signed.readme = "another"
            self.refuses(UNVERIFIED, self.ours(block), block.signed.signable_bytes)
            with self.assertRaisesRegex(SignatureVerificationError, "Invalid signature for keyid"):
                block.verify_signature(self.ecdsa)

    def test_files_that_are_bent(self):
        path = self.signed(self.signables()[0])
        text, chance, refused = path.read_text(), random.Random(2026), 0
        for _ in range(200):
            at = chance.randrange(len(text))
            other = chance.choice("0123456789abcdefZ}\"\u20ac")
            path.write_text(text[:at] + other + text[at + 1 :])
            try:
                block = Metablock.load(str(path))
                self.key.verify_signature(self.ours(block), block.signed.signable_bytes)
            except exceptions.UnverifiedSignatureError:
                refused += 1
            except (exceptions.FormatError, ValueError, TypeError, KeyError, AttributeError):
                continue  # in-toto's own reading, or no signature by the key
        self.assertGreater(refused, 100)

    def test_what_in_toto_does_not_take(self):
        """Its own list of types of keys has none of ours."""
        link, layout = self.signables()
        key = {"keyid": self.key.keyid, **self.key.to_dict()}
        block = Metablock.load(str(self.signed(link)))
        with self.assertRaisesRegex(exceptions.FormatError, "Object did not match"):
            block.verify_signature(key)
        # a layout may name one, for whoever verifies its links by other means
        layout.keys = {self.key.keyid: key}
        named = Metablock.load(str(self.signed(layout))).signed.keys[self.key.keyid]
        self.assertEqual(Key.from_dict(named.pop("keyid"), named), self.key)


if __name__ == "__main__":
    unittest.main()
