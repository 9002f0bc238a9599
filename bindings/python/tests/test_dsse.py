"""Envelopes of DSSE: the text of its protocol, what others may write, and each refusal."""

import base64
import json
import random
import unittest

import slh_dsa
from slh_dsa import (
    FormError,
    InvalidSignature,
    PayloadTypeError,
    SigningKey,
    UnsignedError,
    VerifyingKey,
    dsse_pae,
)
from support import FAST, bent, known_key, openssl_keys

TYPE = "application/vnd.in-toto+json"
# protocol.md of DSSE 1.0, "Test vectors"
VECTOR = b"hello world", "http://example.com/HelloWorld"
VECTOR_PAE = b"DSSEv1 29 http://example.com/HelloWorld 11 hello world"


def coded(data):
    return base64.b64encode(data).decode()


class WhatIsSigned(unittest.TestCase):
    """The bytes under a signature, and the id of a key."""

    def test_the_vector_of_the_protocol(self):
        self.assertEqual(dsse_pae(*VECTOR), VECTOR_PAE)

    def test_lengths_are_those_of_bytes(self):
        self.assertEqual(dsse_pae(b"", ""), b"DSSEv1 0  0 ")
        self.assertEqual(dsse_pae(bytearray(b"\0 1"), "\u00e4 1"), b"DSSEv1 4 \xc3\xa4 1 3 \0 1")
        self.assertEqual(dsse_pae(bytes(1000), TYPE)[:38], b"DSSEv1 28 " + TYPE.encode())
        self.assertEqual(dsse_pae(bytes(1000), TYPE)[38:], b" 1000 " + bytes(1000))

    def test_wrong_types(self):
        key = known_key(FAST)
        for pair in ((b"m", b"type"), ("m", "type"), (None, "type"), (b"m", None)):
            for call in (dsse_pae, key.sign_dsse):
                with self.assertRaises(TypeError):
                    call(*pair)
        with self.assertRaises(TypeError):
            key.verifying_key.verify_dsse(key.sign_dsse(b"m", TYPE), TYPE.encode())
        with self.assertRaises(TypeError):
            key.verifying_key.verify_dsse(3, TYPE)

    def test_the_id_is_that_of_sha256sum(self):
        # head -c 32 /dev/zero | sha256sum
        wanted = "66687aadf862bd776c8fc18b8e9f8e20089714856ee233b3902a591d0d5f2925"
        self.assertEqual(VerifyingKey.from_bytes(FAST, bytes(32)).key_id, wanted)


class Envelopes(unittest.TestCase):
    """What is accepted, and each refusal by its name."""

    @classmethod
    def setUpClass(cls):
        cls.key = known_key(FAST)
        cls.public = cls.key.verifying_key
        cls.signature = cls.key.sign(VECTOR_PAE, deterministic=True)

    def fields(self, **changed):
        """An envelope of the vector that isn't written by the package."""
        own = {"keyid": self.public.key_id, "sig": coded(self.signature)}
        fields = {"payload": coded(VECTOR[0]), "payloadType": VECTOR[1], "signatures": [own]}
        return {**fields, **changed}

    def signed(self, *entries):
        return self.fields(signatures=list(entries))

    def opens(self, envelope):
        text = envelope if isinstance(envelope, (str, bytes)) else json.dumps(envelope)
        return self.public.verify_dsse(text, VECTOR[1])

    def refuses(self, error, envelope):
        with self.assertRaises(error) as caught:
            self.opens(envelope)
        self.assertIs(type(caught.exception), error)

    def test_what_is_written(self):
        for options in ({"deterministic": True}, {}):
            line = self.key.sign_dsse(*VECTOR, **options)
            fields = json.loads(line)
            self.assertEqual(line[-2:], b"}\n")
            self.assertEqual(set(fields), {"payload", "payloadType", "signatures"})
            self.assertEqual(base64.b64decode(fields["payload"]), VECTOR[0])
            self.assertEqual(fields["payloadType"], VECTOR[1])
            (entry,) = fields["signatures"]
            self.assertEqual(set(entry), {"keyid", "sig"})
            self.assertEqual(entry["keyid"], self.public.key_id)
            self.public.verify(base64.b64decode(entry["sig"]), VECTOR_PAE)
            self.assertEqual(self.opens(line), VECTOR[0])

    def test_each_set(self):
        for name, private, public in openssl_keys():
            line = SigningKey.from_pem(private, check=False).sign_dsse(b"\xff\0", TYPE)
            self.assertEqual(VerifyingKey.from_pem(public).verify_dsse(line, TYPE), b"\xff\0")

    def test_what_others_may_write(self):
        own = self.fields()["signatures"][0]
        foreign = {"keyid": "f00d", "sig": coded(bytes(64))}
        urls = base64.urlsafe_b64encode(self.signature).decode()
        self.assertNotEqual(urls, own["sig"])
        accepted = [
            self.fields(),
            self.fields(more={"a": [1.5e300, None]}),
            json.dumps(self.fields(), indent=4).encode(),
            bytearray(json.dumps(self.fields()).replace("/", "\\/").encode()),
            self.signed({**own, "sig": urls, "cert": "x"}),
            self.signed({"sig": own["sig"]}),
            self.signed({"keyid": None, "sig": own["sig"]}),
            self.signed({"keyid": "", "sig": own["sig"]}),
            self.signed(foreign, own),
            self.signed({**own, "sig": coded(bytes(17088))}, {**own, "sig": ""}, own),
        ]
        for envelope in accepted:
            if isinstance(envelope, bytearray):
                envelope = bytes(envelope)
            self.assertEqual(self.opens(envelope), VECTOR[0])

    def test_a_form_that_is_none(self):
        own, line = self.fields()["signatures"][0], json.dumps(self.fields())
        without = [{k: v for k, v in self.fields().items() if k != name} for name in self.fields()]
        wrong = [
            b"", b"{}", b"[]", b"null", b"\xff\xfe{}", b"[" * 100_000, "\ud800", line + "x",
            line.replace('"payload"', '"payload": "eA==", "payload"', 1),
            line.encode("utf-16"), *without, self.fields(payload=5), self.fields(payloadType=None),
            self.fields(payload="aGVsbG8gd29ybGQ"), self.fields(payload="aGVsbG8gd29ybGR="),
            self.fields(payload="aGVs bG8gd29ybGQ="), self.fields(payload="\u00e4GVsbG8gd29ybGQ="),
            self.fields(payload="+/-_"), self.fields(signatures=own), self.signed("x"),
            self.signed(None), self.signed({**own, "keyid": 5}), self.signed({**own, "keyid": 0}),
            self.signed({"keyid": own["keyid"]}), self.signed({**own, "sig": own["sig"][:-1]}),
            self.signed(own, {"keyid": "f00d", "sig": "*"}),
        ]  # fmt: skip
        for envelope in wrong:
            self.refuses(FormError, envelope)

    def test_another_type(self):
        for kind in (VECTOR[1] + "/", VECTOR[1].lower(), "", "\ud800"):
            self.refuses(PayloadTypeError, self.fields(payloadType=kind))
        # it comes before the signatures
        self.refuses(PayloadTypeError, self.fields(payloadType=TYPE, signatures=[]))

    def test_no_signature_of_the_key(self):
        own = self.fields()["signatures"][0]
        self.refuses(UnsignedError, self.signed())
        self.refuses(UnsignedError, self.signed({**own, "keyid": own["keyid"].upper()}))
        self.refuses(UnsignedError, self.signed({**own, "keyid": "00" * 32}))

    def test_signatures_that_are_none(self):
        own, other = self.fields()["signatures"][0], SigningKey.generate(FAST)
        short = known_key("SLH-DSA-SHA2-128s").sign(VECTOR_PAE)
        wrong = [
            bent(self.signature, 0), bent(self.signature, 17087), self.signature[1:], b"",
            self.signature + b"\0", other.sign(VECTOR_PAE), short, bytes(64),
            self.key.sign(VECTOR[0]), self.key.sign(VECTOR_PAE, context=b"slh-log"),
            self.key.sign(VECTOR_PAE, prehash="sha256"),
        ]  # fmt: skip
        for signature in wrong:
            for named in (own["keyid"], ""):
                entry = {"keyid": named, "sig": coded(signature)}
                self.refuses(InvalidSignature, self.signed(entry))
        self.refuses(InvalidSignature, self.fields(payload=coded(b"hello worle")))
        with self.assertRaises(UnsignedError):
            self.public.verify_dsse(other.sign_dsse(*VECTOR), VECTOR[1])
        line = self.key.sign_dsse(VECTOR[0], TYPE).decode().replace(TYPE, VECTOR[1])
        self.refuses(InvalidSignature, line)

    def test_bent_and_cut_envelopes(self):
        line, chance = json.dumps(self.fields()).encode(), random.Random(2026)
        for at in [*range(120), *(chance.randrange(len(line)) for _ in range(200))]:
            changed = line[:at] + bytes([chance.randrange(256)]) + line[at + 1 :]
            for envelope in (line[:at], line[:at] + line[at + 1 :], changed):
                try:
                    self.assertEqual(self.opens(envelope), VECTOR[0])
                    # what is accepted says the same
                    self.assertEqual(json.loads(envelope)["payloadType"], VECTOR[1])
                except slh_dsa.SlhDsaError:
                    continue


class EitherPem(unittest.TestCase):
    """A reader that takes each kind of key."""

    def test_keys_that_openssl_made(self):
        for name, private, public in openssl_keys():
            signing = slh_dsa.key_from_pem(private, check=False)
            self.assertIsInstance(signing, SigningKey)
            self.assertEqual(signing.to_pem(), private)
            self.assertEqual(slh_dsa.key_from_pem(public.decode()), signing.verifying_key)
        _, private, _ = openssl_keys()[1]
        self.assertEqual(slh_dsa.key_from_pem(private).to_pem(), private)

    def test_other_texts_are_refused(self):
        _, private, public = openssl_keys()[1]
        encrypted = private.replace(b"PRIVATE", b"ENCRYPTED PRIVATE")
        wanted = "a PRIVATE KEY or PUBLIC KEY is wanted, not a ENCRYPTED PRIVATE KEY"
        wrong = {
            "no PEM block": b"",
            "more than one": private + public,
            wanted: encrypted,
            "no end line": private.replace(b"END PRIVATE", b"END PUBLIC"),
            "isn't a key of SLH-DSA": private.replace(b"PRIVATE", b"PUBLIC"),
        }
        for text, pem in wrong.items():
            with self.subTest(text), self.assertRaisesRegex(slh_dsa.PemError, text):
                slh_dsa.key_from_pem(pem)
        key = SigningKey.from_bytes(FAST, bytes(64), check=False)
        with self.assertRaises(slh_dsa.KeyMismatchError):
            slh_dsa.key_from_pem(key.to_pem())


if __name__ == "__main__":
    unittest.main()
