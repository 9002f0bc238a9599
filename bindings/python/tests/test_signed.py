"""Chains, manifests, batches and logs, of files that a second reading of the formats writes."""

import hashlib
import struct
import sys
import tempfile
import unittest
from pathlib import Path

import slh_dsa
from support import FAST, TOP, bent

sys.path.insert(0, str(TOP / "examples" / "python"))
import update_files  # noqa: E402


def digests(joined):
    """The digests of a proof."""
    return [joined[at : at + 32] for at in range(0, len(joined), 32)]


class Signed(unittest.TestCase):
    """What is accepted, and each refusal by its name."""

    @classmethod
    def setUpClass(cls):
        with tempfile.TemporaryDirectory() as folder:
            update_files.main(folder)
            cls.files = {path.name: path.read_bytes() for path in Path(folder).iterdir()}
        cls.key = slh_dsa.VerifyingKey.from_bytes(FAST, cls.files["root_key"])

    def refuses(self, error, call, *arguments):
        with self.assertRaises(error) as caught:
            call(*arguments)
        self.assertIs(type(caught.exception), error)

    def test_a_chain_is_walked(self):
        end = self.key.walk(self.files["chain"])
        self.assertEqual(end.key.to_bytes(), self.files["end_key"])
        self.assertEqual((end.budget, end.links), (0, 2))
        self.assertEqual(self.key.walk(b""), (self.key, 16, 0))
        self.refuses(slh_dsa.FormError, self.key.walk, self.files["chain"][:-1])
        self.refuses(slh_dsa.BudgetError, self.key.walk, self.files["as_deep"])
        self.refuses(slh_dsa.InvalidSignature, self.key.walk, bent(self.files["chain"], 100))

    def test_a_manifest_has_its_files(self):
        manifest = self.key.open_manifest(self.files["manifest"])
        wanted = [
            slh_dsa.ManifestFile(name, len(data), hashlib.sha256(data).digest())
            for name, data in sorted(update_files.FILES.items())
        ]
        self.assertEqual(list(manifest), wanted)
        for file in wanted:
            self.assertEqual(manifest.find(file.name), file)
        for number in (-1, len(manifest), 1 << 40):
            self.refuses(slh_dsa.NoEntryError, manifest.entry, number)
        self.refuses(slh_dsa.NoEntryError, manifest.find, b"imag")
        self.refuses(slh_dsa.FormError, self.key.open_manifest, b"")
        bad = bent(self.files["manifest"], len(self.files["manifest"]) - 1)
        self.refuses(slh_dsa.InvalidSignature, self.key.open_manifest, bad)

    def test_a_message_of_a_batch_is_accepted(self):
        receipt, message = self.files["receipt"], self.files["message"]
        self.key.accept(receipt, message)
        self.refuses(slh_dsa.InvalidSignature, self.key.accept, receipt, b"another")
        self.refuses(slh_dsa.FormError, self.key.accept, receipt[1:], message)
        head, path = self.key.open_batch(self.files["signed_head"]), digests(self.files["presence"])
        self.assertEqual(head.count, 7)
        head.accept(message, 2, path)
        self.refuses(slh_dsa.InvalidSignature, head.accept, b"another", 2, path)
        self.refuses(slh_dsa.InvalidSignature, head.accept, message, 3, path)
        self.refuses(slh_dsa.FormError, head.accept, message, 2, path[1:])
        self.refuses(slh_dsa.LengthError, head.accept, message, 2, [path[0][1:]])
        for index in (-1, 7, 1 << 40):
            self.refuses(slh_dsa.NoEntryError, head.accept, message, index, path)
        bad = bent(self.files["signed_head"], 5)
        self.refuses(slh_dsa.InvalidSignature, self.key.open_batch, bad)

    def test_a_log_has_its_entry_and_grew(self):
        origin = update_files.ORIGIN.decode()
        old, new = (
            self.key.open_checkpoint(origin, self.files[f"checkpoint_{n}"]) for n in (3, 7)
        )
        heads = [struct.unpack("<Q32s", self.files[f"head_of_{n}"]) for n in (3, 7)]
        self.assertEqual([old, new], heads)
        presence, growth = (digests(self.files[name]) for name in ("presence", "growth"))
        new.check_presence(2, self.files["message"], presence)
        self.refuses(slh_dsa.InvalidSignature, new.check_presence, 2, b"another", presence)
        self.refuses(slh_dsa.NoEntryError, new.check_presence, 7, b"", presence)
        old.check_growth(new, growth)
        self.refuses(slh_dsa.SmallerLogError, new.check_growth, old, growth)
        self.refuses(slh_dsa.LengthError, old.check_growth, new, growth[1:])
        self.refuses(slh_dsa.EmptyLogError, slh_dsa.LogHead(0, bytes(32)).check_growth, new, [])
        open_checkpoint, checkpoint = self.key.open_checkpoint, self.files["checkpoint_7"]
        self.refuses(slh_dsa.OriginError, open_checkpoint, "example.org/other", checkpoint)
        self.refuses(slh_dsa.FormError, open_checkpoint, origin, checkpoint[:-1])
        other = slh_dsa.VerifyingKey.from_bytes(FAST, bytes(32))
        self.refuses(slh_dsa.UnsignedError, other.open_checkpoint, origin, checkpoint)


if __name__ == "__main__":
    unittest.main()
