"""Messages in files."""

import gzip
import hashlib
import io
import os
import tempfile
import unittest
from pathlib import Path

import slh_dsa
from slh_dsa import InvalidSignature, _files
from support import FAST, known_key

SIZES = (0, 1, 4096, _files._PIECE_BYTES - 1, _files._PIECE_BYTES, 3 * _files._PIECE_BYTES + 5)


class Files(unittest.TestCase):
    """A file is signed as its bytes are."""

    def setUp(self):
        self.key = known_key(FAST)
        self.public = self.key.verifying_key
        folder = tempfile.TemporaryDirectory()
        self.addCleanup(folder.cleanup)
        self.path = Path(folder.name) / "message"

    def signed(self, source, prehash=None):
        return self.key.sign_file(source, prehash=prehash, deterministic=True)

    def test_each_size_and_mode(self):
        for size in SIZES:
            message = os.urandom(size)
            self.path.write_bytes(message)
            for prehash in (None, "sha256", "sha512"):
                with self.subTest(size=size, prehash=prehash):
                    wanted = self.key.sign(message, prehash=prehash, deterministic=True)
                    self.assertEqual(self.signed(self.path, prehash), wanted)
                    self.public.verify_file(wanted, str(self.path), prehash=prehash)
                    with open(self.path, "ab") as file:
                        file.write(b"x")
                    with self.assertRaises(InvalidSignature):
                        self.public.verify_file(wanted, self.path, prehash=prehash)
                    self.path.write_bytes(message)

    def test_open_files_from_where_they_stand(self):
        self.path.write_bytes(b"head and the message")
        wanted = {
            prehash: self.key.sign(b"and the message", prehash=prehash, deterministic=True)
            for prehash in (None, "sha256")
        }
        for prehash, signature in wanted.items():
            for how in (-1, 0):
                with open(self.path, "rb", buffering=how) as file:
                    file.read(5)
                    self.assertEqual(self.signed(file, prehash), signature)
            memory = io.BytesIO(b"head and the message")
            memory.read(5)
            self.assertEqual(self.signed(memory, prehash), signature)

    def test_what_a_file_reads_is_signed_and_not_its_memory(self):
        with gzip.open(self.path, "wb") as file:
            file.write(b"message")
        for prehash in (None, "sha512"):
            with gzip.open(self.path) as file:
                self.assertEqual(
                    self.signed(file, prehash),
                    self.key.sign(b"message", prehash=prehash, deterministic=True),
                )
        with open(self.path, "w+b") as file:
            file.write(b"not flushed")
            file.seek(0)
            wanted = self.key.sign(b"not flushed", deterministic=True)
            self.assertEqual(self.signed(file), wanted)

    def test_a_pipe(self):
        reading, writing = os.pipe()
        os.write(writing, b"message")
        os.close(writing)
        with open(reading, "rb") as file:
            self.assertEqual(self.signed(file), self.key.sign(b"message", deterministic=True))

    def test_a_context_and_a_digest(self):
        self.path.write_bytes(b"message")
        signature = self.key.sign_file(self.path, context=b"c", prehash="sha512")
        digest = hashlib.sha512(b"message").digest()
        self.public.verify_digest(signature, digest, prehash="sha512", context=b"c")
        with self.assertRaises(InvalidSignature):
            self.public.verify_file(signature, self.path, prehash="sha512")

    def test_what_is_no_file(self):
        for source in (b"message", 3, None):
            with self.assertRaises(TypeError):
                self.key.sign_file(source)
        with self.assertRaises(FileNotFoundError):
            self.key.sign_file(self.path)
        with self.assertRaises(IsADirectoryError):
            self.key.sign_file(self.path.parent)
        self.path.write_bytes(b"message")
        with open(self.path) as text, self.assertRaises(TypeError):
            self.key.sign_file(text)
        with self.assertRaises(slh_dsa.UnknownPrehashError):
            self.key.sign_file(self.path, prehash="sha1")


if __name__ == "__main__":
    unittest.main()
