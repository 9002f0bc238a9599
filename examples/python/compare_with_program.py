#!/usr/bin/env python3
"""Holds the library to the program: random calls of both, whose answers must be the same.

compare_with_program.py COUNT [NUMBER], with SLH_PROGRAM for the program; the library is that of the
package of bindings/python. NUMBER picks other calls, the same each time.
"""

import os
import random
import subprocess
import sys

from slh_dsa import EVIDENCE_KINDS, PARAMETER_SETS, Evidence, SigningKey, SlhDsaError, VerifyingKey

ERRORS = {1: "invalid", 4: "key", 5: "length", 6: "context", 7: "randomizer", 8: "message"}
PREHASHES = [None, "sha256", "sha512"]


def command(verb, prehash):
    return verb if prehash is None else f"{verb}-{prehash}"


def written(evidence):
    """The evidence as a line has it."""
    kind, layer, index, level = evidence
    places = [(index, level), (), (layer, index, level), (layer,), (layer, level), (layer, index)]
    return " ".join(map(str, [kind, *places[EVIDENCE_KINDS.index(kind)]]))


class Calls:
    """Random calls of a set: the words of a line, and a call that gives the reply to it."""

    def __init__(self, name, chance):
        self.name, self.chance = name, chance
        self.n = {"128": 16, "192": 24, "256": 32}[name[-4:-1]]
        key = SigningKey.from_seeds(name, self.bytes(3 * self.n))
        self.key, self.public = key.to_bytes(), key.verifying_key.to_bytes()
        self.signed = []

    def bytes(self, count):
        return self.chance.randbytes(count)

    def prehash(self):
        return self.chance.choice(PREHASHES)

    def signing_key(self, key):
        """A key as it comes: the program looks at its root where the library does."""
        return SigningKey.from_bytes(self.name, key, check=False)

    def context(self):
        return self.bytes(self.chance.choice([0, 0, 1, 20, 254, 255, 256]))

    def bent(self, data):
        """The data, or now and then other data: a byte less or more, none, or a bit changed."""
        kind = self.chance.randrange(16)
        if kind == 3 and data:
            at = self.chance.randrange(len(data))
            return data[:at] + bytes([data[at] ^ 1 << self.chance.randrange(8)]) + data[at + 1 :]
        return {0: data[:-1], 1: data + b"\0", 2: b""}.get(kind, data)

    def keygen(self):
        seeds = [self.bytes(self.n), self.bytes(self.n), self.bent(self.bytes(self.n))]

        def reply():
            key = SigningKey.from_seeds(self.name, b"".join(seeds))
            return f"key {key.to_bytes().hex()} {key.verifying_key.to_bytes().hex()}"

        return ["keygen", *seeds], reply

    def sign(self):
        prehash, key, context = self.prehash(), self.bent(self.key), self.context()
        message = self.bytes(self.chance.randrange(200))
        rand = self.bent(self.bytes(self.n)) if self.chance.randrange(2) else None

        def reply():
            options = {"deterministic": True} if rand is None else {"randomizer": rand}
            made = self.signing_key(key).sign(message, context=context, prehash=prehash, **options)
            if key == self.key:
                self.signed.append((prehash, context, message, made))
            return f"sig {made.hex()}"

        words = [command("sign", prehash), key, context, message]
        return [*words, "none" if rand is None else rand], reply

    def taken(self):
        """A signature that was made, in which one thing may be another."""
        prehash, context, message, signature = self.chance.choice(self.signed)
        if self.chance.randrange(8) == 0:
            prehash = self.prehash()
        if self.chance.randrange(8) == 0:
            context = self.context()
        return prehash, context, self.bent(message), self.bent(signature)

    def verify(self):
        (prehash, context, message, signature), public = self.taken(), self.bent(self.public)

        def reply():
            key = VerifyingKey.from_bytes(self.name, public)
            key.verify(signature, message, context=context, prehash=prehash)
            return "accepted"

        return [command("verify", prehash), public, context, message, signature], reply

    def audit(self):
        (prehash, context, message, signature), key = self.taken(), self.bent(self.key)

        def reply():
            holder = self.signing_key(key)
            found = holder.audit(signature, message, context=context, prehash=prehash)
            return "genuine" if found is None else f"foreign {written(found)}"

        return [command("audit", prehash), key, context, message, signature], reply

    def check(self):
        (prehash, context, message, signature), key = self.taken(), self.bent(self.key)
        places = [self.chance.randrange(8) for _ in "xyz"]
        evidence = Evidence(self.chance.choice(EVIDENCE_KINDS), *places)

        def reply():
            options = {"context": context, "prehash": prehash}
            is_shown = self.signing_key(key).check_evidence(evidence, signature, message, **options)
            return "shown" if is_shown else "not shown"

        fields = [command("check", prehash), key, context, message, signature]
        return fields + written(evidence).split(), reply

    def any(self):
        kinds = [self.keygen, self.sign, self.verify, self.verify, self.audit, self.check]
        return self.chance.choice(kinds if self.signed else [self.sign])()


def answer(reply):
    try:
        return reply()
    except SlhDsaError as error:
        return f"error {ERRORS[error.status]}"


def line(name, words):
    texts = [word if isinstance(word, str) else word.hex() or "-" for word in words]
    return " ".join([name, *texts])


def main(count, number=0):
    chance = random.Random(number)
    sets = [Calls(name, chance) for name in PARAMETER_SETS]
    lines, wanted = [], []
    for _ in range(count):
        calls = chance.choice(sets)
        words, reply = calls.any()
        lines.append(line(calls.name, words))
        wanted.append(answer(reply))
    given = "\n".join(lines) + "\n"
    ran = subprocess.run([os.environ["SLH_PROGRAM"]], input=given, capture_output=True, text=True)
    if ran.returncode != 0 or ran.stdout.splitlines() != wanted:
        sys.exit(f"status {ran.returncode}, and other replies than the library's answers")
    refused = sum(text.startswith("error") for text in wanted)
    print(f"{count} calls, {refused} of them refused: the replies are the library's answers")


main(*map(int, sys.argv[1:]))
