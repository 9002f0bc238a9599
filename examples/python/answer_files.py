"""Files of crates/slh_answers/data that are made without this repository's programs.

    answer_files.py FOLDER    writes them there

All are of the set SLH-DSA-SHA2-128f, by second_reading.py. Those below `known` are what the commands of
the stored run have to write; the others are read by them. Keys under a passphrase are encrypted by libcrypto.
"""

import base64
import hashlib
import json
import sys
from pathlib import Path
from struct import pack

import encrypted_keys as encrypted
import second_reading as second

NOTES = b"Version 1.2 is out.\n"
ORIGIN = b"example.com/log"
HELLO = b"Hello"
OID = "300b0609608648016503040315"
SHA512 = bytes.fromhex("0609608648016503040203")


def framed_digest(name, oid, message, context):
    """M' of algorithm 23."""
    return bytes([1, len(context)]) + context + oid + hashlib.new(name, message).digest()


def layer_digits(message):
    """The digits that the chains of a layer sign (algorithm 7)."""
    digits = [digit for byte in message for digit in (byte >> 4, byte & 15)]
    checksum = sum(15 - digit for digit in digits)
    return digits + [checksum >> 8, checksum >> 4 & 15, checksum & 15]


def places(key, framed):
    """What the digest of a message says: the randomizer, the indices, the tree and the leaf (algorithm 19)."""
    _, sk_prf, seed, root = key
    randomizer = second.hmac.new(sk_prf, seed + framed, hashlib.sha256).digest()[: second.N]
    digest = second.message_digest(randomizer, seed, root, framed)
    bits = int.from_bytes(digest[:25], "big") >> 2
    indices = [bits >> second.A * (second.K - 1 - i) & 63 for i in range(second.K)]
    return randomizer, indices, int.from_bytes(digest[25:33], "big") % (1 << 63), digest[33] % 8


def foreign(key, framed):
    """A signature that the key accepts and doesn't make: its forest is one of another secret seed. And the
    first chain of layer 0 that gives away more than the key's own signature, as an audit's evidence."""
    randomizer, indices, tree, place = places(key, framed)
    other = (bytes([9]) * second.N, *key[1:])
    forest, signed = second.fors_sign(other, tree, place, indices)
    _, own = second.fors_sign(key, tree, place, indices)
    pairs = zip(layer_digits(signed), layer_digits(own))
    chain = next(i for i, (ours, theirs) in enumerate(pairs) if ours < theirs)
    parts = [randomizer, forest]
    for layer in range(second.D):
        path, above = second.xmss(key, layer, tree, place)
        parts += [second.wots_sign(key, layer, tree, place, signed), path]
        signed, tree, place = above, tree >> 3, tree % 8
    return b"".join(parts), b"early 0 %d\n" % chain


def bent(data, at, bit=1):
    """Bytes with a bit turned."""
    return data[:at] + bytes([data[at] ^ bit]) + data[at + 1 :]


def key_line(value):
    return second.SET + b" " + value.hex().encode() + b"\n"


def private_der(key):
    return bytes.fromhex(f"3052020100{OID}0440") + key


def private_pem(key):
    return second.pem("PRIVATE KEY", f"3052020100{OID}0440", key)


def public_pem(key):
    return second.pem("PUBLIC KEY", f"3030{OID}032100", key)


def keys(key, daily):
    """Keys, some of which are none."""
    joined = b"".join(key)
    hello = second.keygen(*(bytes([i]) * second.N for i in (1, 2, 3)))
    line = key_line(b"".join(hello))
    return hello, {
        "bent.key": private_pem(bent(joined, len(joined) - 1)),
        "other.pub": public_pem(bent(second.verifying(key), 31)),
        "hello.key": line,
        "hello.pub": key_line(second.verifying(hello)),
        "two.keys": line + line,
        "known/daily.key": private_pem(b"".join(daily)),
        "known/daily.pub": public_pem(second.verifying(daily)),
    }


def locked(key, hello):
    """Keys under a passphrase, one by another cipher and one of too many iterations, and passphrases."""
    words, longest = b"correct horse", b"x" * 1024
    own = private_der(b"".join(key))
    first = encrypted.encrypt(own, words, 2048)
    files = {
        "locked.key": first,
        "locked.aes128.key": encrypted.encrypt(own, words, 2048, "AES-128-CBC"),
        "locked.des3.key": encrypted.encrypt(own, words, 2048, "DES-EDE3-CBC"),
        "locked.hello.key": encrypted.encrypt(private_der(b"".join(hello)), words, 2048),
        "locked.long.key": encrypted.encrypt(own, longest, 2048),
        "locked.slow.key": encrypted.with_count(first, bytes.fromhex("02043b9aca00")),
    }
    return {name: encrypted.pem_of(file, encrypted.ENCRYPTED).encode() for name, file in files.items()} | {
        "passphrase": words + b"\n",
        "passphrase.crlf": words + b"\r\nand another line\r\n",
        "passphrase.empty": b"\n" + words,
        "passphrase.long": longest + b"x",
        "passphrase.longest": longest,
        "passphrase.other": b"wrong horse\n",
    }


def signatures(key, hello):
    """What signs the notes, and a signature that its key didn't make."""
    framed = framed_digest("sha512", SHA512, NOTES, b"release")
    digest = hashlib.sha256(NOTES).digest()
    strange = framed_digest("sha512", SHA512, HELLO, b"release")
    signature, evidence = foreign(hello, strange)
    return {
        "known/context.sig": second.sign(key, NOTES, b"release"),
        "known/sha256.sig": second.sign_digest(key, digest),
        "known/sha512.sig": second.sign_framed(key, framed),
        "hello.foreign.sha512": signature,
        "known/evidence": evidence,
    }


def signed_text(payload_type, payload):
    """What is signed of an envelope of DSSE 1.0."""
    return b"DSSEv1 %d %b %d %b" % (len(payload_type), payload_type, len(payload), payload)


def signature_by(key, signature):
    """A signature of an envelope, with the id of a key."""
    return {"keyid": hashlib.sha256(second.verifying(key)).hexdigest()} | nameless(signature)


def nameless(signature, code=base64.b64encode):
    """A signature without an id."""
    return {"sig": code(signature).decode()}


def envelope(payload_type, payload, *signatures, **others):
    members = {"payload": base64.b64encode(payload).decode(), "payloadType": payload_type.decode()}
    return json.dumps(members | {"signatures": signatures} | others, separators=(",", ":")).encode() + b"\n"


def envelopes(key, hello):
    """The notes in envelopes: signed by the key; with a bit of the signature turned, under the key's id and
    under none; signed by another key, with its id; by the key with that id; and by both without ids, one in
    base64 for URLs."""
    text = signed_text(b"text/plain", NOTES)
    own, others = second.sign(key, text), second.sign(hello, text)
    both = nameless(others), nameless(own, base64.urlsafe_b64encode)
    return {
        "known/notes.dsse": envelope(b"text/plain", NOTES, signature_by(key, own)),
        "bent.dsse": envelope(b"text/plain", NOTES, signature_by(key, bent(own, 4000))),
        "nameless.dsse": envelope(b"text/plain", NOTES, nameless(bent(own, 20))),
        "other.dsse": envelope(b"text/plain", NOTES, signature_by(hello, others)),
        "renamed.dsse": envelope(b"text/plain", NOTES, signature_by(hello, own)),
        "both.dsse": envelope(b"text/plain", NOTES, *both, more=[1, {"a": None}]),
        "unsigned.dsse": envelope(b"text/plain", NOTES),
        "changed.dsse": envelope(b"text/plain", NOTES + b".", signature_by(key, own)),
        "cut.dsse": envelope(b"text/plain", NOTES, signature_by(key, own))[:-2],
    }


def groups(key, daily):
    """A batch of three, and a chain of two links."""
    nightly = second.verifying(second.derived(bytes(range(32)), 2, 2026))
    head, receipts = second.batch(key, [b"entry %d\n" % i for i in range(3)])
    first = second.link(key, 3, b"release", second.verifying(daily))
    chain = second.link(key, 0, b"daily", second.verifying(daily))
    files = {
        "bent.chain": bent(chain, 1000),
        "nightly.pub": public_pem(nightly),
        "known/entries.head": head,
        "known/long.chain": first + second.link(daily, 0, b"nightly", nightly),
    }
    return files | {f"known/entry{i}.receipt": receipt for i, receipt in enumerate(receipts)}


def small_logs(key):
    """The log of second_reading.py with something altered, and a proof whose first line is another's."""
    files = second.log(key, ORIGIN, second.LOGGED, 6, 5)
    tile, entries = files["log/tile/0/000.p/8"], files["log/tile/entries/000.p/8"]
    seven = second.tree_root([tile[i : i + 32] for i in range(0, 224, 32)])
    growth = files["log.growth"].split(b"\n\n")[0]
    return {
        "bent.log/tile/0/000.p/8": bent(tile, 255),
        "forged.log/checkpoint": bent(files["log/checkpoint"], 1418, 4),
        "other.log/checkpoint": second.checkpoint(key, ORIGIN, 8, seven),
        "long.tile": tile + b"\0",
        "long.entries": entries + b"\0",
        "known/log.empty": second.checkpoint(key, ORIGIN, 0, hashlib.sha256().digest()),
        "other.growth": growth.replace(b"old 6", b"old 5") + b"\n\n\n",
    } | {f"entries/{i}": entry for i, entry in enumerate(second.LOGGED)}


def long_log(key):
    """The lines of a log with full tiles, and proofs over it."""
    lines = [b"this is the entry with number %04d" % i for i in range(2100)]
    log = second.log(key, ORIGIN, lines, 1500, 5)
    return {
        "lines": b"".join(line + b"\n" for line in lines),
        "known/lines.proof": log["log.entry.proof"],
        "known/lines.growth": log["log.growth"],
    }


def main(folder):
    second.main(folder)
    master = bytes(range(32))
    key, daily = second.derived(master, 1), second.derived(master, 2)
    hello, files = keys(key, daily)
    files |= locked(key, hello) | signatures(key, hello) | envelopes(key, hello) | groups(key, daily)
    files |= small_logs(key) | long_log(key)
    for name, value in files.items():
        path = Path(folder) / name
        path.parent.mkdir(parents=True, exist_ok=True)
        path.write_bytes(value)


if __name__ == "__main__":
    main(*sys.argv[1:])
