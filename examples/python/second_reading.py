"""A second reading of FIPS 205 and docs/FORMATS.md, for one set: SLH-DSA-SHA2-128f.

    second_reading.py FOLDER    writes the files of the example in docs/FORMATS.md there

Names are the standard's. Nothing here is fast, and no secret is safe with it.
"""

import base64
import hashlib
import hmac
import sys
from pathlib import Path
from struct import pack

SET = b"SLH-DSA-SHA2-128f"
N, D, H_PRIME, A, K, M = 16, 22, 3, 6, 33, 34
LEN = 2 * N + 3
WOTS_HASH, WOTS_PK, TREE, FORS_TREE, FORS_ROOTS, WOTS_PRF, FORS_PRF = range(7)


def sha256(*parts):
    return hashlib.sha256(b"".join(parts)).digest()


def address(layer, tree, kind, *words):
    """ADRS in 22 bytes (section 11.2): the layer, the tree, the type, and three words."""
    return pack(">BQBIII", layer, tree, kind, *words)


def tweaked(seed, adrs, *values):
    """F, H, T and PRF of category 1 (section 11.2.1)."""
    return sha256(seed, bytes(64 - N), adrs, *values)[:N]


def chain(seed, layer, tree, pair, number, value, start, end):
    """Algorithm 5."""
    for step in range(start, end):
        value = tweaked(seed, address(layer, tree, WOTS_HASH, pair, number, step), value)
    return value


def chain_secret(key, layer, tree, pair, number):
    sk_seed, _, seed, _ = key
    return tweaked(seed, address(layer, tree, WOTS_PRF, pair, number, 0), sk_seed)


def leaf(key, layer, tree, pair):
    """Algorithm 6."""
    seed = key[2]
    ends = [
        chain(seed, layer, tree, pair, i, chain_secret(key, layer, tree, pair, i), 0, 15)
        for i in range(LEN)
    ]
    return tweaked(seed, address(layer, tree, WOTS_PK, pair, 0, 0), *ends)


def wots_sign(key, layer, tree, pair, message):
    """Algorithm 7."""
    digits = [digit for byte in message for digit in (byte >> 4, byte & 15)]
    checksum = sum(15 - digit for digit in digits)
    digits += [checksum >> 8, checksum >> 4 & 15, checksum & 15]
    return b"".join(
        chain(key[2], layer, tree, pair, i, chain_secret(key, layer, tree, pair, i), 0, digit)
        for i, digit in enumerate(digits)
    )


def climb(seed, nodes, place, node_address):
    """The path of a place in a tree over nodes, and the tree's root (algorithms 9 to 11, 15 to 17)."""
    path, height = [], 0
    while len(nodes) > 1:
        path.append(nodes[place ^ 1])
        place, height = place // 2, height + 1
        nodes = [
            tweaked(seed, node_address(height, i), nodes[2 * i], nodes[2 * i + 1])
            for i in range(len(nodes) // 2)
        ]
    return b"".join(path), nodes[0]


def xmss(key, layer, tree, place):
    leaves = [leaf(key, layer, tree, pair) for pair in range(1 << H_PRIME)]
    return climb(
        key[2], leaves, place, lambda height, i: address(layer, tree, TREE, 0, height, i)
    )


def fors_sign(key, tree, pair, indices):
    """Algorithms 16 and 17: the forest's signature and its public key."""
    sk_seed, _, seed, _ = key
    signature, roots = [], []
    for number, place in enumerate(indices):
        first = number << A
        secrets = [
            tweaked(seed, address(0, tree, FORS_PRF, pair, 0, first + i), sk_seed)
            for i in range(1 << A)
        ]
        nodes = [
            tweaked(seed, address(0, tree, FORS_TREE, pair, 0, first + i), secret)
            for i, secret in enumerate(secrets)
        ]
        path, root = climb(
            seed,
            nodes,
            place,
            lambda height, i: address(0, tree, FORS_TREE, pair, height, (first >> height) + i),
        )
        signature.append(secrets[place] + path)
        roots.append(root)
    return b"".join(signature), tweaked(seed, address(0, tree, FORS_ROOTS, pair, 0, 0), *roots)


def keygen(sk_seed, sk_prf, seed):
    """Algorithm 18."""
    return sk_seed, sk_prf, seed, xmss((sk_seed, sk_prf, seed, b""), D - 1, 0, 0)[1]


def message_digest(randomizer, seed, root, message):
    """H_msg: MGF1 over SHA-256 (section 11.2.1)."""
    mask = randomizer + seed + sha256(randomizer, seed, root, message)
    return (sha256(mask, pack(">I", 0)) + sha256(mask, pack(">I", 1)))[:M]


def sign(key, message, context=b""):
    """Algorithm 22, deterministic: a signature in mode pure."""
    return sign_framed(key, bytes([0, len(context)]) + context + message)


def sign_digest(key, digest, context=b""):
    """Algorithm 23, deterministic, of a digest by SHA-256."""
    oid = bytes.fromhex("0609608648016503040201")
    return sign_framed(key, bytes([1, len(context)]) + context + oid + digest)


def sign_framed(key, framed):
    """Algorithm 19, deterministic."""
    _, sk_prf, seed, root = key
    randomizer = hmac.new(sk_prf, seed + framed, hashlib.sha256).digest()[:N]
    digest = message_digest(randomizer, seed, root, framed)
    bits = int.from_bytes(digest[:25], "big") >> 2
    indices = [bits >> A * (K - 1 - i) & (1 << A) - 1 for i in range(K)]
    tree = int.from_bytes(digest[25:33], "big") % (1 << 63)
    place = digest[33] % (1 << H_PRIME)
    signature, signed = fors_sign(key, tree, place, indices)
    parts = [randomizer, signature]
    for layer in range(D):
        path, above = xmss(key, layer, tree, place)
        parts += [wots_sign(key, layer, tree, place, signed), path]
        signed, tree, place = above, tree >> H_PRIME, tree % (1 << H_PRIME)
    return b"".join(parts)


def derived(master, *path):
    """The key of a master at a path."""
    extracted = hmac.new(b"slh-ring", master, hashlib.sha256).digest()
    numbers = b"".join(pack(">I", number) for number in path)
    info = b"key" + bytes([len(SET)]) + SET + bytes([len(path)]) + numbers
    first = hmac.new(extracted, info + b"\1", hashlib.sha256).digest()
    second = hmac.new(extracted, first + info + b"\2", hashlib.sha256).digest()
    seeds = first + second
    return keygen(seeds[:N], seeds[N : 2 * N], seeds[2 * N : 3 * N])


def verifying(key):
    return key[2] + key[3]


def pem(label, before, value):
    symbols = base64.b64encode(bytes.fromhex(before) + value).decode()
    lines = [symbols[i : i + 64] for i in range(0, len(symbols), 64)]
    return "\n".join([f"-----BEGIN {label}-----", *lines, f"-----END {label}-----", ""]).encode()


def tree_root(leaves):
    """RFC 9162, section 2.1.1."""
    if len(leaves) == 1:
        return leaves[0]
    half = 1 << (len(leaves) - 1).bit_length() - 1
    return sha256(b"\1", tree_root(leaves[:half]), tree_root(leaves[half:]))


def tree_path(place, leaves):
    """RFC 9162, section 2.1.3.1."""
    if len(leaves) == 1:
        return b""
    half = 1 << (len(leaves) - 1).bit_length() - 1
    if place < half:
        return tree_path(place, leaves[:half]) + tree_root(leaves[half:])
    return tree_path(place - half, leaves[half:]) + tree_root(leaves[:half])


def growth_proof(size, leaves, known=True):
    """RFC 9162, section 2.1.4.1. `known` is whether the verifier has the root of the first `size` leaves."""
    if size == len(leaves):
        return [] if known else [tree_root(leaves)]
    half = 1 << (len(leaves) - 1).bit_length() - 1
    if size <= half:
        return growth_proof(size, leaves[:half], known) + [tree_root(leaves[half:])]
    return growth_proof(size - half, leaves[half:], False) + [tree_root(leaves[:half])]


def batch(key, messages):
    """The head of a batch, and the receipts of its messages."""
    leaves = [sha256(b"\0", message) for message in messages]
    number = pack(">I", len(leaves))
    signed = number + tree_root(leaves)
    signature = sign(key, signed, b"slh-batch")
    receipts = [
        pack(">I", i) + number + tree_path(i, leaves) + signature for i in range(len(messages))
    ]
    return signed + signature, receipts


def link(key, depth, name, subject):
    body = bytes([depth, len(name)]) + name + subject
    return body + sign(key, body, b"slh-chain")


def manifest(key, files):
    body = pack(">I", len(files))
    for name in sorted(files):
        body += bytes([len(name)]) + name + pack(">Q", len(files[name])) + sha256(files[name])
    return body + sign(key, body, b"slh-manifest")


def record(master, paths):
    body = b"SLHR\1" + bytes([len(SET)]) + SET + pack(">H", len(paths))
    for path in sorted(paths):
        numbers = b"".join(pack(">I", number) for number in path)
        body += bytes([len(path)]) + numbers + sha256(verifying(derived(master, *path)))[:8]
    return SET + b" " + body.hex().encode() + b"\n"


def text(digest):
    return base64.b64encode(digest) + b"\n"


def checkpoint(key, origin, size, root):
    """The head of a log: the text that is signed, and the line of its signature."""
    signed = origin + b"\n%d\n" % size + text(root)
    key_id = sha256(origin, b"\n\xff", SET, b"\n", verifying(key))[:4]
    signature = base64.b64encode(key_id + sign(key, signed, b"slh-log"))
    return signed + b"\n" + "\u2014 ".encode() + origin + b" " + signature + b"\n"


def log(key, origin, entries, old, place):
    """The folder of a log, its checkpoint at an older size, and two proofs."""
    leaves = [sha256(b"\0", entry) for entry in entries]
    size, path = len(leaves), tree_path(place, leaves)
    head = checkpoint(key, origin, size, tree_root(leaves))
    path = b"".join(text(path[i : i + 32]) for i in range(0, len(path), 32))
    proof = b"".join(map(text, growth_proof(old, leaves)))
    return {
        "log/checkpoint": head,
        f"log/tile/0/000.p/{size}": b"".join(leaves),
        f"log/tile/entries/000.p/{size}": b"".join(pack(">H", len(it)) + it for it in entries),
        "log.before": checkpoint(key, origin, old, tree_root(leaves[:old])),
        "log.entry.proof": b"c2sp.org/tlog-proof@v1\nindex %d\n" % place + path + b"\n" + head,
        "log.growth": b"old %d\n" % old + proof + b"\n" + head,
    }


# The entries of the reference tree of the Certificate Transparency project.
LOGGED = [bytes.fromhex(it) for it in ["", "00", "10", "2021", "3031", "40414243"]]
LOGGED += [bytes(range(0x50, 0x58)), bytes(range(0x60, 0x70))]


def main(folder):
    master = bytes(range(32))
    key, subject = derived(master, 1), verifying(derived(master, 2))
    oid = "300b0609608648016503040315"
    files = {
        "example.key": pem("PRIVATE KEY", f"3052020100{oid}0440", b"".join(key)),
        "example.pub": pem("PUBLIC KEY", f"3030{oid}032100", verifying(key)),
        "notes.txt.sig": sign(key, b"Version 1.2 is out.\n"),
        "chain": link(key, 0, b"daily", subject),
        "manifest": manifest(key, {b"version": b"version 7\n", b"lib/empty": b""}),
        "ring": record(master, [[1], [2, 2026]]),
    }
    files["entries.head"], receipts = batch(key, [b"entry %d\n" % i for i in range(3)])
    for i, receipt in enumerate(receipts):
        files[f"entry{i}.receipt"] = receipt
    files |= log(key, b"example.com/log", LOGGED, 6, 5)
    for name, value in files.items():
        path = Path(folder) / name
        path.parent.mkdir(parents=True, exist_ok=True)
        path.write_bytes(value)


if __name__ == "__main__":
    main(*sys.argv[1:])
