"""What an updater reads, by a second reading of FIPS 205, docs/FORMATS.md and RFC 9162.

    update_files.py FOLDER    writes a root key, a chain of two links, a manifest, a receipt, the head
                              of its batch, and two checkpoints of a log with proofs there, and a
                              chain, a manifest and a receipt of the most bytes that there can be,
                              which examples/c/updates.c reads

The set is SLH-DSA-SHA2-128f.
"""

import base64
import sys
from pathlib import Path
from struct import pack

from second_reading import (
    SET,
    batch,
    derived,
    link,
    manifest,
    sha256,
    sign,
    tree_path,
    tree_root,
    verifying,
)

ORIGIN = b"example.org/log"
ENTRIES = [b"entry %d\n" % i for i in range(7)]
FILES = {b"image": b"an image", b"lib/empty": b"", b"version": b"version 7\n"}


def growth(old, leaves, is_whole=True):
    """RFC 9162, section 2.1.4.1: SUBPROOF(old, leaves, is_whole)."""
    if old == len(leaves):
        return b"" if is_whole else tree_root(leaves)
    half = 1 << (len(leaves) - 1).bit_length() - 1
    if old <= half:
        return growth(old, leaves[:half], is_whole) + tree_root(leaves[half:])
    return growth(old - half, leaves[half:], False) + tree_root(leaves[:half])


def checkpoint(key, leaves):
    """C2SP's tlog-checkpoint, as a note that is signed with one key and that a witness signed, too."""
    text = b"%s\n%d\n%s\n" % (ORIGIN, len(leaves), base64.b64encode(tree_root(leaves)))
    key_id = sha256(ORIGIN, b"\n\xff", SET, b"\n", verifying(key))[:4]
    signed = base64.b64encode(key_id + sign(key, text, b"slh-log"))
    dash = "\u2014 ".encode()
    return text + b"\n" + dash + b"witness AAAA\n" + dash + ORIGIN + b" " + signed + b"\n"


def main(folder):
    root, middle, end = (derived(bytes(32), number) for number in (1, 2, 3))
    first = link(root, 3, b"releases", verifying(middle))
    leaves = [sha256(b"\0", entry) for entry in ENTRIES]
    signed_head, receipts = batch(root, ENTRIES)
    files = {
        "root_key": verifying(root),
        "first_link": first,
        "chain": first + link(middle, 0, b"nightly", verifying(end)),
        "as_deep": first + link(middle, 3, b"nightly", verifying(end)),
        "end_key": verifying(end),
        "manifest": manifest(root, FILES),
        "image_digest": sha256(FILES[b"image"]),
        "message": ENTRIES[2],
        "receipt": receipts[2],
        "signed_head": signed_head,
        "head_of_3": pack("<Q", 3) + tree_root(leaves[:3]),
        "head_of_7": pack("<Q", 7) + tree_root(leaves),
        "checkpoint_3": checkpoint(root, leaves[:3]),
        "checkpoint_7": checkpoint(root, leaves),
        "presence": tree_path(2, leaves),
        "growth": growth(3, leaves),
    }
    for name, value in files.items():
        (Path(folder) / name).write_bytes(value)


def longest(folder):
    """16 links, 4096 entries, the last of 2^20 messages, and the longest names."""
    root, number = derived(bytes(32), 1), pack(">I", 1 << 20)
    links = [link(root, depth, b"n" * 64, verifying(root)) for depth in range(15, -1, -1)]
    entries = {b"%0255d" % i: b"" for i in range(4096)}
    path = [sha256(bytes([i])) for i in range(20)]
    digest = sha256(b"\0", ENTRIES[2])
    for sibling in path:
        digest = sha256(b"\1", sibling, digest)
    receipt = pack(">I", (1 << 20) - 1) + number + b"".join(path)
    files = {
        "longest_chain": b"".join(links),
        "longest_manifest": manifest(root, entries),
        "longest_receipt": receipt + sign(root, number + digest, b"slh-batch"),
    }
    for name, value in files.items():
        (Path(folder) / name).write_bytes(value)


if __name__ == "__main__":
    main(*sys.argv[1:])
    longest(*sys.argv[1:])
