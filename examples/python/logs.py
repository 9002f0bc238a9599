"""Trees, paths and proofs as RFC 9162 (2.1) has them, and notes as C2SP's tlog-checkpoint and signed-note do.

Written from these texts, for the scripts that hold the programs against a second reading.
"""

import base64
import binascii
import hashlib

CONTEXT = b"slh-log"
DASH = "\u2014 ".encode()


def leaf_hash(entry):
    return hashlib.sha256(b"\0" + entry).digest()


def node_hash(left, right):
    return hashlib.sha256(b"\1" + left + right).digest()


def split(count):
    """The largest power of two below a number."""
    return 1 << (count - 1).bit_length() - 1


def root_of(leaves):
    """MTH of some leaf hashes (2.1.1)."""
    if not leaves:
        return hashlib.sha256(b"").digest()
    if len(leaves) == 1:
        return leaves[0]
    k = split(len(leaves))
    return node_hash(root_of(leaves[:k]), root_of(leaves[k:]))


def path_of(leaves, index):
    """PATH (2.1.3.1)."""
    if len(leaves) == 1:
        return []
    k = split(len(leaves))
    if index < k:
        return path_of(leaves[:k], index) + [root_of(leaves[k:])]
    return path_of(leaves[k:], index - k) + [root_of(leaves[:k])]


def proof_of(leaves, old, whole=True):
    """PROOF, which is SUBPROOF with a true flag (2.1.4.1)."""
    if old == len(leaves):
        return [] if whole else [root_of(leaves)]
    k = split(len(leaves))
    if old <= k:
        return proof_of(leaves[:k], old, whole) + [root_of(leaves[k:])]
    return proof_of(leaves[k:], old - k, False) + [root_of(leaves[:k])]


def path_length(index, size):
    """How many nodes PATH has."""
    count = 0
    while size > 1:
        k = split(size)
        index, size = (index, k) if index < k else (index - k, size - k)
        count += 1
    return count


def proof_length(old, new):
    """How many nodes PROOF has, for 0 < old <= new."""
    count, whole = 0, True
    while old < new:
        k = split(new)
        count += 1
        if old <= k:
            new = k
        else:
            old, new, whole = old - k, new - k, False
    return count + (not whole)


def leads_to(index, size, leaf, path):
    """The root that a path of right length leads to (2.1.3.2)."""
    number, last, value = index, size - 1, leaf
    for sibling in path:
        if number & 1 or number == last:
            value = node_hash(sibling, value)
            while not number & 1 and number:
                number, last = number >> 1, last >> 1
        else:
            value = node_hash(value, sibling)
        number, last = number >> 1, last >> 1
    return value


def grew(old, old_root, new, new_root, proof):
    """Whether a proof of right length for 0 < old <= new passes (2.1.4.2)."""
    if old == new:
        return old_root == new_root
    nodes = list(proof) if old & (old - 1) else [old_root] + list(proof)
    number, last = old - 1, new - 1
    while number & 1:
        number, last = number >> 1, last >> 1
    first = second = nodes[0]
    for node in nodes[1:]:
        if last == 0:
            return False
        if number & 1 or number == last:
            first, second = node_hash(node, first), node_hash(node, second)
            while not number & 1 and number:
                number, last = number >> 1, last >> 1
        else:
            second = node_hash(second, node)
        number, last = number >> 1, last >> 1
    return first == old_root and second == new_root and last == 0


def is_origin(origin):
    try:
        origin.decode()
    except UnicodeDecodeError:
        return False
    return 1 <= len(origin) <= 255 and all(byte > 32 and byte not in b"+\x7f" for byte in origin)


def decimal(text):
    """The number below 2^64 that a text is, without leading zeros, or None."""
    if not 1 <= len(text) <= 20 or text.translate(None, b"0123456789") or b"%d" % int(text) != text:
        return None
    return int(text) if int(text) < 1 << 64 else None


def symbols(text, size):
    """The so many bytes that a text is the base64 of, or None."""
    try:
        data = base64.b64decode(text, validate=True)
    except (binascii.Error, ValueError):
        return None
    return data if len(data) == size and base64.b64encode(data) == text else None


def key_id(origin, set_name, public):
    return hashlib.sha256(origin + b"\n\xff" + set_name + b"\n" + public).digest()[:4]


def text_of(origin, size, root):
    return b"%s\n%d\n%s\n" % (origin, size, base64.b64encode(root))


def signature_line(origin, set_name, public, signature):
    return DASH + origin + b" " + base64.b64encode(key_id(origin, set_name, public) + signature) + b"\n"


class Note:
    """What a note of right form has: its text, origin, size, root and the lines of its signatures."""

    def __init__(self, data):
        """ValueError where the form isn't right."""
        self.text, found, signatures = data.partition(b"\n\n")
        self.text += b"\n"
        lines = self.text.split(b"\n")
        if not found or len(lines) < 4 or not lines[0]:
            raise ValueError("no text")
        self.origin, self.size, self.root = lines[0], decimal(lines[1]), symbols(lines[2], 32)
        self.lines = signatures.split(b"\n")
        if self.size is None or self.root is None or self.lines.pop() != b"":
            raise ValueError("no head")
        if not all(line.startswith(DASH) for line in self.lines):
            raise ValueError("no signature")

    def signature(self, origin, set_name, public, length):
        """The first signature by a key, or None."""
        front = DASH + origin + b" "
        for line in self.lines:
            signed = symbols(line[len(front):], 4 + length) if line.startswith(front) else None
            if signed is not None and signed[:4] == key_id(origin, set_name, public):
                return signed[4:]
        return None
