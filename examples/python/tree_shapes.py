"""The paths and consistency proofs of all trees of 1 to 33 entries, as RFC 9162 defines them
(sections 2.1.1, 2.1.3.1 and 2.1.4.1), hashed into one digest, which is printed."""
from hashlib import sha256

COUNT = 33


def digest(data):
    return sha256(data).digest()


def node(left, right):
    return digest(b"\x01" + left + right)


def split(n):
    """The largest power of two below n."""
    k = 1
    while 2 * k < n:
        k *= 2
    return k


def root(leaves):
    if len(leaves) == 1:
        return leaves[0]
    k = split(len(leaves))
    return node(root(leaves[:k]), root(leaves[k:]))


def path(m, leaves):
    if len(leaves) == 1:
        return []
    k = split(len(leaves))
    if m < k:
        return path(m, leaves[:k]) + [root(leaves[k:])]
    return path(m - k, leaves[k:]) + [root(leaves[:k])]


def subproof(m, leaves, whole):
    if m == len(leaves):
        return [] if whole else [root(leaves)]
    k = split(len(leaves))
    if m <= k:
        return subproof(m, leaves[:k], whole) + [root(leaves[k:])]
    return subproof(m - k, leaves[k:], False) + [root(leaves[:k])]


LEAVES = [digest(b"\x00" + bytes([i])) for i in range(COUNT)]
total = bytes(32)
for n in range(1, COUNT + 1):
    for m in range(1, n + 1):
        tree = LEAVES[:n]
        for value in path(m - 1, tree) + subproof(m, tree, True) + [root(tree)]:
            total = node(total, value)
print(total.hex())
