"""What a device with examples/c/updater.c gets, by a second reading of FIPS 205 and docs/FORMATS.md.

    firmware_files.py FOLDER    writes a root key there, chains of it, and images of versions 1 to 4 with
                                manifests and signatures; the last image is too large for a slot

The set is SLH-DSA-SHA2-128f.
"""

import sys
from pathlib import Path
from struct import pack

from second_reading import derived, link, manifest, sha256, sign_digest, verifying

MODEL = b"thermostat/%d"
BYTES = {1: 20000, 2: 4096, 3: 33333, 4: 99999}


def image(seed, count):
    """Bytes that look random."""
    return b"".join(sha256(seed, pack(">I", i)) for i in range(count // 32 + 1))[:count]


def release(key, version):
    """An image of a version, its manifest, its signature."""
    name = MODEL % version
    made = image(name, BYTES[version])
    listed = {name: made, b"doorbell/%d" % version: b"another image"}
    return made, manifest(key, listed), sign_digest(key, sha256(made), name)


def main(folder):
    root, middle, end, other = (derived(bytes(32), number) for number in range(1, 5))
    first = link(root, 3, b"releases", verifying(middle))
    second = link(middle, 2, b"firmware", verifying(end))
    again = image(b"again", BYTES[3])
    parts = {
        "root_key": verifying(root),
        "chain": first + second,
        "chain_of_another": link(other, 0, b"firmware", verifying(end)),
        "chain_to_another": first + link(middle, 0, b"firmware", verifying(other)),
        "chain_too_deep": first + link(middle, 3, b"firmware", verifying(end)),
        "chain_too_long": first + second + link(end, 1, b"thermostat", verifying(end)),
        "image_again": again,
        "signature_again": sign_digest(end, sha256(again), MODEL % 3),
    }
    for version in BYTES:
        for name, value in zip(("image", "manifest", "signature"), release(end, version)):
            parts[f"{name}_{version}"] = value
    for name, value in parts.items():
        (Path(folder) / name).write_bytes(value)


if __name__ == "__main__":
    main(*sys.argv[1:])
