"""The parameter sets of sets.txt: by its name, the bytes of a value and of a signature of each."""

import os

SIZES = {}
with open(os.path.join(os.path.dirname(os.path.abspath(__file__)), "..", "sets.txt"), "rb") as rows:
    for row in rows:
        if not row.startswith(b"#"):
            name, value, signature = row.split()
            SIZES[name] = (int(value), int(signature))
