"""What the scripts that send hostile lines have in common. A reply is read by each script's own code."""

import subprocess
import sys

LONGEST = 1 << 22


def octets(text):
    """The bytes that a field stands for, or None."""
    if text == b"-":
        return b""
    if len(text) % 2 or text.translate(None, b"0123456789abcdefABCDEF"):
        return None
    return bytes.fromhex(text.decode())


def digits(data):
    """The field that stands for some bytes."""
    return data.hex().encode() or b"-"


def run(program, lines):
    """The program's replies to some lines."""
    done = subprocess.run([program], input=b"\n".join(lines) + b"\n", stdout=subprocess.PIPE, check=False)
    if done.returncode != 0:
        sys.exit("%s ended with %d" % (program, done.returncode))
    return done.stdout.splitlines(keepends=True)


def spoiled_bytes(line, rng, strange=b"\0\r\t\x0b\x80\xff\x1a gG~"):
    """One thing goes wrong among the bytes."""
    place = rng.randrange(len(line) + 1)
    kind = rng.randrange(6)
    if kind == 0:
        return line + b"\r" * rng.choice([1, 1, 2])
    if kind == 1:
        return b" " * rng.randrange(3) + line.replace(b" ", b" " * rng.randrange(1, 4)) + b" " * rng.randrange(3)
    if kind == 2:
        return line[:place] + bytes([rng.choice(strange)]) + line[place:]
    if kind == 3:
        return line[:place]
    if kind == 4:
        return rng.randbytes(rng.randrange(40)).replace(b"\n", b" ")
    return b" " * rng.randrange(5) + b"\r" * rng.randrange(3)
