"""What the tests share: data from outside, and keys of seeds that everybody knows."""

from pathlib import Path

import slh_dsa

TOP = Path(__file__).resolve().parents[3]
DATA = TOP / "examples" / "data"
FAST = "SLH-DSA-SHA2-128f"


def n_of(parameter_set):
    """The bytes of a value."""
    return int(parameter_set[-4:-1]) // 8


def known_key(parameter_set):
    """The key of the seeds 01.., 02.. and 03.., which examples/data/README.md tells of."""
    seeds = b"".join(bytes([seed]) * n_of(parameter_set) for seed in (1, 2, 3))
    return slh_dsa.SigningKey.from_seeds(parameter_set, seeds)


def openssl_keys():
    """The keys that OpenSSL made: a signing key and its verifying key in PEM for each set."""
    blocks = (DATA / "openssl_keys.pem").read_bytes().split(b"-----BEGIN ")[1:]
    pems = [b"-----BEGIN " + block for block in blocks]
    return list(zip(slh_dsa.PARAMETER_SETS, pems[::2], pems[1::2]))


def bent(data, at):
    """The same bytes with another bit."""
    return data[:at] + bytes([data[at] ^ 1]) + data[at + 1 :]
