"""Signing keys under a passphrase, by OpenSSL's libcrypto and not by this repository's programs, files that are none,
and a terminal on which a passphrase is typed.

    encrypted_keys.py encrypt PASSFILE ITERATIONS [CIPHER]
                                    the key in PEM of standard input, in the open, as libcrypto encrypts it
    encrypted_keys.py decrypt PASSFILE
                                    the key of such a file in PEM, as libcrypto decrypts it
    encrypted_keys.py hostile SLH PASSFILE FILE
                                    holds what `slh public` says of FILE cut at each byte, with each byte changed and with
                                    other counts: a refusal that has a name, in time
    encrypted_keys.py typed LINES COMMAND ..
                                    runs a command on a terminal of its own, types a line at each of its questions once
                                    the terminal shows nothing, and writes what is shown; ^C is an interrupt. The status
                                    is the command's

libcrypto reads PKCS #8 of any algorithm, so one that has no SLH-DSA, as 3.0, serves. Without it the status is 77.
"""

import base64
import ctypes
import os
import pty
import re
import select
import subprocess
import sys
import termios
import time

# The salt and the initial vector of `encrypt`, so that its files can be made again.
SALT, VECTOR = bytes(range(0x40, 0x50)), bytes(range(0x60, 0x70))
PLAIN, ENCRYPTED = "PRIVATE KEY", "ENCRYPTED PRIVATE KEY"

# What `slh` may say of a file that was damaged.
REFUSALS = (
    "not the bytes of an encrypted key",
    "encrypted by another scheme than slh reads",
    "asks for more than 10000000 iterations, or for none",
    "not decrypted: the passphrase is wrong, or the file is damaged",
    "a key of another algorithm than SLH-DSA over SHA-2",
    "not the bytes of a key of its set, and nothing else",
    "the key's root is not that of its seeds",
)
# More than a file of the most iterations takes.
SECONDS = 60


def der_of(text, label):
    """The bytes of the block of this label."""
    found = re.fullmatch(rf"-----BEGIN {label}-----\n(.*)-----END {label}-----\n", text, re.DOTALL)
    if not found:
        sys.exit(f"encrypted_keys.py: no {label} in PEM")
    return base64.b64decode(found[1])


def pem_of(der, label):
    digits = base64.b64encode(der).decode()
    lines = [digits[i : i + 64] for i in range(0, len(digits), 64)]
    return "\n".join([f"-----BEGIN {label}-----", *lines, f"-----END {label}-----", ""])


def library():
    try:
        found = ctypes.CDLL("libcrypto.so.3")
    except OSError:
        print("skipped: no libcrypto.so.3")
        sys.exit(77)
    for name in ("d2i_PKCS8_PRIV_KEY_INFO", "d2i_X509_SIG", "EVP_get_cipherbyname", "PKCS5_pbe2_set_iv"):
        getattr(found, name).restype = ctypes.c_void_p
    found.PKCS8_set0_pbe.restype = found.PKCS8_decrypt.restype = ctypes.c_void_p
    return found


def read(parse, der):
    """What libcrypto reads of DER."""
    place = ctypes.c_char_p(der)
    return ctypes.c_void_p(parse(None, ctypes.byref(place), ctypes.c_long(len(der))))


def written(form, value):
    """The DER of what libcrypto has."""
    made = ctypes.POINTER(ctypes.c_ubyte)()
    size = form(value, ctypes.byref(made))
    return bytes(made[:size])


def encrypt(der, passphrase, iterations, cipher="AES-256-CBC"):
    crypto = library()
    prf = crypto.OBJ_txt2nid(b"hmacWithSHA256")
    cipher = ctypes.c_void_p(crypto.EVP_get_cipherbyname(cipher.encode()))
    scheme = crypto.PKCS5_pbe2_set_iv(cipher, iterations, SALT, len(SALT), VECTOR, prf)
    key = read(crypto.d2i_PKCS8_PRIV_KEY_INFO, der)
    made = crypto.PKCS8_set0_pbe(passphrase, len(passphrase), key, ctypes.c_void_p(scheme))
    return written(crypto.i2d_X509_SIG, ctypes.c_void_p(made))


def decrypt(der, passphrase):
    crypto = library()
    key = crypto.PKCS8_decrypt(read(crypto.d2i_X509_SIG, der), passphrase, len(passphrase))
    if not key:
        sys.exit("encrypted_keys.py: libcrypto doesn't decrypt it")
    return written(crypto.i2d_PKCS8_PRIV_KEY_INFO, ctypes.c_void_p(key))


def passphrase_in(path):
    with open(path, "rb") as file:
        return file.readline().rstrip(b"\r\n")


# ---- files that are none

COUNT = bytes.fromhex("02020800")


def with_count(der, count):
    """A file of 2048 iterations with this INTEGER in the place of the count, and its lengths changed by as much. The
    scheme is longer than 127 bytes in none of them, and the file longer than that."""
    at = der.index(COUNT)
    more = len(count) - len(COUNT)
    made = bytearray(der[:at] + count + der[at + len(COUNT) :])
    # the lengths of the file, the algorithm, both parameters, the derivation and its parameters
    for place in (2, 4, 17, 19, 32):
        made[place] += more
    return bytes(made)


def damaged(der):
    """Files that are none, each with what it is."""
    for size in range(len(der)):
        yield f"cut to {size} bytes", der[:size]
    for place in range(len(der)):
        for bit in (0x01, 0x80):
            changed = bytes([der[place] ^ bit])
            yield f"byte {place} changed by {bit}", der[:place] + changed + der[place + 1 :]
    yield "a byte behind it", der + b"\0"
    counts = {
        "none": "020100",
        "10000001": "0203989681",
        "10^9": "02043b9aca00",
        "2^31 - 1": "02047fffffff",
        "2^32 - 1": "020500ffffffff",
        "a negative one": "0201ff",
        "one with a zero before it": "0203000800",
    }
    for name, count in counts.items():
        yield f"a count of {name}", with_count(der, bytes.fromhex(count))


def hostile(slh, passfile, path):
    with open(path) as file:
        der = der_of(file.read(), ENCRYPTED)
    if not with_count(der, COUNT) == der:
        sys.exit("encrypted_keys.py: another form of file is wanted")
    seen, most = set(), 0.0
    for name, file in damaged(der):
        begun = time.monotonic()
        ran = subprocess.run(
            [slh, "public", "--key", "-", "--passphrase-file", passfile],
            input=pem_of(file, ENCRYPTED).encode(),
            capture_output=True,
            timeout=SECONDS,
        )
        most = max(most, time.monotonic() - begun)
        told = ran.stderr.decode()
        cause = [text for text in REFUSALS if text in told]
        if ran.returncode != 2 or ran.stdout or len(cause) != 1:
            sys.exit(f"{name}: status {ran.returncode}, {ran.stdout!r}, {told}")
        if "count" in name and cause[0] != REFUSALS[2]:
            sys.exit(f"{name}: {told}")
        seen.add(cause[0])
    lacking = set(REFUSALS[:4]) - seen
    if lacking:
        sys.exit(f"no file was refused by {lacking}")
    print(f"each refused by name, by {len(seen)} names, the longest in {most:.1f} s")


# ---- a terminal


def typed(lines, command):
    """Runs a command on a terminal, and types a line whenever it asks for one and shows none."""
    child, terminal = pty.fork()
    if child == 0:
        os.execvp(command[0], command)
    shown, lines = b"", list(lines)
    begun = time.monotonic()
    while time.monotonic() - begun < SECONDS:
        ready, _, _ = select.select([terminal], [], [], 0.1)
        if ready:
            try:
                some = os.read(terminal, 4096)
            except OSError:
                break
            if not some:
                break
            shown += some
        elif lines and shown.endswith(b": ") and not termios.tcgetattr(terminal)[3] & termios.ECHO:
            line = lines.pop(0)
            os.write(terminal, b"\x03" if line == "^C" else line.encode() + b"\n")
            shown += b"(typed) "
    status = os.waitstatus_to_exitcode(os.waitpid(child, 0)[1])
    sys.stdout.write(shown.decode().replace("\r\n", "\n"))
    return status


def main(verb, *words):
    if verb == "typed":
        return typed(words[0].split(","), words[1:])
    if verb == "hostile":
        return hostile(*words)
    passphrase = passphrase_in(words[0])
    if verb == "encrypt":
        der = encrypt(der_of(sys.stdin.read(), PLAIN), passphrase, int(words[1]), *words[2:])
        sys.stdout.write(pem_of(der, ENCRYPTED))
    elif verb == "decrypt":
        sys.stdout.write(pem_of(decrypt(der_of(sys.stdin.read(), ENCRYPTED), passphrase), PLAIN))
    else:
        sys.exit(__doc__)
    return 0


if __name__ == "__main__":
    sys.exit(main(*sys.argv[1:]))
