"""SLH-DSA of another OpenSSL, 3.5 or later: the one that Python's `cryptography` has inside.

    other_openssl.py version               its version; status 77 where there is none, or it has no SLH-DSA
    other_openssl.py verify CERTIFICATE    whether a certificate is signed by its own key
    other_openssl.py request REQUEST       whether a request is
    other_openssl.py sign KEY CERTIFICATE OUT    signs a certificate anew

It goes by calls that `cryptography` has for itself, which another version may lack: status 77 then.
"""

import sys

CALLS = """BIO_new_file BIO_free OpenSSL_version OpenSSL_version_num PEM_read_bio_PrivateKey
PEM_read_bio_X509 PEM_read_bio_X509_REQ PEM_write_bio_X509 X509_REQ_get_pubkey X509_REQ_verify
X509_STORE_CTX_init X509_STORE_CTX_new X509_STORE_add_cert X509_STORE_new X509_STORE_set_flags
X509_V_FLAG_CHECK_SS_SIGNATURE X509_sign X509_verify_cert""".split()

try:
    from cryptography.hazmat.bindings._rust import _openssl
except ImportError:
    sys.exit(77)
lib, none = _openssl.lib, _openssl.ffi.NULL
if not all(hasattr(lib, name) for name in CALLS) or lib.OpenSSL_version_num() < 0x30500000:
    sys.exit(77)


def read(path, kind):
    """A file in PEM, read by the call for its kind."""
    file = lib.BIO_new_file(path.encode(), b"r")
    made = getattr(lib, "PEM_read_bio_" + kind)(file, none, none, none)
    lib.BIO_free(file)
    if made == none:
        sys.exit(f"{path} can't be read")
    return made


def verify(path):
    certificate, store, context = read(path, "X509"), lib.X509_STORE_new(), lib.X509_STORE_CTX_new()
    lib.X509_STORE_add_cert(store, certificate)
    lib.X509_STORE_set_flags(store, lib.X509_V_FLAG_CHECK_SS_SIGNATURE)
    lib.X509_STORE_CTX_init(context, store, certificate, none)
    return lib.X509_verify_cert(context) == 1


def request(path):
    made = read(path, "X509_REQ")
    return lib.X509_REQ_verify(made, lib.X509_REQ_get_pubkey(made)) == 1


def sign(key, path, out):
    certificate = read(path, "X509")
    if lib.X509_sign(certificate, read(key, "PrivateKey"), none) <= 0:
        return False
    file = lib.BIO_new_file(out.encode(), b"w")
    done = lib.PEM_write_bio_X509(file, certificate) == 1
    lib.BIO_free(file)
    return done


def version():
    print(_openssl.ffi.string(lib.OpenSSL_version(0)).decode())
    return True


word, *words = sys.argv[1:]
sys.exit(not {"version": version, "verify": verify, "request": request, "sign": sign}[word](*words))
