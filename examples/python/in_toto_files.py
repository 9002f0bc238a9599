"""Metadata of in-toto and envelopes of DSSE with keys of SLH-DSA, for examples/in_toto.

    layout OWNER BUILDER FILE     a layout of the step `build`, by OWNER's key of in-toto for BUILDER's
    sign KEY PUB FILE ..          adds a signature by SLH-DSA to files of in-toto
    check PUB FILE ..             verifies it, and says what securesystemslib says where it isn't good
    key NAME                      makes a key of 128f, NAME.key and NAME.pub
    id PUB                        writes the id of a key
    shorten PUB FILE              takes a byte of a key's signature away
    seal KEY TYPE BODY ENVELOPE   an envelope of DSSE
    open PUB TYPE ENVELOPE        writes what it has, where it is good
    parts ENVELOPE TEXT SIG       the text that is signed, and the first signature, by json and base64 alone
    wrap KEY PUB TYPE BODY ENVELOPE    an envelope by a signer of securesystemslib and by json
    unwrap PUB ENVELOPE           whether a key of securesystemslib verifies it, read by json
    foreign OWNER ID ENVELOPE OUT      with a signature by OWNER's key of in-toto, ed25519, alone, under this id
                                       (`own`: its own)
    beside OWNER ENVELOPE OUT     with that signature, under its own id, before the others
"""

import base64
import json
import sys
from pathlib import Path

from in_toto.models.layout import Layout, Step
from in_toto.models.metadata import Metablock
from securesystemslib import exceptions, interface
from securesystemslib.signer import Signature, Signer, SSlibSigner

import slh_dsa
from slh_dsa.securesystemslib import SlhKey


def layout(owner, builder, path):
    key = interface.import_ed25519_publickey_from_file(builder)
    products = [["CREATE", "release"], ["DISALLOW", "*"]]
    step = Step(name="build", pubkeys=[key["keyid"]], expected_products=products)
    step.expected_command = ["sh", "-c", "echo 1 >release"]
    signed = Layout(steps=[step], keys={key["keyid"]: key})
    signed.set_relative_expiration(months=1)
    block = Metablock(signed=signed)
    block.sign(interface.import_ed25519_privatekey_from_file(owner))
    block.dump(path)


def key_of(public):
    return SlhKey.from_pem(Path(public).read_bytes())


def sign(private, public, *paths):
    signer = Signer.from_priv_key_uri(f"slh:{private}", key_of(public))
    for path in paths:
        block = Metablock.load(path)
        block.signatures.append(signer.sign(block.signed.signable_bytes).to_dict())
        block.dump(path)


def check(public, *paths):
    key = key_of(public)
    for path in paths:
        block = Metablock.load(path)
        ours = [each for each in block.signatures if each["keyid"] == key.keyid]
        if not ours:
            sys.exit(f"{path}: no signature of the key")
        try:
            key.verify_signature(Signature.from_dict(ours[0]), block.signed.signable_bytes)
        except exceptions.UnverifiedSignatureError as error:
            sys.exit(f"{path}: {error}")
    print("good")


def key(name):
    made = slh_dsa.SigningKey.generate("SLH-DSA-SHA2-128f")
    Path(f"{name}.key").write_bytes(made.to_pem())
    Path(f"{name}.pub").write_bytes(made.verifying_key.to_pem())


def id_(public):
    print(key_of(public).keyid)


def shorten(public, path):
    fields = json.loads(Path(path).read_text())
    for each in fields["signatures"]:
        if each["keyid"] == key_of(public).keyid:
            each["sig"] = each["sig"][2:]
    Path(path).write_text(json.dumps(fields))


def seal(private, kind, body, envelope):
    key = slh_dsa.SigningKey.from_pem(Path(private).read_bytes())
    Path(envelope).write_bytes(key.sign_dsse(Path(body).read_bytes(), kind))


def open_(public, kind, envelope):
    key = slh_dsa.key_from_pem(Path(public).read_bytes())
    try:
        sys.stdout.buffer.write(key.verify_dsse(Path(envelope).read_bytes(), kind))
    except slh_dsa.SlhDsaError as error:
        sys.exit(f"{type(error).__name__}: {error}")


def encoding(kind, body):
    return b"DSSEv1 %d %s %d %s" % (len(kind), kind, len(body), body)


def parts_of(envelope):
    fields = json.loads(Path(envelope).read_text())
    body, kind = base64.b64decode(fields["payload"]), fields["payloadType"].encode()
    signature = fields["signatures"][0]
    return encoding(kind, body), signature["keyid"], base64.b64decode(signature["sig"])


def parts(envelope, text, signature):
    signed, _, value = parts_of(envelope)
    Path(text).write_bytes(signed)
    Path(signature).write_bytes(value)


def wrap(private, public, kind, body, envelope):
    signer = Signer.from_priv_key_uri(f"slh:{private}", key_of(public))
    payload = Path(body).read_bytes()
    made = signer.sign(encoding(kind.encode(), payload))
    value = base64.urlsafe_b64encode(bytes.fromhex(made.signature)).decode()
    fields = {
        "signatures": [{"sig": value, "keyid": made.keyid}],
        "payloadType": kind,
        "payload": base64.b64encode(payload).decode(),
    }
    Path(envelope).write_text(json.dumps(fields, indent=2))


def unwrap(public, envelope):
    signed, identifier, value = parts_of(envelope)
    try:
        key_of(public).verify_signature(Signature(identifier, value.hex()), signed)
    except exceptions.UnverifiedSignatureError as error:
        sys.exit(f"{envelope}: {error}")
    print("good")


def foreign_signature(owner, envelope):
    signer = SSlibSigner(interface.import_ed25519_privatekey_from_file(owner))
    made = signer.sign(parts_of(envelope)[0])
    return {"keyid": made.keyid, "sig": base64.b64encode(bytes.fromhex(made.signature)).decode()}


def foreign(owner, identifier, envelope, out):
    fields = json.loads(Path(envelope).read_text())
    fields["signatures"] = [foreign_signature(owner, envelope)]
    if identifier != "own":
        fields["signatures"][0]["keyid"] = identifier
    Path(out).write_text(json.dumps(fields))


def beside(owner, envelope, out):
    fields = json.loads(Path(envelope).read_text())
    fields["signatures"].insert(0, foreign_signature(owner, envelope))
    Path(out).write_text(json.dumps(fields))


if __name__ == "__main__":
    verbs = layout, sign, check, key, id_, shorten, seal, open_, parts, wrap, unwrap, foreign, beside
    {each.__name__.rstrip("_"): each for each in verbs}[sys.argv[1]](*sys.argv[2:])
