/*
 * The DER of keys (RFC 9909). An algorithm has no parameters and a key is a string of a size that
 * the set has, so all but the key is a constant of the algorithm.
 */
#include <string.h>

#include "provider.h"

enum { INTEGER = 0x02, BIT_STRING = 0x03, OCTET_STRING = 0x04, OBJECT = 0x06, SEQUENCE = 0x30 };

/* Writes the tag and the length, of less than 256, of an element. */
static size_t put_head(uint8_t *out, uint8_t tag, size_t contents)
{
    size_t at = 0;

    out[at++] = tag;
    if (contents >= 128)
        out[at++] = 0x81;
    out[at++] = (uint8_t)contents;
    return at;
}

/* Puts the head of a sequence before what stands in `out`. */
static size_t enclose(uint8_t *out, size_t bytes)
{
    uint8_t head[3];
    size_t head_bytes = put_head(head, SEQUENCE, bytes);

    memmove(out + head_bytes, out, bytes);
    memcpy(out, head, head_bytes);
    return head_bytes + bytes;
}

/* SEQUENCE { OID 2.16.840.1.101.3.4.3.last_arc } */
size_t algorithm_der(const struct algorithm *algorithm, uint8_t *out)
{
    static const uint8_t front[] = {SEQUENCE, 11, OBJECT, 9, 0x60, 0x86, 0x48, 0x01, 0x65, 3, 4, 3};

    memcpy(out, front, sizeof front);
    out[sizeof front] = algorithm->last_arc;
    return sizeof front + 1;
}

/* PrivateKeyInfo: SEQUENCE { INTEGER 0, algorithm, OCTET STRING key } */
size_t private_der(const struct key *key, uint8_t *out)
{
    static const uint8_t version[] = {INTEGER, 1, 0};
    size_t at = sizeof version;

    memcpy(out, version, at);
    at += algorithm_der(key->algorithm, out + at);
    at += put_head(out + at, OCTET_STRING, private_bytes(key));
    memcpy(out + at, key->bytes, private_bytes(key));
    return enclose(out, at + private_bytes(key));
}

/* SubjectPublicKeyInfo: SEQUENCE { algorithm, BIT STRING key } */
size_t public_der(const struct key *key, uint8_t *out)
{
    size_t at = algorithm_der(key->algorithm, out);

    at += put_head(out + at, BIT_STRING, public_bytes(key) + 1);
    out[at++] = 0; /* no unused bits */
    memcpy(out + at, public_of(key), public_bytes(key));
    return enclose(out, at + public_bytes(key));
}

/* Of what is asked for, the private key comes first, as in OpenSSL's own encoders. */
int selects_private(void *provider, int selection)
{
    (void)provider;
    return selection == 0 || (selection & OSSL_KEYMGMT_SELECT_PRIVATE_KEY) != 0;
}

int selects_public(void *provider, int selection)
{
    (void)provider;
    return selection == 0 ||
           (selection & OSSL_KEYMGMT_SELECT_KEYPAIR) == OSSL_KEYMGMT_SELECT_PUBLIC_KEY;
}

/* The bytes of an element's tag and length, and how long its contents are by that; 0 where they
 * aren't all there, where the length takes more bytes than it has to, or is more than 65535. */
size_t element_head(const uint8_t *der, size_t bytes, size_t *contents)
{
    if (bytes < 2)
        return 0;
    *contents = der[1];
    if (der[1] < 128)
        return 2;
    if (der[1] == 0x81 && bytes >= 3 && der[2] >= 128) {
        *contents = der[2];
        return 3;
    }
    if (der[1] == 0x82 && bytes >= 4 && der[2] != 0) {
        *contents = (size_t)der[2] << 8 | der[3];
        return 4;
    }
    return 0;
}

/* What is left to read. */
struct rest {
    const uint8_t *at;
    size_t bytes;
};

static void skip(struct rest *rest, size_t bytes)
{
    rest->at += bytes;
    rest->bytes -= bytes;
}

/* Skips the head of an element that has this tag and is all there. */
static int open_element(struct rest *rest, uint8_t tag, size_t *contents)
{
    size_t head = element_head(rest->at, rest->bytes, contents);

    if (head == 0 || rest->at[0] != tag || *contents > rest->bytes - head)
        return 0;
    skip(rest, head);
    return 1;
}

/* Whether a version of a PrivateKeyInfo stands here, 0 or that of RFC 5958, 1: it is skipped. */
static int skip_version(struct rest *rest)
{
    if (rest->bytes < 3 || rest->at[0] != INTEGER || rest->at[1] != 1 || rest->at[2] > 1)
        return 0;
    skip(rest, 3);
    return 1;
}

static int skip_algorithm(struct rest *rest, const struct algorithm *algorithm)
{
    uint8_t der[MAX_DER_BYTES];
    size_t bytes = algorithm_der(algorithm, der);

    if (rest->bytes < bytes || memcmp(rest->at, der, bytes) != 0)
        return 0;
    skip(rest, bytes);
    return 1;
}

/* Reads either form of a key of `key->algorithm`; 0 where it is something else. Attributes and a
 * public key may stand behind a private one, as in RFC 5958: they aren't read. */
int read_der(struct key *key, const uint8_t *der, size_t bytes)
{
    struct rest rest = {der, bytes};
    size_t contents, public_at = private_bytes(key) - public_bytes(key);
    int is_private;

    if (!open_element(&rest, SEQUENCE, &contents) || contents != rest.bytes)
        return 0;
    is_private = skip_version(&rest);
    if (!skip_algorithm(&rest, key->algorithm) ||
        !open_element(&rest, is_private ? OCTET_STRING : BIT_STRING, &contents))
        return 0;
    if (is_private && contents == private_bytes(key)) {
        memcpy(key->bytes, rest.at, contents);
        key->has = HAS_PUBLIC | HAS_PRIVATE;
        return 1;
    }
    if (!is_private && contents == rest.bytes && contents == public_bytes(key) + 1 &&
        rest.at[0] == 0) {
        memcpy(key->bytes + public_at, rest.at + 1, public_bytes(key));
        key->has = HAS_PUBLIC;
        return 1;
    }
    return 0;
}
