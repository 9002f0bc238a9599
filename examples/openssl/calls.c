/*
 * The provider by calls of libcrypto, in library contexts of its own: `calls FOLDER` loads the
 * module of a folder, and answers 0 where all is as docs/OPENSSL.md says. `calls FOLDER failing`
 * also fails each allocation of a round, one after the other. It writes calls.cnf where it runs.
 */
#include <openssl/core_names.h>
#include <openssl/crypto.h>
#include <openssl/decoder.h>
#include <openssl/encoder.h>
#include <openssl/err.h>
#include <openssl/evp.h>
#include <openssl/provider.h>
#include <openssl/x509.h>
#include <pthread.h>
#include <stdint.h>
#include <stdio.h>
#include <stdlib.h>
#include <string.h>

#include "checks.h"

enum { MAX_SIGNATURE = 49856, MAX_DER = 512 };

static const char *folder;
static OSSL_LIB_CTX *lib;

static EVP_PKEY *make(const char *name, const uint8_t *seeds, size_t bytes)
{
    EVP_PKEY_CTX *ctx = EVP_PKEY_CTX_new_from_name(lib, name, NULL);
    EVP_PKEY *key = NULL;
    OSSL_PARAM params[] = {
        OSSL_PARAM_construct_octet_string("seed", (void *)(uintptr_t)seeds, bytes), OSSL_PARAM_END};

    if (ctx == NULL || EVP_PKEY_keygen_init(ctx) <= 0 ||
        (bytes > 0 && EVP_PKEY_CTX_set_params(ctx, params) <= 0) ||
        EVP_PKEY_generate(ctx, &key) <= 0)
        key = NULL;
    EVP_PKEY_CTX_free(ctx);
    return key;
}

struct octets {
    const uint8_t *at;
    size_t bytes;
};

/* A key of its halves; one that has no address isn't given. */
static EVP_PKEY *from(const char *name, struct octets private_half, struct octets public_half)
{
    EVP_PKEY_CTX *ctx = EVP_PKEY_CTX_new_from_name(lib, name, NULL);
    EVP_PKEY *key = NULL;
    OSSL_PARAM params[3], *next = params;

    if (private_half.at != NULL)
        *next++ = OSSL_PARAM_construct_octet_string(
            OSSL_PKEY_PARAM_PRIV_KEY, (void *)(uintptr_t)private_half.at, private_half.bytes);
    if (public_half.at != NULL)
        *next++ = OSSL_PARAM_construct_octet_string(
            OSSL_PKEY_PARAM_PUB_KEY, (void *)(uintptr_t)public_half.at, public_half.bytes);
    *next = OSSL_PARAM_construct_end();
    if (ctx == NULL || EVP_PKEY_fromdata_init(ctx) <= 0 ||
        EVP_PKEY_fromdata(ctx, &key, EVP_PKEY_KEYPAIR, params) <= 0)
        key = NULL;
    EVP_PKEY_CTX_free(ctx);
    return key;
}

/* Whether a key is the same as another one; it is freed. */
static int is(EVP_PKEY *key, const EVP_PKEY *other)
{
    int same = key != NULL && EVP_PKEY_eq(key, other) == 1;

    EVP_PKEY_free(key);
    return same;
}

/* Whether there is a key; it is freed. */
static int there_is(EVP_PKEY *key)
{
    EVP_PKEY_free(key);
    return key != NULL;
}

static int sign(EVP_PKEY *key, const char *digest, const void *message, size_t bytes,
                uint8_t *signature, size_t *signature_bytes)
{
    EVP_MD_CTX *ctx = EVP_MD_CTX_new();
    int done = ctx != NULL && EVP_DigestSignInit_ex(ctx, NULL, digest, lib, NULL, key, NULL) > 0 &&
               EVP_DigestSign(ctx, signature, signature_bytes, message, bytes) > 0;

    EVP_MD_CTX_free(ctx);
    return done;
}

static int verify(EVP_PKEY *key, const void *message, size_t bytes, const uint8_t *signature,
                  size_t signature_bytes)
{
    EVP_MD_CTX *ctx = EVP_MD_CTX_new();
    int done = ctx != NULL && EVP_DigestVerifyInit_ex(ctx, NULL, NULL, lib, NULL, key, NULL) > 0 &&
               EVP_DigestVerify(ctx, signature, signature_bytes, message, bytes) > 0;

    EVP_MD_CTX_free(ctx);
    return done;
}

/* Begins a signature that a second one can be compared with. */
static EVP_MD_CTX *begin(EVP_PKEY *key, const OSSL_PARAM *params)
{
    EVP_MD_CTX *ctx = EVP_MD_CTX_new();
    EVP_PKEY_CTX *inner = NULL;
    int one = 1;
    OSSL_PARAM deterministic[] = {OSSL_PARAM_construct_int("deterministic", &one), OSSL_PARAM_END};

    CHECK(EVP_DigestSignInit_ex(ctx, &inner, NULL, lib, NULL, key, params) > 0);
    CHECK(inner != NULL && EVP_PKEY_CTX_set_params(inner, deterministic) > 0);
    return ctx;
}

static uint8_t sevens[5000], eights[5000];
static OSSL_PARAM abc[] = {{"context-string", OSSL_PARAM_OCTET_STRING, "abc", 3, 0},
                           {NULL, 0, NULL, 0, 0}};

/* One message, in pieces of its own and by a copy of the operation that goes on by itself. */
static void pieces_to_sign(EVP_PKEY *key)
{
    static uint8_t one[MAX_SIGNATURE], other[MAX_SIGNATURE];
    size_t bytes = sizeof one, other_bytes = sizeof other, small = 100;
    EVP_MD_CTX *ctx = begin(key, abc), *copy = EVP_MD_CTX_new();

    CHECK(EVP_DigestSignUpdate(ctx, sevens, 1) > 0);
    CHECK(EVP_DigestSignUpdate(ctx, NULL, 0) > 0);
    CHECK(EVP_DigestSignUpdate(ctx, sevens, 1000) > 0);
    CHECK(EVP_MD_CTX_copy_ex(copy, ctx) > 0);
    CHECK(EVP_DigestSignUpdate(ctx, sevens, 3999) > 0);
    CHECK(EVP_DigestSignUpdate(copy, sevens, 3999) > 0);
    CHECK(EVP_DigestSignFinal(ctx, NULL, &bytes) > 0 && bytes <= sizeof one);
    REFUSED("no room for the signature", EVP_DigestSignFinal(ctx, one, &small) > 0);
    CHECK(EVP_DigestSignFinal(ctx, one, &bytes) > 0);
    CHECK(EVP_DigestSignFinal(ctx, other, &other_bytes) > 0);
    CHECK(bytes == other_bytes && memcmp(one, other, bytes) == 0);
    memset(other, 0, sizeof other);
    EVP_MD_CTX_free(ctx);
    CHECK(EVP_DigestSignFinal(copy, other, &other_bytes) > 0);
    CHECK(bytes == other_bytes && memcmp(one, other, bytes) == 0);
    EVP_MD_CTX_free(copy);
    ctx = EVP_MD_CTX_new();
    CHECK(EVP_DigestVerifyInit_ex(ctx, NULL, NULL, lib, NULL, key, abc) > 0);
    CHECK(EVP_DigestVerify(ctx, one, bytes, sevens, 5000) > 0);
    EVP_MD_CTX_reset(ctx);
    CHECK(EVP_DigestVerifyInit_ex(ctx, NULL, NULL, lib, NULL, key, abc) > 0);
    for (int i = 0; i < 5; i++)
        CHECK(EVP_DigestVerifyUpdate(ctx, sevens, 1000) > 0);
    CHECK(EVP_DigestVerifyFinal(ctx, one, bytes) > 0);
    EVP_MD_CTX_reset(ctx);
    CHECK(EVP_DigestVerifyInit_ex(ctx, NULL, NULL, lib, NULL, key, NULL) > 0);
    CHECK(EVP_DigestVerify(ctx, one, bytes, sevens, 5000) <= 0);
    REFUSED("wrong length", EVP_DigestVerify(ctx, NULL, 0, NULL, 0) > 0);
    EVP_MD_CTX_free(ctx);
}

/* Copies that go on with other pieces, and end in either order, don't see one another's. */
static void copies_apart(EVP_PKEY *key, int first)
{
    static uint8_t signature[2][MAX_SIGNATURE];
    const uint8_t *ends[2] = {sevens, eights};
    uint8_t message[2000];
    size_t bytes[2] = {MAX_SIGNATURE, MAX_SIGNATURE};
    EVP_MD_CTX *ctx[2] = {begin(key, NULL), EVP_MD_CTX_new()};

    memset(message, 7, sizeof message);
    CHECK(EVP_DigestSignUpdate(ctx[0], sevens, 1000) > 0);
    CHECK(EVP_MD_CTX_copy_ex(ctx[1], ctx[0]) > 0);
    for (int i = 0; i < 2; i++)
        CHECK(EVP_DigestSignUpdate(ctx[i], ends[i], 1000) > 0);
    for (int i = 0; i < 2; i++) {
        int now = i == 0 ? first : !first;

        CHECK(EVP_DigestSignFinal(ctx[now], signature[now], &bytes[now]) > 0);
        EVP_MD_CTX_free(ctx[now]);
    }
    for (int i = 0; i < 2; i++) {
        memcpy(message + 1000, ends[i], 1000);
        CHECK(verify(key, message, sizeof message, signature[i], bytes[i]));
        CHECK(!verify(key, message, sizeof message, signature[!i], bytes[!i]));
    }
}

/* A message of 4 MB takes no second one when it is signed, nor any where it is hashed. */
static void memory_of_a_message(const char *name, size_t most_megas)
{
    static uint8_t signature[MAX_SIGNATURE];
    size_t bytes = sizeof signature, mega = 1 << 20, before;
    uint8_t *piece = calloc(1, mega);
    EVP_PKEY *key = make(name, NULL, 0);
    EVP_MD_CTX *ctx = begin(key, NULL);

    before = most_held = held;
    for (int i = 0; i < 4; i++)
        CHECK(EVP_DigestSignUpdate(ctx, piece, mega) > 0);
    CHECK(EVP_DigestSignFinal(ctx, signature, &bytes) > 0);
    CHECK(most_held - before >= (most_megas - 1) * mega);
    CHECK(most_held - before < most_megas * mega);
    EVP_MD_CTX_free(ctx);
    EVP_PKEY_free(key);
    free(piece);
}

/* Reads a key of the algorithm that is named, or of any. */
static EVP_PKEY *read_key(const char *name, const uint8_t *der, size_t bytes, int selection)
{
    EVP_PKEY *key = NULL;
    OSSL_DECODER_CTX *ctx =
        OSSL_DECODER_CTX_new_for_pkey(&key, "DER", NULL, name, selection, lib, NULL);

    if (ctx == NULL || !OSSL_DECODER_from_data(ctx, &der, &bytes)) {
        EVP_PKEY_free(key);
        key = NULL;
    }
    OSSL_DECODER_CTX_free(ctx);
    return key;
}

/* Whether bent bytes of a key, in memory of exactly their size, are taken for one, or refused
 * without an error. Those of another algorithm whose keys are as long are a key of that. */
static int are_taken(EVP_PKEY *of, const uint8_t *der, size_t bytes, int selection)
{
    uint8_t *exact = malloc(bytes == 0 ? 1 : bytes);
    EVP_PKEY *key;
    int taken;

    memcpy(exact, der, bytes);
    ERR_clear_error();
    key = read_key(NULL, exact, bytes, selection);
    if (key == NULL)
        taken = ERR_peek_error() == 0;
    else
        taken = EVP_PKEY_is_a(key, EVP_PKEY_get0_type_name(of)) ||
                EVP_PKEY_get_bits(key) != EVP_PKEY_get_bits(of);
    EVP_PKEY_free(key);
    free(exact);
    return taken;
}

/* Each bit before the key is changed, and each front taken: no key, and an error. */
static void bent(EVP_PKEY *of, const uint8_t *der, size_t bytes, size_t key_bytes, int selection)
{
    uint8_t other[MAX_DER];
    int taken = 0;

    memcpy(other, der, bytes);
    for (size_t bit = 0; bit < 8 * (bytes - key_bytes); bit++) {
        other[bit / 8] ^= (uint8_t)(1 << bit % 8);
        /* a PrivateKeyInfo may have the version 1 (RFC 5958) */
        if (selection == EVP_PKEY_PUBLIC_KEY || other[bit / 8] != 1 || der[bit / 8] != 0)
            taken += are_taken(of, other, bytes, selection);
        other[bit / 8] = der[bit / 8];
    }
    CHECK(taken == 0);
    for (size_t front = 0; front < bytes; front++)
        taken += are_taken(of, der, front, selection);
    CHECK(taken == 0);
}

/* The PrivateKeyInfo of version 1, with a public key behind the private one (RFC 5958). */
static size_t with_public_key(uint8_t *out, const uint8_t *der, size_t bytes,
                              struct octets public_half)
{
    size_t head = der[1] == 0x81 ? 3 : 2, body = bytes - head, all = body + 3 + public_half.bytes;
    size_t at = 0;

    out[at++] = der[0];
    if (all >= 128)
        out[at++] = 0x81;
    out[at++] = (uint8_t)all;
    memcpy(out + at, der + head, body);
    out[at + 2] = 1;
    at += body;
    out[at++] = 0x81;
    out[at++] = (uint8_t)(public_half.bytes + 1);
    out[at++] = 0;
    memcpy(out + at, public_half.at, public_half.bytes);
    return at + public_half.bytes;
}

static void forms(EVP_PKEY *key, struct octets private_half, struct octets public_half)
{
    uint8_t *private_der = NULL, *public_der = NULL, longer[MAX_DER];
    size_t longer_bytes;
    int private_bytes = i2d_PrivateKey(key, &private_der);
    int public_bytes = i2d_PUBKEY(key, &public_der);
    const uint8_t *at = private_der;

    CHECK(private_bytes > 0 && public_bytes > 0);
    CHECK(is(d2i_AutoPrivateKey_ex(NULL, &at, private_bytes, lib, NULL), key));
    CHECK(at == private_der + private_bytes);
    at = public_der;
    CHECK(is(d2i_PUBKEY_ex(NULL, &at, public_bytes, lib, NULL), key));
    CHECK(at == public_der + public_bytes);
    bent(key, private_der, (size_t)private_bytes, private_half.bytes, EVP_PKEY_KEYPAIR);
    bent(key, public_der, (size_t)public_bytes, public_half.bytes, EVP_PKEY_PUBLIC_KEY);
    longer_bytes = with_public_key(longer, private_der, (size_t)private_bytes, public_half);
    CHECK(is(read_key(NULL, longer, longer_bytes, EVP_PKEY_KEYPAIR), key));
    OPENSSL_free(private_der);
    OPENSSL_free(public_der);
}

struct algorithm {
    const char *name, *digest;
    size_t n, signature_bytes;
    int is_slow;
};

static void numbers(const struct algorithm *algorithm, EVP_PKEY *key)
{
    char digest[20];

    CHECK(EVP_PKEY_is_a(key, algorithm->name));
    CHECK(EVP_PKEY_get_bits(key) == 16 * (int)algorithm->n);
    CHECK(EVP_PKEY_get_security_bits(key) == 8 * (int)algorithm->n);
    CHECK(EVP_PKEY_get_size(key) == (int)algorithm->signature_bytes);
    CHECK(EVP_PKEY_get_default_digest_name(key, digest, sizeof digest) == 2 &&
          strcmp(digest, "UNDEF") == 0);
}

/* Keys by their halves, and each refusal of them. */
static void halves(const struct algorithm *algorithm, EVP_PKEY *key, struct octets private_half,
                   struct octets public_half)
{
    const char *name = algorithm->name;
    const struct octets none = {NULL, 0};
    struct octets shorter = private_half, longer = public_half, other = public_half;
    uint8_t bytes[64], copy[65];

    memcpy(bytes, public_half.at, public_half.bytes);
    memcpy(copy, public_half.at, public_half.bytes);
    copy[public_half.bytes] = 0;
    bytes[0] ^= 1;
    other.at = bytes;
    longer.at = copy;
    longer.bytes++;
    shorter.bytes--;
    CHECK(is(EVP_PKEY_dup(key), key));
    CHECK(is(make(name, private_half.at, 3 * algorithm->n), key));
    REFUSED("wrong length", there_is(make(name, private_half.at, 3 * algorithm->n - 1)));
    CHECK(is(from(name, private_half, public_half), key));
    CHECK(is(from(name, private_half, none), key));
    CHECK(is(from(name, none, public_half), key));
    CHECK(there_is(from(name, none, other)) && !is(from(name, none, other), key));
    REFUSED("wrong length", there_is(from(name, shorter, public_half)));
    REFUSED("wrong length", there_is(from(name, none, longer)));
    REFUSED("there is no key", there_is(from(name, none, none)));
    REFUSED("isn't that of the private key", there_is(from(name, private_half, other)));
}

static int is_whole(EVP_PKEY *key)
{
    EVP_PKEY_CTX *ctx = EVP_PKEY_CTX_new_from_pkey(lib, key, NULL);
    int whole = EVP_PKEY_check(ctx) == 1;

    EVP_PKEY_CTX_free(ctx);
    return whole;
}

static int can_sign_digests(EVP_PKEY *key)
{
    EVP_PKEY_CTX *ctx = EVP_PKEY_CTX_new_from_pkey(lib, key, NULL);
    int can = EVP_PKEY_sign_init(ctx) > 0;

    EVP_PKEY_CTX_free(ctx);
    return can;
}

static int is_set(EVP_PKEY *key, const char *name, int type, size_t bytes)
{
    static uint8_t zeros[300];
    OSSL_PARAM params[] = {{name, (unsigned)type, zeros, bytes, 0}, OSSL_PARAM_END};
    EVP_MD_CTX *ctx = EVP_MD_CTX_new();
    int set = EVP_DigestSignInit_ex(ctx, NULL, NULL, lib, NULL, key, params) > 0;

    EVP_MD_CTX_free(ctx);
    return set;
}

/* What a key that lacks its private half, or has another root, can't do. */
static void bent_keys(const struct algorithm *algorithm, EVP_PKEY *key, struct octets private_half,
                      struct octets public_half)
{
    static uint8_t signature[MAX_SIGNATURE], root[128];
    size_t bytes = sizeof signature;
    struct octets none = {NULL, 0}, other = {root, private_half.bytes};
    EVP_PKEY *public_key = from(algorithm->name, none, public_half), *bent_key;

    REFUSED("no private half", sign(public_key, NULL, "m", 1, signature, &bytes));
    REFUSED("", i2d_PrivateKey(public_key, NULL) > 0);
    EVP_PKEY_free(public_key);
    memcpy(root, private_half.at, private_half.bytes);
    root[private_half.bytes - 1] ^= 1;
    bent_key = from(algorithm->name, other, none);
    REFUSED("isn't that of its seeds", is_whole(bent_key));
    EVP_PKEY_free(bent_key);
    CHECK(is_whole(key));
    CHECK(!can_sign_digests(key));
}

static void parameters(const struct algorithm *algorithm, EVP_PKEY *key)
{
    CHECK(is_set(key, "context-string", OSSL_PARAM_OCTET_STRING, 255));
    REFUSED("at most 255 bytes: 256 bytes",
            is_set(key, "context-string", OSSL_PARAM_OCTET_STRING, 256));
    REFUSED("at most 255", is_set(key, "context-string", OSSL_PARAM_INTEGER, sizeof(int)));
    CHECK(is_set(key, "test-entropy", OSSL_PARAM_OCTET_STRING, algorithm->n));
    REFUSED("entropy", is_set(key, "test-entropy", OSSL_PARAM_OCTET_STRING, algorithm->n + 1));
    REFUSED("entropy", is_set(key, "test-entropy", OSSL_PARAM_INTEGER, algorithm->n));
    REFUSED("deterministic is no number", is_set(key, "deterministic", OSSL_PARAM_OCTET_STRING, 4));
    REFUSED("message-encoding is 0",
            is_set(key, "message-encoding", OSSL_PARAM_INTEGER, sizeof(int)));
}

static void signatures(const struct algorithm *algorithm, EVP_PKEY *key)
{
    static uint8_t signature[MAX_SIGNATURE];
    size_t all = algorithm->signature_bytes, bytes = 0, fewer = all - 1;

    CHECK(sign(key, NULL, "m", 1, NULL, &bytes) && bytes == all);
    REFUSED("no room for the signature", sign(key, NULL, "m", 1, signature, &fewer));
    REFUSED("takes no digest", sign(key, "SHA384", "m", 1, signature, &bytes));
    if (algorithm->is_slow)
        return;
    CHECK(sign(key, algorithm->digest, NULL, 0, signature, &bytes) && bytes == all);
    CHECK(verify(key, NULL, 0, signature, all) && verify(key, "", 0, signature, all));
    CHECK(!verify(key, "m", 1, signature, all));
    REFUSED("wrong length", verify(key, NULL, 0, signature, all - 1));
    signature[all - 1] ^= 1;
    CHECK(!verify(key, NULL, 0, signature, all));
    pieces_to_sign(key);
    copies_apart(key, 0);
    copies_apart(key, 1);
}

static void all_of(const struct algorithm *algorithm)
{
    uint8_t private_key[128], public_key[64];
    struct octets private_half = {private_key, 0}, public_half = {public_key, 0};
    EVP_PKEY *key = make(algorithm->name, NULL, 0);

    CHECK(key != NULL);
    if (key == NULL)
        return;
    CHECK(EVP_PKEY_get_octet_string_param(key, OSSL_PKEY_PARAM_PRIV_KEY, private_key,
                                          sizeof private_key, &private_half.bytes));
    CHECK(EVP_PKEY_get_octet_string_param(key, OSSL_PKEY_PARAM_PUB_KEY, public_key,
                                          sizeof public_key, &public_half.bytes));
    CHECK(private_half.bytes == 4 * algorithm->n && public_half.bytes == 2 * algorithm->n);
    CHECK(!EVP_PKEY_get_octet_string_param(key, OSSL_PKEY_PARAM_PUB_KEY, public_key,
                                           public_half.bytes - 1, NULL));
    numbers(algorithm, key);
    halves(algorithm, key, private_half, public_half);
    bent_keys(algorithm, key, private_half, public_half);
    forms(key, private_half, public_half);
    parameters(algorithm, key);
    signatures(algorithm, key);
    EVP_PKEY_free(key);
}

static void *signs(void *key)
{
    uint8_t *signature = malloc(MAX_SIGNATURE);
    size_t bytes = MAX_SIGNATURE;
    int good = sign(key, NULL, "m", 1, signature, &bytes) && verify(key, "m", 1, signature, bytes);

    free(signature);
    return good ? key : NULL;
}

/* Adds a piece to a copy of an operation, and ends it. */
static void *goes_on(void *of)
{
    uint8_t *signature = malloc(MAX_SIGNATURE);
    size_t bytes = MAX_SIGNATURE;
    EVP_MD_CTX *copy = of;
    int good = EVP_DigestSignUpdate(copy, sevens, 1000) > 0 &&
               EVP_DigestSignFinal(copy, signature, &bytes) > 0;

    EVP_MD_CTX_free(copy);
    free(signature);
    return good ? sevens : NULL;
}

static void threads(EVP_PKEY *key)
{
    pthread_t thread[8];
    EVP_MD_CTX *ctx = begin(key, NULL);
    void *good;

    CHECK(EVP_DigestSignUpdate(ctx, sevens, 1000) > 0);
    for (int i = 0; i < 8; i++) {
        EVP_MD_CTX *copy = NULL;

        if (i % 2 != 0) {
            copy = EVP_MD_CTX_new();
            CHECK(EVP_MD_CTX_copy_ex(copy, ctx) > 0);
        }
        pthread_create(&thread[i], NULL, i % 2 != 0 ? goes_on : signs,
                       i % 2 != 0 ? (void *)copy : (void *)key);
    }
    EVP_MD_CTX_free(ctx);
    for (int i = 0; i < 8; i++) {
        pthread_join(thread[i], &good);
        CHECK(good != NULL);
    }
}

/* A key that is written, encrypted and read, and signs in pieces that are kept. */
static int round_of_all(void)
{
    static uint8_t signature[MAX_SIGNATURE];
    size_t bytes = sizeof signature;
    EVP_PKEY *key = make("SLH-DSA-SHA2-128f", NULL, 0), *public_key = NULL;
    uint8_t *der = NULL;
    int der_bytes, good = 0;
    EVP_MD_CTX *ctx = EVP_MD_CTX_new(), *copy = EVP_MD_CTX_new();
    OSSL_ENCODER_CTX *encoder = NULL;
    BIO *out = BIO_new(BIO_s_mem());

    if (key != NULL && ctx != NULL && copy != NULL && out != NULL &&
        (der_bytes = i2d_PUBKEY(key, &der)) > 0 &&
        (public_key = read_key("SLH-DSA-SHA2-128f", der, (size_t)der_bytes, EVP_PKEY_PUBLIC_KEY)) !=
            NULL &&
        (encoder = OSSL_ENCODER_CTX_new_for_pkey(key, EVP_PKEY_KEYPAIR, "PEM", "PrivateKeyInfo",
                                                 NULL)) != NULL &&
        OSSL_ENCODER_CTX_set_cipher(encoder, "AES-128-CBC", NULL) &&
        OSSL_ENCODER_CTX_set_passphrase(encoder, (const uint8_t *)"pass", 4) &&
        OSSL_ENCODER_to_bio(encoder, out) &&
        EVP_DigestSignInit_ex(ctx, NULL, NULL, lib, NULL, key, NULL) > 0 &&
        EVP_DigestSignUpdate(ctx, "a", 1) > 0 && EVP_MD_CTX_copy_ex(copy, ctx) > 0 &&
        EVP_DigestSignUpdate(ctx, "bcd", 3) > 0 && EVP_DigestSignUpdate(copy, "xyz", 3) > 0 &&
        EVP_DigestSignFinal(ctx, signature, &bytes) > 0)
        good = verify(public_key, "abcd", 4, signature, bytes);
    OPENSSL_free(der);
    BIO_free(out);
    OSSL_ENCODER_CTX_free(encoder);
    EVP_MD_CTX_free(copy);
    EVP_MD_CTX_free(ctx);
    EVP_PKEY_free(public_key);
    EVP_PKEY_free(key);
    ERR_clear_error();
    return good;
}

/* A message that is hashed as it comes, with a copy that goes on by itself. */
static int round_of_hashing(void)
{
    static uint8_t signature[MAX_SIGNATURE];
    size_t bytes = sizeof signature;
    EVP_PKEY *key = make("SLH-DSA-SHA2-128f-WITH-SHA256", NULL, 0);
    EVP_MD_CTX *ctx = EVP_MD_CTX_new(), *copy = EVP_MD_CTX_new();
    int good = 0;

    if (key != NULL && ctx != NULL && copy != NULL &&
        EVP_DigestSignInit_ex(ctx, NULL, NULL, lib, NULL, key, NULL) > 0 &&
        EVP_DigestSignUpdate(ctx, "a", 1) > 0 && EVP_MD_CTX_copy_ex(copy, ctx) > 0 &&
        EVP_DigestSignUpdate(ctx, "bcd", 3) > 0 && EVP_DigestSignUpdate(copy, "xyz", 3) > 0 &&
        EVP_DigestSignFinal(ctx, signature, &bytes) > 0)
        good = verify(key, "abcd", 4, signature, bytes);
    EVP_MD_CTX_free(copy);
    EVP_MD_CTX_free(ctx);
    EVP_PKEY_free(key);
    ERR_clear_error();
    return good;
}

/* Fails the first allocation of a round, the second, and so on, until none was left to fail. */
static void failing_allocations(int (*round)(void))
{
    for (fail_at = 1;; fail_at++) {
        allocations = 0;
        if (round() && allocations < fail_at)
            break;
    }
    printf("%ld allocations failed, one after the other\n", fail_at - 1);
    fail_at = 0;
    CHECK(round());
}

static const struct algorithm ALGORITHMS[] = {
    {"SLH-DSA-SHA2-128s", NULL, 16, 7856, 1},
    {"SLH-DSA-SHA2-128f", NULL, 16, 17088, 0},
    {"SLH-DSA-SHA2-192s", NULL, 24, 16224, 1},
    {"SLH-DSA-SHA2-192f", NULL, 24, 35664, 0},
    {"SLH-DSA-SHA2-256s", NULL, 32, 29792, 1},
    {"SLH-DSA-SHA2-256f", NULL, 32, 49856, 0},
    {"SLH-DSA-SHA2-128s-WITH-SHA256", "SHA2-256", 16, 7856, 1},
    {"SLH-DSA-SHA2-128f-WITH-SHA256", "SHA2-256", 16, 17088, 0},
    {"SLH-DSA-SHA2-192s-WITH-SHA512", "SHA-512", 24, 16224, 1},
    {"SLH-DSA-SHA2-192f-WITH-SHA512", "SHA-512", 24, 35664, 0},
    {"SLH-DSA-SHA2-256s-WITH-SHA512", "SHA-512", 32, 29792, 1},
    {"SLH-DSA-SHA2-256f-WITH-SHA512", "SHA-512", 32, 49856, 0},
};

static void first_context(int with_failing_allocations)
{
    EVP_PKEY *key;

    for (size_t i = 0; i < sizeof ALGORITHMS / sizeof ALGORITHMS[0]; i++)
        all_of(&ALGORITHMS[i]);
    key = make("SLH-DSA-SHA2-128f", NULL, 0);
    memory_of_a_message("SLH-DSA-SHA2-128f", 5);
    memory_of_a_message("SLH-DSA-SHA2-128f-WITH-SHA256", 1);
    threads(key);
    EVP_PKEY_free(key);
    CHECK(round_of_all() && round_of_hashing());
    if (with_failing_allocations) {
        failing_allocations(round_of_hashing);
        failing_allocations(round_of_all);
    }
}

/* Loads the module three times; once a key outlives its provider's handle. */
static void contexts(int with_failing_allocations)
{
    for (int i = 0; i < 3; i++) {
        OSSL_PROVIDER *others, *own;
        EVP_PKEY *key = NULL;

        lib = OSSL_LIB_CTX_new();
        CHECK(OSSL_PROVIDER_set_default_search_path(lib, folder));
        others = OSSL_PROVIDER_load(lib, "default");
        own = OSSL_PROVIDER_load(lib, "slh_dsa");
        CHECK(others != NULL && own != NULL);
        EVP_set_default_properties(lib, "?provider=slh_dsa");
        if (own != NULL && i == 0)
            first_context(with_failing_allocations);
        else
            CHECK((key = make(i == 1 ? "id-slh-dsa-sha2-128f" : "2.16.840.1.101.3.4.3.21", NULL,
                              0)) != NULL);
        if (i == 1)
            EVP_PKEY_free(key);
        OSSL_PROVIDER_unload(own);
        OSSL_PROVIDER_unload(others);
        if (i != 1)
            EVP_PKEY_free(key);
        OSSL_LIB_CTX_free(lib);
    }
}

/* A context by a page that has this line in the provider's section; whether it could be made. */
static int configure(const char *line)
{
    FILE *page = fopen("calls.cnf", "w");

    if (page == NULL)
        return 0;
    fprintf(page,
            "openssl_conf = start\nconfig_diagnostics = 1\n"
            "[start]\nproviders = providers\nalg_section = algorithms\n"
            "[algorithms]\ndefault_properties = ?provider=slh_dsa\n"
            "[providers]\ndefault = default_one\nslh_dsa = own\n[default_one]\nactivate = 1\n"
            "[own]\nmodule = %s/slh_dsa.so\n%s\nactivate = 1\n",
            folder, line);
    fclose(page);
    lib = OSSL_LIB_CTX_new();
    return OSSL_LIB_CTX_load_config(lib, "calls.cnf");
}

/* A message of 6000 bytes at most. */
static void limits(void)
{
    static uint8_t signature[MAX_SIGNATURE], both[2 * sizeof sevens];
    size_t bytes = sizeof signature;
    EVP_PKEY *key;
    EVP_MD_CTX *ctx;

    CHECK(configure("message-limit = 6000"));
    key = make("SLH-DSA-SHA2-128f", NULL, 0);
    ctx = begin(key, NULL);
    CHECK(EVP_DigestSignUpdate(ctx, sevens, 5000) > 0);
    REFUSED("over message-limit: more than 6000 bytes",
            EVP_DigestSignUpdate(ctx, sevens, 1001) > 0);
    CHECK(EVP_DigestSignUpdate(ctx, sevens, 1000) > 0);
    REFUSED("over message-limit", EVP_DigestSignUpdate(ctx, sevens, 1) > 0);
    REFUSED("over message-limit", EVP_DigestSignUpdate(ctx, sevens, SIZE_MAX) > 0);
    CHECK(EVP_DigestSignFinal(ctx, signature, &bytes) > 0);
    EVP_MD_CTX_reset(ctx);
    CHECK(EVP_DigestVerifyInit_ex(ctx, NULL, NULL, lib, NULL, key, NULL) > 0);
    REFUSED("over message-limit", EVP_DigestVerifyUpdate(ctx, signature, 6001) > 0);
    EVP_MD_CTX_free(ctx);
    /* a message in one call is not kept, nor one that is hashed */
    CHECK(sign(key, NULL, signature, 6001, signature + 6001, &(size_t){MAX_SIGNATURE - 6001}));
    EVP_PKEY_free(key);
    key = make("SLH-DSA-SHA2-192f-WITH-SHA512", NULL, 0);
    ctx = begin(key, NULL);
    for (int i = 0; i < 2; i++)
        CHECK(EVP_DigestSignUpdate(ctx, both, sizeof sevens) > 0);
    bytes = sizeof signature;
    CHECK(EVP_DigestSignFinal(ctx, signature, &bytes) > 0);
    CHECK(verify(key, both, sizeof both, signature, bytes));
    CHECK(!verify(key, both, sizeof both - 1, signature, bytes));
    EVP_MD_CTX_free(ctx);
    EVP_PKEY_free(key);
    OSSL_LIB_CTX_free(lib);
}

/* Limits that are no number of bytes, or 0: there is none, but for an empty message. */
static void bent_limits(void)
{
    static const char *const BENT[] = {"12x", "-1", "99999999999999999999", "18446744073709551616",
                                       "0"};
    char line[100];

    for (size_t i = 0; i < sizeof BENT / sizeof BENT[0]; i++) {
        EVP_PKEY *key;
        EVP_MD_CTX *ctx;

        snprintf(line, sizeof line, "message-limit = %s", BENT[i]);
        CHECK(configure(line));
        key = make("SLH-DSA-SHA2-128f", NULL, 0);
        ctx = begin(key, NULL);
        CHECK(EVP_DigestSignUpdate(ctx, sevens, 0) > 0);
        REFUSED("over message-limit: more than 0 bytes", EVP_DigestSignUpdate(ctx, sevens, 1) > 0);
        EVP_MD_CTX_free(ctx);
        EVP_PKEY_free(key);
        OSSL_LIB_CTX_free(lib);
    }
}

/* 2 for a digest that is mandatory, 1 for a default one, and its name. */
static int digest_is(EVP_PKEY *key, int kind, const char *name)
{
    char told[80];

    return EVP_PKEY_get_default_digest_name(key, told, sizeof told) == kind &&
           strcmp(told, name) == 0;
}

static void digests(void)
{
    static uint8_t signature[MAX_SIGNATURE];
    size_t bytes = sizeof signature;
    EVP_PKEY *key;

    CHECK(configure("ignore-digests = yes"));
    key = make("SLH-DSA-SHA2-128f", NULL, 0);
    CHECK(key != NULL && sign(key, "SHA384", "m", 1, signature, &bytes));
    CHECK(OPENSSL_version_major() > 3 || OPENSSL_version_minor() > 4 ? digest_is(key, 2, SN_undef)
                                                                     : digest_is(key, 1, "SHA512"));
    EVP_PKEY_free(key);
    OSSL_LIB_CTX_free(lib);
    CHECK(configure("ignore-digests = no"));
    key = make("SLH-DSA-SHA2-128f", NULL, 0);
    REFUSED("takes no digest", sign(key, "SHA384", "m", 1, signature, &bytes));
    CHECK(digest_is(key, 2, SN_undef));
    EVP_PKEY_free(key);
    OSSL_LIB_CTX_free(lib);
}

int main(int argc, char **argv)
{
    if (argc < 2 || !CRYPTO_set_mem_functions(get_memory, get_more_memory, put_memory)) {
        fputs("usage: calls FOLDER [failing]\n", stderr);
        return 2;
    }
    folder = argv[1];
    memset(sevens, 7, sizeof sevens);
    memset(eights, 8, sizeof eights);
    contexts(argc > 2);
    limits();
    bent_limits();
    digests();
    printf("%s: %d checks, %d failed\n", OpenSSL_version(OPENSSL_VERSION), checks, failures);
    return failures != 0;
}
