/*
 * SLH-DSA (FIPS 205) over SHA-2 for OpenSSL 3.0 and later: a provider over the library for C. What
 * its parts share: the algorithms, the provider, a key. docs/OPENSSL.md tells what it offers.
 */
#ifndef SLH_DSA_PROVIDER_H
#define SLH_DSA_PROVIDER_H

#include <openssl/core.h>
#include <openssl/core_dispatch.h>
#include <openssl/core_names.h>
#include <openssl/params.h>
#include <openssl/types.h>

#include "slh_dsa_inline.h"

/* An algorithm: a parameter set, and whether it signs the message or its digest. */
struct algorithm {
    const char *name;       /* OpenSSL's */
    const char *short_name; /* RFC 9909's */
    const char *oid;
    const char *digest; /* of a pre-hash algorithm, else NULL */
    slh_dsa_set set;
    slh_dsa_mode mode;
    uint8_t last_arc; /* of the OID */
    uint8_t n;
};

/* X(ID, NAME, SHORT NAME, LAST ARC, SET, MODE, DIGEST) for each algorithm. RFC 9909 has one digest
 * for each set. */
#define FOR_EACH_ALGORITHM(X) \
    X(0, "SLH-DSA-SHA2-128s", "id-slh-dsa-sha2-128s", 20, 128S, PURE, NULL) \
    X(1, "SLH-DSA-SHA2-128f", "id-slh-dsa-sha2-128f", 21, 128F, PURE, NULL) \
    X(2, "SLH-DSA-SHA2-192s", "id-slh-dsa-sha2-192s", 22, 192S, PURE, NULL) \
    X(3, "SLH-DSA-SHA2-192f", "id-slh-dsa-sha2-192f", 23, 192F, PURE, NULL) \
    X(4, "SLH-DSA-SHA2-256s", "id-slh-dsa-sha2-256s", 24, 256S, PURE, NULL) \
    X(5, "SLH-DSA-SHA2-256f", "id-slh-dsa-sha2-256f", 25, 256F, PURE, NULL) \
    X(6, "SLH-DSA-SHA2-128s-WITH-SHA256", "id-hash-slh-dsa-sha2-128s-with-sha256", 35, 128S, \
      PREHASH_SHA256, "SHA256") \
    X(7, "SLH-DSA-SHA2-128f-WITH-SHA256", "id-hash-slh-dsa-sha2-128f-with-sha256", 36, 128F, \
      PREHASH_SHA256, "SHA256") \
    X(8, "SLH-DSA-SHA2-192s-WITH-SHA512", "id-hash-slh-dsa-sha2-192s-with-sha512", 37, 192S, \
      PREHASH_SHA512, "SHA512") \
    X(9, "SLH-DSA-SHA2-192f-WITH-SHA512", "id-hash-slh-dsa-sha2-192f-with-sha512", 38, 192F, \
      PREHASH_SHA512, "SHA512") \
    X(10, "SLH-DSA-SHA2-256s-WITH-SHA512", "id-hash-slh-dsa-sha2-256s-with-sha512", 39, 256S, \
      PREHASH_SHA512, "SHA512") \
    X(11, "SLH-DSA-SHA2-256f-WITH-SHA512", "id-hash-slh-dsa-sha2-256f-with-sha512", 40, 256F, \
      PREHASH_SHA512, "SHA512")
#define COUNT_ONE(...) +1
enum { ALGORITHMS = 0 FOR_EACH_ALGORITHM(COUNT_ONE) };

extern const struct algorithm algorithms[ALGORITHMS];

/* A provider, which nothing writes to once it is made. The core is that of the application, which
 * may have another libcrypto than the one that this module is linked with. */
struct provider {
    const OSSL_CORE_HANDLE *core;
    OSSL_FUNC_core_new_error_fn *new_error;
    OSSL_FUNC_core_set_error_debug_fn *set_error_debug;
    OSSL_FUNC_core_vset_error_fn *vset_error;
    OSSL_LIB_CTX *libctx; /* a child of the application's: it has the same providers */
    size_t message_limit; /* `message-limit`: the bytes of a message that are kept at most */
    int ignores_digests;  /* `ignore-digests`, for CMS: signatures.c */
    int names_digest;     /* keys have a default digest, for CMS: keys.c */
};

/* errors.c: puts a reason, and a text where there is one, on the application's queue. */
#define FOR_EACH_REASON(X) \
    X(REASON_NO_KEY, "there is no key") \
    X(REASON_NO_PRIVATE_KEY, "the key has no private half") \
    X(REASON_KEY_LENGTH, "a key or its seed has a wrong length") \
    X(REASON_OTHER_PUBLIC_KEY, "the public key isn't that of the private key") \
    X(REASON_OTHER_ROOT, "the root of the key isn't that of its seeds") \
    X(REASON_KEY_GENERATION, "no key was made") \
    X(REASON_CONTEXT, "the context is no string of at most 255 bytes") \
    X(REASON_ENTROPY, "the entropy has a wrong length") \
    X(REASON_PARAMETER, "a parameter has a value that isn't there") \
    X(REASON_DIGEST, "the algorithm takes no digest") \
    X(REASON_MESSAGE_LIMIT, "the message is over message-limit") \
    X(REASON_MEMORY, "there is no memory") \
    X(REASON_HASHING, "the message can't be hashed") \
    X(REASON_RANDOM, "there are no random bytes") \
    X(REASON_ROOM, "there is no room for the signature") \
    X(REASON_SIGNING, "nothing was signed") \
    X(REASON_VERIFYING, "nothing was verified") \
    X(REASON_CIPHER, "the cipher isn't there") \
    X(REASON_PASSPHRASE, "there is no passphrase") \
    X(REASON_WRITING, "the key can't be written")
#define NAME_OF(name, text) name,
enum reason { REASON_NONE, FOR_EACH_REASON(NAME_OF) };

#define RAISE(provider, ...) raise_at(provider, __FILE__, __LINE__, __func__, __VA_ARGS__)
#if defined(__GNUC__)
__attribute__((format(printf, 6, 7)))
#endif
void raise_at(const struct provider *provider, const char *file, int line, const char *function,
              enum reason reason, const char *format, ...);
const OSSL_ITEM *reason_strings(void *provider);

/* A key: secret seed, PRF key, public seed, root. A public key has the last half alone. It has no
 * memory of its own, so it is copied by assignment, and needs no count of references. */
enum { HAS_PUBLIC = 1, HAS_PRIVATE = 2 };

struct key {
    const struct provider *provider;
    const struct algorithm *algorithm;
    int has;
    uint8_t bytes[SLH_DSA_MAX_SIGNING_KEY_BYTES];
};

static inline size_t private_bytes(const struct key *key)
{
    return SLH_DSA_SIGNING_KEY_BYTES((size_t)key->algorithm->n);
}

static inline size_t public_bytes(const struct key *key)
{
    return SLH_DSA_VERIFYING_KEY_BYTES((size_t)key->algorithm->n);
}

static inline const uint8_t *public_of(const struct key *key)
{
    return key->bytes + private_bytes(key) - public_bytes(key);
}

/* keys.c */
struct key *key_new(const struct provider *provider, const struct algorithm *algorithm);
void key_free(void *key);
int key_export(void *key, int selection, OSSL_CALLBACK *callback, void *argument);

/* der.c */
enum { MAX_DER_BYTES = 256 };

size_t algorithm_der(const struct algorithm *algorithm, uint8_t *out);
size_t private_der(const struct key *key, uint8_t *out);
size_t public_der(const struct key *key, uint8_t *out);
size_t element_head(const uint8_t *der, size_t bytes, size_t *contents);
int read_der(struct key *key, const uint8_t *der, size_t bytes);
int selects_private(void *provider, int selection);
int selects_public(void *provider, int selection);

/* message.c: a message that comes in pieces, NULL as long as it is empty. Where a digest is named,
 * it is hashed, and else kept. */
struct message;

int message_add(const struct provider *provider, const char *digest, struct message **message,
                const uint8_t *piece, size_t bytes);
struct message *message_share(struct message *message);
void message_drop(struct message *message);
int message_is_hashed(const struct message *message);
const uint8_t *message_read(const struct message *message, size_t *bytes);
int message_digest(const struct provider *provider, const struct message *message, uint8_t *digest,
                   size_t *bytes);

/* The tables of functions: for each algorithm what makes a key of it, for all what has a key. */
#define TABLES(id, ...) \
    extern const OSSL_DISPATCH key_functions_##id[], private_decoder_##id[], public_decoder_##id[];
FOR_EACH_ALGORITHM(TABLES)
extern const OSSL_DISPATCH signature_functions[];
extern const OSSL_DISPATCH private_to_der[], private_to_pem[], encrypted_to_der[];
extern const OSSL_DISPATCH encrypted_to_pem[], public_to_der[], public_to_pem[], key_to_text[];

#endif
