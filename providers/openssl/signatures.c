/*
 * Signing and verifying: in one call, or piece by piece.
 */
#include <openssl/crypto.h>
#include <openssl/evp.h>
#include <openssl/rand.h>
#include <string.h>

#include "provider.h"

/* Names of OpenSSL 3.5, which older headers don't have. */
#define PARAM_CONTEXT_STRING "context-string"
#define PARAM_DETERMINISTIC "deterministic"
#define PARAM_MESSAGE_ENCODING "message-encoding"
#define PARAM_TEST_ENTROPY "test-entropy"

struct operation {
    const struct provider *provider;
    struct key key; /* a copy; it has no algorithm before there is one */
    int deterministic, has_entropy;
    uint8_t entropy[SLH_DSA_MAX_RANDOMIZER_BYTES];
    uint8_t context[SLH_DSA_MAX_CONTEXT_BYTES];
    size_t context_bytes;
    struct message *message; /* the pieces so far */
};

static void *operation_new(void *provider, const char *properties)
{
    struct operation *operation = OPENSSL_zalloc(sizeof *operation);

    (void)properties;
    if (operation != NULL)
        operation->provider = provider;
    return operation;
}

static void operation_free(void *of)
{
    struct operation *operation = of;

    message_drop(operation->message);
    OPENSSL_clear_free(operation, sizeof *operation);
}

static void *operation_dup(void *of)
{
    const struct operation *operation = of;
    struct operation *copy = OPENSSL_memdup(operation, sizeof *operation);

    if (copy != NULL)
        message_share(copy->message);
    return copy;
}

static int set_context(struct operation *operation, const OSSL_PARAM *param)
{
    void *to = operation->context;

    if (OSSL_PARAM_get_octet_string(param, &to, sizeof operation->context,
                                    &operation->context_bytes))
        return 1;
    operation->context_bytes = 0;
    RAISE(operation->provider, REASON_CONTEXT, "%zu bytes", param->data_size);
    return 0;
}

static int set_entropy(struct operation *operation, const OSSL_PARAM *param)
{
    const struct algorithm *algorithm = operation->key.algorithm;

    if (algorithm == NULL || param->data_type != OSSL_PARAM_OCTET_STRING || param->data == NULL ||
        param->data_size != algorithm->n) {
        RAISE(operation->provider, REASON_ENTROPY, "%zu bytes", param->data_size);
        return 0;
    }
    memcpy(operation->entropy, param->data, param->data_size);
    operation->has_entropy = 1;
    return 1;
}

static int set_flag(const struct operation *operation, const OSSL_PARAM *param, int *flag)
{
    if (OSSL_PARAM_get_int(param, flag))
        return 1;
    RAISE(operation->provider, REASON_PARAMETER, "%s is no number", param->key);
    return 0;
}

static int set_ctx_params(void *of, const OSSL_PARAM params[])
{
    struct operation *operation = of;
    const OSSL_PARAM *param;
    int encoding = 1;

    if (params == NULL)
        return 1;
    if (((param = OSSL_PARAM_locate_const(params, PARAM_CONTEXT_STRING)) != NULL &&
         !set_context(operation, param)) ||
        ((param = OSSL_PARAM_locate_const(params, PARAM_TEST_ENTROPY)) != NULL &&
         !set_entropy(operation, param)) ||
        ((param = OSSL_PARAM_locate_const(params, PARAM_DETERMINISTIC)) != NULL &&
         !set_flag(operation, param, &operation->deterministic)) ||
        ((param = OSSL_PARAM_locate_const(params, PARAM_MESSAGE_ENCODING)) != NULL &&
         !set_flag(operation, param, &encoding)))
        return 0;
    /* 0 is a message that is framed already, for which the library has no call. */
    if (encoding != 1)
        RAISE(operation->provider, REASON_PARAMETER, "message-encoding is %d, not 1", encoding);
    return encoding == 1;
}

static const OSSL_PARAM *settable_ctx_params(void *operation, void *provider)
{
    static const OSSL_PARAM params[] = {OSSL_PARAM_octet_string(PARAM_CONTEXT_STRING, NULL, 0),
                                        OSSL_PARAM_octet_string(PARAM_TEST_ENTROPY, NULL, 0),
                                        OSSL_PARAM_int(PARAM_DETERMINISTIC, NULL),
                                        OSSL_PARAM_int(PARAM_MESSAGE_ENCODING, NULL),
                                        OSSL_PARAM_END};

    (void)operation, (void)provider;
    return params;
}

/* X509_sign asks for the AlgorithmIdentifier that it writes. */
static int get_ctx_params(void *of, OSSL_PARAM params[])
{
    const struct algorithm *algorithm = ((const struct operation *)of)->key.algorithm;
    OSSL_PARAM *identifier = OSSL_PARAM_locate(params, OSSL_SIGNATURE_PARAM_ALGORITHM_ID);
    uint8_t der[MAX_DER_BYTES];

    return identifier == NULL ||
           (algorithm != NULL &&
            OSSL_PARAM_set_octet_string(identifier, der, algorithm_der(algorithm, der)));
}

static const OSSL_PARAM *gettable_ctx_params(void *operation, void *provider)
{
    static const OSSL_PARAM params[] = {
        OSSL_PARAM_octet_string(OSSL_SIGNATURE_PARAM_ALGORITHM_ID, NULL, 0), OSSL_PARAM_END};

    (void)operation, (void)provider;
    return params;
}

/* Whether a digest may be named to sign: none, or that of a pre-hash algorithm. The CMS of OpenSSL
 * 3.2 to 3.4 names the one of its attributes, which the provider has to be told to take. */
static int takes_digest(const struct operation *operation, const char *name)
{
    const struct algorithm *algorithm = operation->key.algorithm;
    EVP_MD *digest;
    int takes = 0;

    if (name == NULL || name[0] == '\0' || operation->provider->ignores_digests)
        return 1;
    if (algorithm->digest != NULL &&
        (digest = EVP_MD_fetch(operation->provider->libctx, name, NULL)) != NULL) {
        takes = EVP_MD_is_a(digest, algorithm->digest);
        EVP_MD_free(digest);
    }
    if (!takes)
        RAISE(operation->provider, REASON_DIGEST, "%s and the digest %s", algorithm->name, name);
    return takes;
}

/* Without a key the operation begins again with the key that it has. */
static int begin(struct operation *operation, const struct key *key, int needs,
                 const OSSL_PARAM params[])
{
    message_drop(operation->message);
    operation->message = NULL;
    if (key != NULL)
        *operation = (struct operation){.provider = operation->provider, .key = *key};
    if ((operation->key.has & needs) == 0) {
        RAISE(operation->provider,
              operation->key.has == 0 ? REASON_NO_KEY : REASON_NO_PRIVATE_KEY, NULL);
        return 0;
    }
    return set_ctx_params(operation, params);
}

static int sign_init(void *operation, const char *digest, void *key, const OSSL_PARAM params[])
{
    return begin(operation, key, HAS_PRIVATE, params) && takes_digest(operation, digest);
}

/* Any digest is taken and ignored: CMS names that of its attributes, X509_verify provider.c's. */
static int verify_init(void *operation, const char *digest, void *key, const OSSL_PARAM params[])
{
    (void)digest;
    return begin(operation, key, HAS_PUBLIC, params);
}

static int update(void *of, const uint8_t *piece, size_t bytes)
{
    struct operation *operation = of;

    return message_add(operation->provider, operation->key.algorithm->digest, &operation->message,
                       piece, bytes);
}

static int make_randomizer(const struct operation *operation, uint8_t *randomizer)
{
    size_t n = operation->key.algorithm->n;

    if (operation->has_entropy) {
        memcpy(randomizer, operation->entropy, n);
    } else if (operation->deterministic) {
        memcpy(randomizer, public_of(&operation->key), n);
    } else if (RAND_priv_bytes_ex(operation->provider->libctx, randomizer, n, 0) <= 0) {
        RAISE(operation->provider, REASON_RANDOM, NULL);
        return 0;
    }
    return 1;
}

/* What is signed or verified: a whole message, or the digest of one that came in pieces. */
struct subject {
    const uint8_t *at;
    size_t bytes;
    int is_digest;
    uint8_t digest[EVP_MAX_MD_SIZE];
};

static int take_pieces(const struct operation *operation, struct subject *subject)
{
    subject->is_digest = message_is_hashed(operation->message);
    subject->at = subject->digest;
    if (subject->is_digest)
        return message_digest(operation->provider, operation->message, subject->digest,
                              &subject->bytes);
    subject->at = message_read(operation->message, &subject->bytes);
    return 1;
}

static int sign_subject(const struct operation *operation, uint8_t *signature, size_t bytes,
                        const struct subject *subject)
{
    const struct key *key = &operation->key;
    uint8_t randomizer[SLH_DSA_MAX_RANDOMIZER_BYTES];
    slh_dsa_status status;

    if (!make_randomizer(operation, randomizer))
        return 0;
    status = (subject->is_digest ? slh_dsa_sha2_sign_digest_nullable : slh_dsa_sha2_sign_nullable)(
        key->algorithm->set, key->algorithm->mode, key->bytes, private_bytes(key), subject->at,
        subject->bytes, operation->context, operation->context_bytes, randomizer,
        key->algorithm->n, signature, bytes);
    if (status != SLH_DSA_OK)
        RAISE(operation->provider, REASON_SIGNING, "%s", slh_dsa_status_text(status));
    return status == SLH_DSA_OK;
}

static int verify_subject(const struct operation *operation, const uint8_t *signature,
                          size_t signature_bytes, const struct subject *subject)
{
    const struct key *key = &operation->key;
    slh_dsa_status status =
        (subject->is_digest ? slh_dsa_sha2_verify_digest_nullable : slh_dsa_sha2_verify_nullable)(
            key->algorithm->set, key->algorithm->mode, public_of(key), public_bytes(key),
            subject->at, subject->bytes, operation->context, operation->context_bytes, signature,
            signature_bytes);

    if (status != SLH_DSA_OK && status != SLH_DSA_INVALID)
        RAISE(operation->provider, REASON_VERIFYING, "%s", slh_dsa_status_text(status));
    return status == SLH_DSA_OK;
}

/* Tells how long a signature is, and whether one is wanted and there is room for it. */
static int wants_signature(const struct operation *operation, const uint8_t *signature,
                           size_t *signature_bytes, size_t room)
{
    *signature_bytes = slh_dsa_sha2_signature_bytes(operation->key.algorithm->set);
    if (signature != NULL && room < *signature_bytes)
        RAISE(operation->provider, REASON_ROOM, "%zu bytes, not %zu", room, *signature_bytes);
    return signature != NULL && room >= *signature_bytes;
}

static int sign(void *of, uint8_t *signature, size_t *signature_bytes, size_t room,
                const uint8_t *message, size_t message_bytes)
{
    struct subject subject = {.at = message, .bytes = message_bytes};

    if (!wants_signature(of, signature, signature_bytes, room))
        return signature == NULL;
    return sign_subject(of, signature, *signature_bytes, &subject);
}

static int sign_final(void *of, uint8_t *signature, size_t *signature_bytes, size_t room)
{
    struct subject subject;

    if (!wants_signature(of, signature, signature_bytes, room))
        return signature == NULL;
    return take_pieces(of, &subject) && sign_subject(of, signature, *signature_bytes, &subject);
}

static int verify(void *of, const uint8_t *signature, size_t signature_bytes,
                  const uint8_t *message, size_t message_bytes)
{
    struct subject subject = {.at = message, .bytes = message_bytes};

    return verify_subject(of, signature, signature_bytes, &subject);
}

static int verify_final(void *of, const uint8_t *signature, size_t signature_bytes)
{
    struct subject subject;

    return take_pieces(of, &subject) && verify_subject(of, signature, signature_bytes, &subject);
}

/* There is no SIGN_INIT: who calls EVP_PKEY_sign gives a digest, and that would be signed as if it
 * were the message. OpenSSL 3.5 has none either. */
const OSSL_DISPATCH signature_functions[] = {
    {OSSL_FUNC_SIGNATURE_NEWCTX, (void (*)(void))operation_new},
    {OSSL_FUNC_SIGNATURE_FREECTX, (void (*)(void))operation_free},
    {OSSL_FUNC_SIGNATURE_DUPCTX, (void (*)(void))operation_dup},
    {OSSL_FUNC_SIGNATURE_DIGEST_SIGN_INIT, (void (*)(void))sign_init},
    {OSSL_FUNC_SIGNATURE_DIGEST_SIGN_UPDATE, (void (*)(void))update},
    {OSSL_FUNC_SIGNATURE_DIGEST_SIGN_FINAL, (void (*)(void))sign_final},
    {OSSL_FUNC_SIGNATURE_DIGEST_SIGN, (void (*)(void))sign},
    {OSSL_FUNC_SIGNATURE_DIGEST_VERIFY_INIT, (void (*)(void))verify_init},
    {OSSL_FUNC_SIGNATURE_DIGEST_VERIFY_UPDATE, (void (*)(void))update},
    {OSSL_FUNC_SIGNATURE_DIGEST_VERIFY_FINAL, (void (*)(void))verify_final},
    {OSSL_FUNC_SIGNATURE_DIGEST_VERIFY, (void (*)(void))verify},
    {OSSL_FUNC_SIGNATURE_GET_CTX_PARAMS, (void (*)(void))get_ctx_params},
    {OSSL_FUNC_SIGNATURE_GETTABLE_CTX_PARAMS, (void (*)(void))gettable_ctx_params},
    {OSSL_FUNC_SIGNATURE_SET_CTX_PARAMS, (void (*)(void))set_ctx_params},
    {OSSL_FUNC_SIGNATURE_SETTABLE_CTX_PARAMS, (void (*)(void))settable_ctx_params},
    {0, NULL}};
