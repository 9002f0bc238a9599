/*
 * Keys: made, held, compared, taken in and given out.
 */
#include <openssl/crypto.h>
#include <openssl/rand.h>
#include <string.h>

#include "provider.h"

struct key *key_new(const struct provider *provider, const struct algorithm *algorithm)
{
    struct key *key = OPENSSL_zalloc(sizeof *key);

    if (key != NULL) {
        key->provider = provider;
        key->algorithm = algorithm;
    }
    return key;
}

void key_free(void *key)
{
    OPENSSL_clear_free(key, sizeof(struct key));
}

static void put_public(struct key *key, const uint8_t *bytes)
{
    memcpy(key->bytes + private_bytes(key) - public_bytes(key), bytes, public_bytes(key));
}

static void *key_dup(const void *from, int selection)
{
    const struct key *key = from;
    struct key *copy = key_new(key->provider, key->algorithm);

    if (copy == NULL)
        return NULL;
    if ((selection & OSSL_KEYMGMT_SELECT_PRIVATE_KEY) != 0) {
        *copy = *key;
    } else if ((selection & OSSL_KEYMGMT_SELECT_PUBLIC_KEY) != 0) {
        copy->has = key->has & HAS_PUBLIC;
        put_public(copy, public_of(key));
    }
    return copy;
}

/* A decoder hands its key over by a pointer to its pointer, which is cleared. */
static void *key_load(const void *reference, size_t size)
{
    struct key *key = NULL;

    if (size == sizeof key) {
        key = *(struct key **)(uintptr_t)reference;
        *(struct key **)(uintptr_t)reference = NULL;
    }
    return key;
}

static int key_has(const void *of, int selection)
{
    const struct key *key = of;

    return key != NULL &&
           ((selection & OSSL_KEYMGMT_SELECT_PUBLIC_KEY) == 0 || (key->has & HAS_PUBLIC) != 0) &&
           ((selection & OSSL_KEYMGMT_SELECT_PRIVATE_KEY) == 0 || (key->has & HAS_PRIVATE) != 0);
}

/* The public half decides: it is a part of the private key. */
static int key_match(const void *one, const void *other, int selection)
{
    const struct key *a = one, *b = other;

    if (a->algorithm != b->algorithm)
        return 0;
    if ((selection & OSSL_KEYMGMT_SELECT_KEYPAIR) == 0)
        return 1;
    return (a->has & b->has & HAS_PUBLIC) != 0 &&
           CRYPTO_memcmp(public_of(a), public_of(b), public_bytes(a)) == 0;
}

/* Whether the root is that of the seeds, for `openssl pkey -check`: as long as to make a key. */
static int key_validate(const void *of, int selection, int checktype)
{
    const struct key *key = of;
    int valid = key_has(key, selection);

    (void)checktype;
    if (key != NULL && !valid)
        RAISE(key->provider, REASON_NO_KEY, NULL);
    if (!valid || (selection & OSSL_KEYMGMT_SELECT_PRIVATE_KEY) == 0)
        return valid;
    valid = slh_dsa_sha2_check_key(key->algorithm->set, key->bytes, private_bytes(key)) ==
            SLH_DSA_OK;
    if (!valid)
        RAISE(key->provider, REASON_OTHER_ROOT, NULL);
    return valid;
}

static const OSSL_PARAM *key_types(int selection)
{
    static const OSSL_PARAM both[] = {OSSL_PARAM_octet_string(OSSL_PKEY_PARAM_PUB_KEY, NULL, 0),
                                      OSSL_PARAM_octet_string(OSSL_PKEY_PARAM_PRIV_KEY, NULL, 0),
                                      OSSL_PARAM_END};

    return (selection & OSSL_KEYMGMT_SELECT_KEYPAIR) != 0 ? both : NULL;
}

static int octets_are(const struct provider *provider, const OSSL_PARAM *param, size_t bytes)
{
    if (param->data_type == OSSL_PARAM_OCTET_STRING && param->data_size == bytes &&
        param->data != NULL)
        return 1;
    RAISE(provider, REASON_KEY_LENGTH, "%s has %zu bytes, not %zu", param->key, param->data_size,
          bytes);
    return 0;
}

/* Takes in either half or both, which then have to belong together. */
static int import_halves(struct key *key, const OSSL_PARAM *private_half,
                         const OSSL_PARAM *public_half)
{
    if ((private_half != NULL && !octets_are(key->provider, private_half, private_bytes(key))) ||
        (public_half != NULL && !octets_are(key->provider, public_half, public_bytes(key))))
        return 0;
    if (private_half == NULL) {
        put_public(key, public_half->data);
        key->has = HAS_PUBLIC;
        return 1;
    }
    memcpy(key->bytes, private_half->data, private_bytes(key));
    if (public_half != NULL && memcmp(public_of(key), public_half->data, public_bytes(key)) != 0) {
        OPENSSL_cleanse(key->bytes, sizeof key->bytes);
        RAISE(key->provider, REASON_OTHER_PUBLIC_KEY, NULL);
        return 0;
    }
    key->has = HAS_PUBLIC | HAS_PRIVATE;
    return 1;
}

static int key_import(void *into, int selection, const OSSL_PARAM params[])
{
    struct key *key = into;
    const OSSL_PARAM *private_half = NULL, *public_half = NULL;

    if ((selection & OSSL_KEYMGMT_SELECT_KEYPAIR) == 0)
        return 0;
    public_half = OSSL_PARAM_locate_const(params, OSSL_PKEY_PARAM_PUB_KEY);
    if ((selection & OSSL_KEYMGMT_SELECT_PRIVATE_KEY) != 0)
        private_half = OSSL_PARAM_locate_const(params, OSSL_PKEY_PARAM_PRIV_KEY);
    if (private_half == NULL && public_half == NULL) {
        RAISE(key->provider, REASON_NO_KEY, NULL);
        return 0;
    }
    return import_halves(key, private_half, public_half);
}

static OSSL_PARAM octets(const char *name, const uint8_t *bytes, size_t count)
{
    return OSSL_PARAM_construct_octet_string(name, (void *)(uintptr_t)bytes, count);
}

int key_export(void *of, int selection, OSSL_CALLBACK *callback, void *argument)
{
    const struct key *key = of;
    OSSL_PARAM params[3], *next = params;

    if ((selection & OSSL_KEYMGMT_SELECT_KEYPAIR) == 0 ||
        !key_has(key, selection & OSSL_KEYMGMT_SELECT_PUBLIC_KEY))
        return 0;
    if ((selection & OSSL_KEYMGMT_SELECT_PUBLIC_KEY) != 0)
        *next++ = octets(OSSL_PKEY_PARAM_PUB_KEY, public_of(key), public_bytes(key));
    if ((selection & OSSL_KEYMGMT_SELECT_PRIVATE_KEY) != 0 && (key->has & HAS_PRIVATE) != 0)
        *next++ = octets(OSSL_PKEY_PARAM_PRIV_KEY, key->bytes, private_bytes(key));
    *next = OSSL_PARAM_construct_end();
    return callback(params, argument);
}

static const OSSL_PARAM *key_gettable(void *provider)
{
    static const OSSL_PARAM params[] = {
        OSSL_PARAM_int(OSSL_PKEY_PARAM_BITS, NULL),
        OSSL_PARAM_int(OSSL_PKEY_PARAM_SECURITY_BITS, NULL),
        OSSL_PARAM_int(OSSL_PKEY_PARAM_MAX_SIZE, NULL),
        OSSL_PARAM_utf8_string(OSSL_PKEY_PARAM_MANDATORY_DIGEST, NULL, 0),
        OSSL_PARAM_utf8_string(OSSL_PKEY_PARAM_DEFAULT_DIGEST, NULL, 0),
        OSSL_PARAM_octet_string(OSSL_PKEY_PARAM_PUB_KEY, NULL, 0),
        OSSL_PARAM_octet_string(OSSL_PKEY_PARAM_PRIV_KEY, NULL, 0), OSSL_PARAM_END};

    (void)provider;
    return params;
}

static int get_size(OSSL_PARAM params[], const char *name, size_t size)
{
    OSSL_PARAM *param = OSSL_PARAM_locate(params, name);

    return param == NULL || OSSL_PARAM_set_int(param, (int)size);
}

static int get_octets(OSSL_PARAM params[], const char *name, const uint8_t *bytes, size_t count)
{
    OSSL_PARAM *param = OSSL_PARAM_locate(params, name);

    return param == NULL || OSSL_PARAM_set_octet_string(param, bytes, count);
}

/* A digest that is mandatory and has no name tells `req`, `ca` and X509_sign to name none. Where
 * digests are ignored there is a default one instead: CMS_sign, as RAUC calls it, asks for it and
 * can't go on without. SHA-512 has 2n bytes and more for each set. From 3.5 on CMS signs without a
 * digest where none is mandatory, and refuses a default one. */
static int get_digest(const struct key *key, OSSL_PARAM params[])
{
    int named = key->provider->names_digest;
    OSSL_PARAM *param = OSSL_PARAM_locate(params, named ? OSSL_PKEY_PARAM_DEFAULT_DIGEST
                                                        : OSSL_PKEY_PARAM_MANDATORY_DIGEST);

    return param == NULL || OSSL_PARAM_set_utf8_string(param, named ? "SHA512" : "");
}

static int key_get_params(void *of, OSSL_PARAM params[])
{
    const struct key *key = of;

    return get_size(params, OSSL_PKEY_PARAM_BITS, 8 * public_bytes(key)) &&
           get_size(params, OSSL_PKEY_PARAM_SECURITY_BITS, 8 * (size_t)key->algorithm->n) &&
           get_size(params, OSSL_PKEY_PARAM_MAX_SIZE,
                    slh_dsa_sha2_signature_bytes(key->algorithm->set)) &&
           get_digest(key, params) &&
           ((key->has & HAS_PUBLIC) == 0 ||
            get_octets(params, OSSL_PKEY_PARAM_PUB_KEY, public_of(key), public_bytes(key))) &&
           ((key->has & HAS_PRIVATE) == 0 ||
            get_octets(params, OSSL_PKEY_PARAM_PRIV_KEY, key->bytes, private_bytes(key)));
}

/* The making of a key: of random seeds, or once of the parameter `seed`, as in OpenSSL 3.5. */
struct generation {
    const struct provider *provider;
    const struct algorithm *algorithm;
    size_t seeds_bytes;
    uint8_t seeds[SLH_DSA_MAX_SEEDS_BYTES];
};

static int generation_set(void *into, const OSSL_PARAM params[])
{
    struct generation *generation = into;
    const OSSL_PARAM *seed = params == NULL ? NULL : OSSL_PARAM_locate_const(params, "seed");

    if (seed == NULL)
        return 1;
    if (!octets_are(generation->provider, seed,
                    SLH_DSA_SEEDS_BYTES((size_t)generation->algorithm->n)))
        return 0;
    memcpy(generation->seeds, seed->data, seed->data_size);
    generation->seeds_bytes = seed->data_size;
    return 1;
}

static const OSSL_PARAM *generation_settable(void *generation, void *provider)
{
    static const OSSL_PARAM params[] = {OSSL_PARAM_octet_string("seed", NULL, 0), OSSL_PARAM_END};

    (void)generation, (void)provider;
    return params;
}

static void generation_free(void *generation)
{
    OPENSSL_clear_free(generation, sizeof(struct generation));
}

static void *generation_new(const struct provider *provider, const struct algorithm *algorithm,
                            int selection, const OSSL_PARAM params[])
{
    struct generation *generation = NULL;

    if ((selection & OSSL_KEYMGMT_SELECT_KEYPAIR) == 0 ||
        (generation = OPENSSL_zalloc(sizeof *generation)) == NULL)
        return NULL;
    generation->provider = provider;
    generation->algorithm = algorithm;
    if (!generation_set(generation, params)) {
        generation_free(generation);
        return NULL;
    }
    return generation;
}

static int make_key(struct generation *generation, struct key *key)
{
    size_t seeds_bytes = SLH_DSA_SEEDS_BYTES((size_t)generation->algorithm->n);
    uint8_t public_key[SLH_DSA_MAX_VERIFYING_KEY_BYTES];
    slh_dsa_status status;

    if (generation->seeds_bytes == 0 &&
        RAND_priv_bytes_ex(generation->provider->libctx, generation->seeds, seeds_bytes, 0) <= 0) {
        RAISE(generation->provider, REASON_RANDOM, NULL);
        return 0;
    }
    generation->seeds_bytes = 0;
    status = slh_dsa_sha2_keygen(generation->algorithm->set, generation->seeds, seeds_bytes,
                                 key->bytes, private_bytes(key), public_key, public_bytes(key));
    if (status != SLH_DSA_OK)
        RAISE(generation->provider, REASON_KEY_GENERATION, "%s", slh_dsa_status_text(status));
    return status == SLH_DSA_OK;
}

static void *generate(void *with, OSSL_CALLBACK *progress, void *argument)
{
    struct generation *generation = with;
    struct key *key = key_new(generation->provider, generation->algorithm);

    (void)progress, (void)argument;
    if (key == NULL)
        return NULL;
    if (!make_key(generation, key)) {
        key_free(key);
        return NULL;
    }
    key->has = HAS_PUBLIC | HAS_PRIVATE;
    return key;
}

#define KEY_FUNCTIONS(id, ...) \
    static void *key_new_##id(void *provider) { return key_new(provider, &algorithms[id]); } \
    static void *generation_new_##id(void *provider, int selection, const OSSL_PARAM params[]) \
    { \
        return generation_new(provider, &algorithms[id], selection, params); \
    } \
    const OSSL_DISPATCH key_functions_##id[] = { \
        {OSSL_FUNC_KEYMGMT_NEW, (void (*)(void))key_new_##id}, \
        {OSSL_FUNC_KEYMGMT_FREE, (void (*)(void))key_free}, \
        {OSSL_FUNC_KEYMGMT_DUP, (void (*)(void))key_dup}, \
        {OSSL_FUNC_KEYMGMT_LOAD, (void (*)(void))key_load}, \
        {OSSL_FUNC_KEYMGMT_HAS, (void (*)(void))key_has}, \
        {OSSL_FUNC_KEYMGMT_MATCH, (void (*)(void))key_match}, \
        {OSSL_FUNC_KEYMGMT_VALIDATE, (void (*)(void))key_validate}, \
        {OSSL_FUNC_KEYMGMT_IMPORT, (void (*)(void))key_import}, \
        {OSSL_FUNC_KEYMGMT_IMPORT_TYPES, (void (*)(void))key_types}, \
        {OSSL_FUNC_KEYMGMT_EXPORT, (void (*)(void))key_export}, \
        {OSSL_FUNC_KEYMGMT_EXPORT_TYPES, (void (*)(void))key_types}, \
        {OSSL_FUNC_KEYMGMT_GET_PARAMS, (void (*)(void))key_get_params}, \
        {OSSL_FUNC_KEYMGMT_GETTABLE_PARAMS, (void (*)(void))key_gettable}, \
        {OSSL_FUNC_KEYMGMT_GEN_INIT, (void (*)(void))generation_new_##id}, \
        {OSSL_FUNC_KEYMGMT_GEN_SET_PARAMS, (void (*)(void))generation_set}, \
        {OSSL_FUNC_KEYMGMT_GEN_SETTABLE_PARAMS, (void (*)(void))generation_settable}, \
        {OSSL_FUNC_KEYMGMT_GEN, (void (*)(void))generate}, \
        {OSSL_FUNC_KEYMGMT_GEN_CLEANUP, (void (*)(void))generation_free}, \
        {0, NULL}};
FOR_EACH_ALGORITHM(KEY_FUNCTIONS)
