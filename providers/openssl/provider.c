/*
 * The provider: what it offers, what it tells OpenSSL, and its section of openssl.cnf.
 */
#include <openssl/crypto.h>
#include <string.h>

#include "provider.h"

#define OID "2.16.840.1.101.3.4.3."
#define ALGORITHM(id, name, short_name, arc, set, mode, digest) \
    {name, short_name, OID #arc, digest, SLH_DSA_SHA2_##set, SLH_DSA_##mode, arc, \
     SLH_DSA_SHA2_##set##_N},
const struct algorithm algorithms[ALGORITHMS] = {FOR_EACH_ALGORITHM(ALGORITHM)};

/* What is offered. An algorithm is found by its name, its short name and its OID. */
#define ROW(name, short_name, arc, properties, functions) \
    {name ":" short_name ":" OID #arc, "provider=slh_dsa" properties, functions, name},
#define KEYS(id, name, short_name, arc, ...) ROW(name, short_name, arc, "", key_functions_##id)
#define SIGNATURES(id, name, short_name, arc, ...) \
    ROW(name, short_name, arc, "", signature_functions)
#define ENCODER(name, short_name, arc, form, structure, functions) \
    ROW(name, short_name, arc, ",output=" form ",structure=" structure, functions)
#define ENCODERS(id, name, short_name, arc, ...) \
    ENCODER(name, short_name, arc, "der", "PrivateKeyInfo", private_to_der) \
    ENCODER(name, short_name, arc, "pem", "PrivateKeyInfo", private_to_pem) \
    ENCODER(name, short_name, arc, "der", "EncryptedPrivateKeyInfo", encrypted_to_der) \
    ENCODER(name, short_name, arc, "pem", "EncryptedPrivateKeyInfo", encrypted_to_pem) \
    ENCODER(name, short_name, arc, "der", "SubjectPublicKeyInfo", public_to_der) \
    ENCODER(name, short_name, arc, "pem", "SubjectPublicKeyInfo", public_to_pem) \
    ROW(name, short_name, arc, ",output=text", key_to_text)
#define DECODERS(id, name, short_name, arc, ...) \
    ROW(name, short_name, arc, ",input=der,structure=PrivateKeyInfo", private_decoder_##id) \
    ROW(name, short_name, arc, ",input=der,structure=SubjectPublicKeyInfo", public_decoder_##id)
#define LIST(rows) {FOR_EACH_ALGORITHM(rows){NULL, NULL, NULL, NULL}}

static const OSSL_ALGORITHM *query(void *provider, int operation, int *no_cache)
{
    static const OSSL_ALGORITHM keys[] = LIST(KEYS), signatures[] = LIST(SIGNATURES);
    static const OSSL_ALGORITHM encoders[] = LIST(ENCODERS), decoders[] = LIST(DECODERS);

    (void)provider;
    *no_cache = 0;
    switch (operation) {
    case OSSL_OP_KEYMGMT: return keys;
    case OSSL_OP_SIGNATURE: return signatures;
    case OSSL_OP_ENCODER: return encoders;
    case OSSL_OP_DECODER: return decoders;
    default: return NULL;
    }
}

static const OSSL_PARAM *gettable_params(void *provider)
{
    static const OSSL_PARAM params[] = {OSSL_PARAM_utf8_ptr(OSSL_PROV_PARAM_NAME, NULL, 0),
                                        OSSL_PARAM_utf8_ptr(OSSL_PROV_PARAM_VERSION, NULL, 0),
                                        OSSL_PARAM_int(OSSL_PROV_PARAM_STATUS, NULL),
                                        OSSL_PARAM_END};

    (void)provider;
    return params;
}

static int get_params(void *provider, OSSL_PARAM params[])
{
    OSSL_PARAM *name = OSSL_PARAM_locate(params, OSSL_PROV_PARAM_NAME);
    OSSL_PARAM *version = OSSL_PARAM_locate(params, OSSL_PROV_PARAM_VERSION);
    OSSL_PARAM *status = OSSL_PARAM_locate(params, OSSL_PROV_PARAM_STATUS);

    (void)provider;
    return (name == NULL ||
            OSSL_PARAM_set_utf8_ptr(name, "SLH-DSA (FIPS 205) over SHA-2, Vireoamalgam")) &&
           (version == NULL || OSSL_PARAM_set_utf8_ptr(version, SLH_DSA_VERSION)) &&
           (status == NULL || OSSL_PARAM_set_int(status, 1));
}

static void teardown(void *of)
{
    struct provider *provider = of;

    OSSL_LIB_CTX_free(provider->libctx);
    OPENSSL_free(provider);
}

/* What is asked of the core once, when the provider is loaded. */
struct start {
    OSSL_FUNC_core_get_params_fn *get_params;
    OSSL_FUNC_core_obj_create_fn *create;
    OSSL_FUNC_core_obj_add_sigid_fn *add_sigid;
};

static int take_core(struct provider *provider, struct start *start, const OSSL_DISPATCH *in)
{
    for (; in->function_id != 0; in++)
        switch (in->function_id) {
        case OSSL_FUNC_CORE_NEW_ERROR:
            provider->new_error = OSSL_FUNC_core_new_error(in);
            break;
        case OSSL_FUNC_CORE_SET_ERROR_DEBUG:
            provider->set_error_debug = OSSL_FUNC_core_set_error_debug(in);
            break;
        case OSSL_FUNC_CORE_VSET_ERROR:
            provider->vset_error = OSSL_FUNC_core_vset_error(in);
            break;
        case OSSL_FUNC_CORE_GET_PARAMS:
            start->get_params = OSSL_FUNC_core_get_params(in);
            break;
        case OSSL_FUNC_CORE_OBJ_CREATE:
            start->create = OSSL_FUNC_core_obj_create(in);
            break;
        case OSSL_FUNC_CORE_OBJ_ADD_SIGID:
            start->add_sigid = OSSL_FUNC_core_obj_add_sigid(in);
            break;
        }
    return provider->new_error != NULL && provider->set_error_debug != NULL &&
           provider->vset_error != NULL && start->get_params != NULL && start->create != NULL &&
           start->add_sigid != NULL;
}

/* OpenSSL's version, or a value of the provider's section of openssl.cnf; else no characters. */
static const char *told(const struct provider *provider, const struct start *start,
                        const char *name)
{
    char *value = NULL;
    OSSL_PARAM params[] = {OSSL_PARAM_construct_utf8_ptr(name, &value, 0), OSSL_PARAM_END};

    return start->get_params(provider->core, params) && value != NULL ? value : "";
}

/* Reads decimal digits that stand alone. */
static int read_number(const char *digits, size_t *number)
{
    *number = 0;
    if (*digits == '\0')
        return 0;
    for (; *digits != '\0'; digits++) {
        size_t digit = (size_t)(*digits - '0');

        if (*digits < '0' || *digits > '9' || *number > (SIZE_MAX - digit) / 10)
            return 0;
        *number = 10 * *number + digit;
    }
    return 1;
}

/* Whether OpenSSL is older than 3.MINOR, of one digit. */
static int is_before(const struct provider *provider, const struct start *start, char minor)
{
    const char *version = told(provider, start, OSSL_PROV_PARAM_CORE_VERSION);

    return strncmp(version, "3.", 2) == 0 && version[2] < minor && version[3] == '.';
}

/* A limit that is no number is 0, and a message's error tells so: OpenSSL 3.0 says nothing of a
 * provider that can't be loaded. */
static void configure(struct provider *provider, const struct start *start)
{
    const char *limit = told(provider, start, "message-limit");

    provider->message_limit = (size_t)256 << 20;
    if (*limit != '\0' && !read_number(limit, &provider->message_limit))
        provider->message_limit = 0;
    provider->ignores_digests = strcmp(told(provider, start, "ignore-digests"), "yes") == 0;
    provider->names_digest = provider->ignores_digests && is_before(provider, start, '5');
}

/* Tells the core the OIDs. Where it knows one already, as OpenSSL 3.5 does, nothing changes.
 *
 * OpenSSL 3.0 and 3.1 take the strength of a certificate's signature from its digest alone, and
 * refuse one without a digest at security level 1 and above, so in TLS. So a signature has a digest
 * there, of the strength of its set, which is for that alone: signatures.c ignores it. From 3.2 on
 * the strength is the key's, and a digest would keep CMS from any other. */
static int add_oids(const struct provider *provider, const struct start *start)
{
    int old = is_before(provider, start, '2');

    for (const struct algorithm *one = algorithms; one < algorithms + ALGORITHMS; one++) {
        const char *digest = one->n == 16 ? "SHA256" : one->n == 24 ? "SHA384" : "SHA512";

        if (!start->create(provider->core, one->oid, one->short_name, one->name) ||
            !start->add_sigid(provider->core, one->oid, old ? digest : "", one->oid))
            return 0;
    }
    return 1;
}

int OSSL_provider_init(const OSSL_CORE_HANDLE *core, const OSSL_DISPATCH *in,
                       const OSSL_DISPATCH **out, void **made)
{
    static const OSSL_DISPATCH functions[] = {
        {OSSL_FUNC_PROVIDER_TEARDOWN, (void (*)(void))teardown},
        {OSSL_FUNC_PROVIDER_GETTABLE_PARAMS, (void (*)(void))gettable_params},
        {OSSL_FUNC_PROVIDER_GET_PARAMS, (void (*)(void))get_params},
        {OSSL_FUNC_PROVIDER_QUERY_OPERATION, (void (*)(void))query},
        {OSSL_FUNC_PROVIDER_GET_REASON_STRINGS, (void (*)(void))reason_strings},
        {0, NULL}};
    struct provider *provider = OPENSSL_zalloc(sizeof *provider);
    struct start start = {NULL, NULL, NULL};

    if (provider == NULL)
        return 0;
    provider->core = core;
    if (!take_core(provider, &start, in) || !add_oids(provider, &start) ||
        (provider->libctx = OSSL_LIB_CTX_new_child(core, in)) == NULL) {
        OPENSSL_free(provider);
        return 0;
    }
    configure(provider, &start);
    *out = functions;
    *made = provider;
    return 1;
}
