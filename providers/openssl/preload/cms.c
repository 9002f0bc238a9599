/*
 * slh_dsa_cms.so, for LD_PRELOAD: the CMS of OpenSSL 3.0 and 3.1 signs by keys of the provider, in
 * programs that weren't written for them, such as RAUC and `openssl cms`. These versions name the
 * signatures of their own keys alone, and leave out a provider's, so that the CMS can't be written.
 * It is named here, from the key. All else is done by libcrypto, and all of it for other keys and
 * by later versions.
 *
 * The provider's section has to say `ignore-digests = yes`: this CMS names a digest always.
 */
#define _GNU_SOURCE
#include <dlfcn.h>
#include <openssl/cms.h>
#include <string.h>

/* libcrypto's own, which is behind this one where names are looked for. */
#define THEIRS(name) \
    static __typeof__(&(name)) their_##name(void) \
    { \
        __typeof__(&(name)) call; \
        void *found = dlsym(RTLD_NEXT, #name); \
\
        memcpy(&call, &found, sizeof call); \
        return call; \
    }
THEIRS(CMS_add1_signer)
THEIRS(CMS_sign_ex)

static int is_ours(const EVP_PKEY *key)
{
    const char *name = key == NULL ? NULL : EVP_PKEY_get0_type_name(key);

    return name != NULL && strncmp(name, "SLH-DSA-", 8) == 0;
}

/* Names the signature's algorithm where nothing is: its OID is that of the key. */
static int name_algorithm(CMS_SignerInfo *signer, const EVP_PKEY *key)
{
    X509_ALGOR *identifier = NULL;
    const ASN1_OBJECT *named;
    ASN1_OBJECT *name;

    CMS_SignerInfo_get0_algs(signer, NULL, NULL, NULL, &identifier);
    X509_ALGOR_get0(&named, NULL, NULL, identifier);
    if (OBJ_length(named) > 0)
        return 1;
    name = OBJ_txt2obj(EVP_PKEY_get0_type_name(key), 0);
    if (name != NULL && X509_ALGOR_set0(identifier, name, V_ASN1_UNDEF, NULL))
        return 1;
    ASN1_OBJECT_free(name);
    return 0;
}

CMS_SignerInfo *CMS_add1_signer(CMS_ContentInfo *cms, X509 *certificate, EVP_PKEY *key,
                                const EVP_MD *digest, unsigned int flags)
{
    CMS_SignerInfo *signer = their_CMS_add1_signer()(cms, certificate, key, digest, flags);

    if (signer == NULL || !is_ours(key) || name_algorithm(signer, key))
        return signer;
    return NULL;
}

CMS_ContentInfo *CMS_sign_ex(X509 *certificate, EVP_PKEY *key, STACK_OF(X509) *others, BIO *data,
                             unsigned int flags, OSSL_LIB_CTX *libctx, const char *properties)
{
    CMS_ContentInfo *cms;

    if (!is_ours(key))
        return their_CMS_sign_ex()(certificate, key, others, data, flags, libctx, properties);
    cms = their_CMS_sign_ex()(NULL, NULL, others, data, flags | CMS_PARTIAL, libctx, properties);
    if (cms == NULL)
        return NULL;
    if (CMS_add1_signer(cms, certificate, key, NULL, flags) != NULL &&
        ((flags & (CMS_STREAM | CMS_PARTIAL)) != 0 || CMS_final(cms, data, NULL, flags)))
        return cms;
    CMS_ContentInfo_free(cms);
    return NULL;
}

CMS_ContentInfo *CMS_sign(X509 *certificate, EVP_PKEY *key, STACK_OF(X509) *others, BIO *data,
                          unsigned int flags)
{
    return CMS_sign_ex(certificate, key, others, data, flags, NULL, NULL);
}
