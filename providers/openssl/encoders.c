/*
 * Keys as files: DER, PEM, encrypted, text.
 */
#include <openssl/bio.h>
#include <openssl/crypto.h>
#include <openssl/evp.h>
#include <openssl/pem.h>
#include <openssl/pkcs12.h>
#include <openssl/x509.h>

#include "provider.h"

struct encoder {
    const struct provider *provider;
    EVP_CIPHER *cipher; /* of `genpkey -aes256` and its like, else NULL */
};

static void *encoder_new(void *provider)
{
    struct encoder *encoder = OPENSSL_zalloc(sizeof *encoder);

    if (encoder != NULL)
        encoder->provider = provider;
    return encoder;
}

static void encoder_free(void *of)
{
    struct encoder *encoder = of;

    EVP_CIPHER_free(encoder->cipher);
    OPENSSL_free(encoder);
}

/* An encoder without this would write a key in the clear where encryption was asked for. */
static int encoder_set(void *of, const OSSL_PARAM params[])
{
    struct encoder *encoder = of;
    const OSSL_PARAM *cipher = OSSL_PARAM_locate_const(params, OSSL_ENCODER_PARAM_CIPHER);
    const OSSL_PARAM *properties = OSSL_PARAM_locate_const(params, OSSL_ENCODER_PARAM_PROPERTIES);
    const char *name = NULL, *query = NULL;

    if (cipher == NULL)
        return 1;
    if (!OSSL_PARAM_get_utf8_string_ptr(cipher, &name) ||
        (properties != NULL && !OSSL_PARAM_get_utf8_string_ptr(properties, &query)))
        return 0;
    EVP_CIPHER_free(encoder->cipher);
    encoder->cipher = NULL;
    if (name == NULL)
        return 1;
    encoder->cipher = EVP_CIPHER_fetch(encoder->provider->libctx, name, query);
    if (encoder->cipher == NULL)
        RAISE(encoder->provider, REASON_CIPHER, "%s", name);
    return encoder->cipher != NULL;
}

static const OSSL_PARAM *encoder_settable(void *provider)
{
    static const OSSL_PARAM params[] = {
        OSSL_PARAM_utf8_string(OSSL_ENCODER_PARAM_CIPHER, NULL, 0),
        OSSL_PARAM_utf8_string(OSSL_ENCODER_PARAM_PROPERTIES, NULL, 0), OSSL_PARAM_END};

    (void)provider;
    return params;
}

static int selects_either(void *provider, int selection)
{
    (void)provider;
    return selection == 0 || (selection & OSSL_KEYMGMT_SELECT_KEYPAIR) != 0;
}

/* Writes DER, or PEM under a heading where there is one. */
static int write_der(BIO *out, const char *heading, const uint8_t *der, size_t bytes)
{
    if (heading != NULL)
        return PEM_write_bio(out, heading, "", der, (long)bytes) > 0;
    return BIO_write(out, der, (int)bytes) == (int)bytes;
}

/* A PrivateKeyInfo under a passphrase, which is asked for; NULL where that can't be made. */
static X509_SIG *encrypt(const struct encoder *encoder, const uint8_t *der, size_t bytes,
                         OSSL_PASSPHRASE_CALLBACK *ask, void *argument)
{
    char passphrase[1024];
    size_t length = 0;
    PKCS8_PRIV_KEY_INFO *info = NULL;
    X509_SIG *encrypted = NULL;

    if (!ask(passphrase, sizeof passphrase, &length, NULL, argument))
        RAISE(encoder->provider, REASON_PASSPHRASE, NULL);
    else if ((info = d2i_PKCS8_PRIV_KEY_INFO(NULL, &der, (long)bytes)) != NULL)
        encrypted = PKCS8_encrypt_ex(-1, encoder->cipher, passphrase, (int)length, NULL, 0, 0, info,
                                     encoder->provider->libctx, NULL);
    OPENSSL_cleanse(passphrase, sizeof passphrase);
    PKCS8_PRIV_KEY_INFO_free(info);
    return encrypted;
}

static int write_encrypted(const struct encoder *encoder, BIO *out, const char *heading,
                           const uint8_t *der, size_t bytes, OSSL_PASSPHRASE_CALLBACK *ask,
                           void *argument)
{
    X509_SIG *encrypted;
    uint8_t *encrypted_der = NULL;
    int encrypted_bytes, written = 0;

    if (encoder->cipher == NULL) {
        RAISE(encoder->provider, REASON_CIPHER, "none was named");
        return 0;
    }
    if ((encrypted = encrypt(encoder, der, bytes, ask, argument)) != NULL &&
        (encrypted_bytes = i2d_X509_SIG(encrypted, &encrypted_der)) > 0)
        written = write_der(out, heading, encrypted_der, (size_t)encrypted_bytes);
    OPENSSL_free(encrypted_der);
    X509_SIG_free(encrypted);
    return written;
}

static int write_hex(BIO *out, const char *label, const uint8_t *bytes, size_t count)
{
    int good = BIO_printf(out, "%s:", label) > 0;

    for (size_t i = 0; good && i < count; i++)
        good = BIO_printf(out, "%s%02x%s", i % 15 == 0 ? "\n    " : "", bytes[i],
                          i + 1 < count ? ":" : "") > 0;
    return good && BIO_printf(out, "\n") > 0;
}

static int write_text(BIO *out, const struct key *key, int selection)
{
    int is_private = (key->has & HAS_PRIVATE) != 0 &&
                     (selection & OSSL_KEYMGMT_SELECT_PRIVATE_KEY) != 0;

    return BIO_printf(out, "%s %s-Key:\n", key->algorithm->name,
                      is_private ? "Private" : "Public") > 0 &&
           (!is_private || write_hex(out, "priv", key->bytes, private_bytes(key))) &&
           write_hex(out, "pub", public_of(key), public_bytes(key));
}

/* A private key in the clear, or encrypted where that is asked for, by the form or by a cipher. */
static int write_private(const struct encoder *encoder, BIO *out, const struct key *key, int pem,
                         int encrypted, OSSL_PASSPHRASE_CALLBACK *ask, void *argument)
{
    uint8_t der[MAX_DER_BYTES];
    size_t bytes = private_der(key, der);
    int written;

    if (encrypted || encoder->cipher != NULL)
        written = write_encrypted(encoder, out, pem ? PEM_STRING_PKCS8 : NULL, der, bytes, ask,
                                  argument);
    else
        written = write_der(out, pem ? PEM_STRING_PKCS8INF : NULL, der, bytes);
    OPENSSL_cleanse(der, sizeof der);
    return written;
}

static int write_public(BIO *out, const struct key *key, int pem)
{
    uint8_t der[MAX_DER_BYTES];

    return write_der(out, pem ? PEM_STRING_PUBLIC : NULL, der, public_der(key, der));
}

enum form { PUBLIC, PRIVATE, ENCRYPTED, TEXT };

static int encode(const struct encoder *encoder, OSSL_CORE_BIO *core_out, const struct key *key,
                  int selection, OSSL_PASSPHRASE_CALLBACK *ask, void *argument, enum form form,
                  int pem)
{
    int wants = form == PRIVATE || form == ENCRYPTED ? HAS_PRIVATE : HAS_PUBLIC, written = 0;
    BIO *out;

    if (key == NULL || (key->has & wants) == 0) {
        RAISE(encoder->provider,
              wants == HAS_PRIVATE && key != NULL ? REASON_NO_PRIVATE_KEY : REASON_NO_KEY, NULL);
        return 0;
    }
    if ((out = BIO_new_from_core_bio(encoder->provider->libctx, core_out)) == NULL)
        return 0;
    switch (form) {
    case PUBLIC: written = write_public(out, key, pem); break;
    case TEXT: written = write_text(out, key, selection); break;
    case PRIVATE:
    case ENCRYPTED:
        written = write_private(encoder, out, key, pem, form == ENCRYPTED, ask, argument);
        break;
    }
    BIO_free(out);
    if (!written)
        RAISE(encoder->provider, REASON_WRITING, NULL);
    return written;
}

/* A key that is given by its parts, and not by what keys.c made, is taken by no encoder here. */
#define ENCODER(to, form, pem, selects) \
    static int encode_##to(void *encoder, OSSL_CORE_BIO *out, const void *key, \
                           const OSSL_PARAM parts[], int selection, \
                           OSSL_PASSPHRASE_CALLBACK *ask, void *argument) \
    { \
        return encode(encoder, out, parts == NULL ? key : NULL, selection, ask, argument, form, \
                      pem); \
    } \
    const OSSL_DISPATCH to[] = { \
        {OSSL_FUNC_ENCODER_NEWCTX, (void (*)(void))encoder_new}, \
        {OSSL_FUNC_ENCODER_FREECTX, (void (*)(void))encoder_free}, \
        {OSSL_FUNC_ENCODER_SET_CTX_PARAMS, (void (*)(void))encoder_set}, \
        {OSSL_FUNC_ENCODER_SETTABLE_CTX_PARAMS, (void (*)(void))encoder_settable}, \
        {OSSL_FUNC_ENCODER_DOES_SELECTION, (void (*)(void))selects}, \
        {OSSL_FUNC_ENCODER_ENCODE, (void (*)(void))encode_##to}, \
        {0, NULL}};
ENCODER(private_to_der, PRIVATE, 0, selects_private)
ENCODER(private_to_pem, PRIVATE, 1, selects_private)
ENCODER(encrypted_to_der, ENCRYPTED, 0, selects_private)
ENCODER(encrypted_to_pem, ENCRYPTED, 1, selects_private)
ENCODER(public_to_der, PUBLIC, 0, selects_public)
ENCODER(public_to_pem, PUBLIC, 1, selects_public)
ENCODER(key_to_text, TEXT, 0, selects_either)
