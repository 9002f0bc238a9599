/*
 * Keys from DER. OpenSSL takes off PEM and encryption before, and tries each decoder in turn: one
 * that doesn't know what it reads answers 1 and hands nothing over.
 */
#include <openssl/bio.h>
#include <openssl/core_object.h>
#include <openssl/crypto.h>

#include "provider.h"

enum { ELEMENT_ROOM = 1024 }; /* for attributes, too */

struct decoder {
    const struct provider *provider;
    const struct algorithm *algorithm;
};

static void *decoder_new(const struct provider *provider, const struct algorithm *algorithm)
{
    struct decoder *decoder = OPENSSL_zalloc(sizeof *decoder);

    if (decoder != NULL)
        *decoder = (struct decoder){provider, algorithm};
    return decoder;
}

static void decoder_free(void *decoder)
{
    OPENSSL_free(decoder);
}

static int read_exactly(BIO *in, uint8_t *to, size_t bytes)
{
    for (int now; bytes > 0; to += now, bytes -= (size_t)now)
        if ((now = BIO_read(in, to, (int)bytes)) <= 0)
            return 0;
    return 1;
}

/* Reads one element, and not a byte more, for another may follow; 0 where it can't be a key's. */
static size_t read_element(BIO *in, uint8_t der[ELEMENT_ROOM])
{
    size_t contents, head, more;

    if (!read_exactly(in, der, 2))
        return 0;
    more = der[1] == 0x81 ? 1 : der[1] == 0x82 ? 2 : 0;
    if (!read_exactly(in, der + 2, more) || (head = element_head(der, 2 + more, &contents)) == 0 ||
        contents > ELEMENT_ROOM - head || !read_exactly(in, der + head, contents))
        return 0;
    return head + contents;
}

static int hand_over(struct key *key, OSSL_CALLBACK *take, void *argument)
{
    int type = OSSL_OBJECT_PKEY, taken;
    OSSL_PARAM params[] = {
        OSSL_PARAM_construct_int(OSSL_OBJECT_PARAM_TYPE, &type),
        OSSL_PARAM_construct_utf8_string(OSSL_OBJECT_PARAM_DATA_TYPE,
                                         (char *)(uintptr_t)key->algorithm->name, 0),
        OSSL_PARAM_construct_octet_string(OSSL_OBJECT_PARAM_REFERENCE, &key, sizeof key),
        OSSL_PARAM_END};

    taken = take(params, argument);
    key_free(key); /* which is NULL where it was taken */
    return taken;
}

static int decode(void *of, OSSL_CORE_BIO *core_in, int selection, OSSL_CALLBACK *take,
                  void *take_argument, OSSL_PASSPHRASE_CALLBACK *ask, void *ask_argument)
{
    const struct decoder *decoder = of;
    BIO *in = BIO_new_from_core_bio(decoder->provider->libctx, core_in);
    struct key *key = key_new(decoder->provider, decoder->algorithm);
    uint8_t der[ELEMENT_ROOM];
    size_t bytes;
    int known = 0;

    (void)selection, (void)ask, (void)ask_argument;
    if (in != NULL && key != NULL && (bytes = read_element(in, der)) > 0)
        known = read_der(key, der, bytes);
    OPENSSL_cleanse(der, sizeof der);
    BIO_free(in);
    if (known)
        return hand_over(key, take, take_argument);
    key_free(key);
    return 1;
}

/* For the key management of another provider. */
static int decoder_export(void *decoder, const void *reference, size_t size,
                          OSSL_CALLBACK *callback, void *argument)
{
    (void)decoder;
    return size == sizeof(struct key *) &&
           key_export(*(struct key *const *)reference, OSSL_KEYMGMT_SELECT_KEYPAIR, callback,
                      argument);
}

#define DECODER(id, selects) \
    { \
        {OSSL_FUNC_DECODER_NEWCTX, (void (*)(void))decoder_new_##id}, \
        {OSSL_FUNC_DECODER_FREECTX, (void (*)(void))decoder_free}, \
        {OSSL_FUNC_DECODER_DOES_SELECTION, (void (*)(void))selects}, \
        {OSSL_FUNC_DECODER_DECODE, (void (*)(void))decode}, \
        {OSSL_FUNC_DECODER_EXPORT_OBJECT, (void (*)(void))decoder_export}, \
        {0, NULL} \
    }
#define DECODERS(id, ...) \
    static void *decoder_new_##id(void *provider) \
    { \
        return decoder_new(provider, &algorithms[id]); \
    } \
    const OSSL_DISPATCH private_decoder_##id[] = DECODER(id, selects_private); \
    const OSSL_DISPATCH public_decoder_##id[] = DECODER(id, selects_public);
FOR_EACH_ALGORITHM(DECODERS)
