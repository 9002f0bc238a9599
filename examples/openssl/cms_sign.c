/*
 * cms_sign [-d] CERTIFICATES KEY FILE OUT: CMS by calls, for OpenSSL 3.0 and 3.1, whose `cms -sign`
 * doesn't know how to name a provider's signature and leaves the AlgorithmIdentifier empty. The
 * first certificate is the signer's; those behind it, of its issuers, go into the CMS as they are.
 * With -d it has the signature without the file. The provider's section has to say
 * `ignore-digests = yes`.
 */
#include <openssl/cms.h>
#include <openssl/err.h>
#include <openssl/pem.h>
#include <string.h>

enum { FLAGS = CMS_PARTIAL | CMS_BINARY };

static EVP_PKEY *read_key(const char *path)
{
    BIO *in = BIO_new_file(path, "r");
    EVP_PKEY *key = in == NULL ? NULL : PEM_read_bio_PrivateKey(in, NULL, NULL, NULL);

    BIO_free(in);
    return key;
}

/* Adds the certificates that are left, up to where no more begins. */
static int add_issuers(CMS_ContentInfo *cms, BIO *certificates)
{
    X509 *issuer;

    while ((issuer = PEM_read_bio_X509(certificates, NULL, NULL, NULL)) != NULL)
        if (!CMS_add0_cert(cms, issuer)) {
            X509_free(issuer);
            return 0;
        }
    if (ERR_GET_REASON(ERR_peek_last_error()) != PEM_R_NO_START_LINE)
        return 0;
    ERR_clear_error();
    return 1;
}

/* The signer, and the name of its signature, which libcrypto leaves out. */
static int add_signer(CMS_ContentInfo *cms, BIO *certificates, EVP_PKEY *key)
{
    X509 *own = PEM_read_bio_X509(certificates, NULL, NULL, NULL);
    CMS_SignerInfo *signer =
        own == NULL ? NULL : CMS_add1_signer(cms, own, key, EVP_sha512(), FLAGS);
    ASN1_OBJECT *name = OBJ_txt2obj(EVP_PKEY_get0_type_name(key), 0);
    X509_ALGOR *identifier = NULL;

    X509_free(own);
    if (signer == NULL || name == NULL)
        return 0;
    CMS_SignerInfo_get0_algs(signer, NULL, NULL, NULL, &identifier);
    return X509_ALGOR_set0(identifier, name, V_ASN1_UNDEF, NULL);
}

static int write_cms(CMS_ContentInfo *cms, const char *path)
{
    BIO *out = BIO_new_file(path, "wb");
    int written = out != NULL && i2d_CMS_bio(out, cms) && BIO_flush(out) > 0;

    BIO_free(out);
    return written;
}

static int sign(char **paths, unsigned int flags)
{
    BIO *certificates = BIO_new_file(paths[0], "r"), *in = BIO_new_file(paths[2], "rb");
    EVP_PKEY *key = read_key(paths[1]);
    CMS_ContentInfo *cms = NULL;
    int done = 0;

    if (certificates != NULL && in != NULL && key != NULL &&
        (cms = CMS_sign(NULL, NULL, NULL, in, flags)) != NULL)
        done = add_signer(cms, certificates, key) && add_issuers(cms, certificates) &&
               CMS_final(cms, in, NULL, flags) && write_cms(cms, paths[3]);
    if (!done)
        ERR_print_errors_fp(stderr);
    CMS_ContentInfo_free(cms);
    EVP_PKEY_free(key);
    BIO_free(in);
    BIO_free(certificates);
    return done;
}

int main(int argc, char **argv)
{
    int detached = argc > 1 && strcmp(argv[1], "-d") == 0;

    if (argc - detached != 5) {
        fputs("usage: cms_sign [-d] CERTIFICATES KEY FILE OUT\n", stderr);
        return 2;
    }
    return !sign(argv + 1 + detached, detached ? FLAGS | CMS_DETACHED : FLAGS);
}
