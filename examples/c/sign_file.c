/*
 * Makes keys of random bytes, and signs files of any size, with SLH-DSA-SHA2-128f.
 *
 *   sign_file keygen KEY PUBLIC        makes a key, in two files
 *   sign_file sign KEY FILE SIGNATURE  signs a file
 *
 * The status is 0 where all went well, else 2.
 */
#define _DEFAULT_SOURCE
#include <string.h>
#include <sys/random.h>

#include "files.h"
#include "slh_dsa_inline.h"

#define SET SLH_DSA_SHA2_128F
#define N SLH_DSA_SHA2_128F_N

static const uint8_t CONTEXT[] = "example.org firmware v1";
#define CONTEXT_BYTES (sizeof CONTEXT - 1)

static int random_bytes(uint8_t *out, size_t count)
{
    if (getrandom(out, count, 0) == (ssize_t)count)
        return 1;
    perror("getrandom");
    return 0;
}

static int keygen(const char *key_path, const char *public_path)
{
    uint8_t seeds[SLH_DSA_SEEDS_BYTES(N)], key[SLH_DSA_SIGNING_KEY_BYTES(N)];
    uint8_t public_key[SLH_DSA_VERIFYING_KEY_BYTES(N)];
    int done = random_bytes(seeds, sizeof seeds) &&
               slh_dsa_sha2_keygen(SET, seeds, sizeof seeds, key, sizeof key, public_key,
                                   sizeof public_key) == SLH_DSA_OK &&
               write_file(key_path, key, sizeof key, 0600) &&
               write_file(public_path, public_key, sizeof public_key, 0644);

    explicit_bzero(seeds, sizeof seeds);
    explicit_bzero(key, sizeof key);
    return done ? 0 : 2;
}

static int sign_mapped(struct mapped key, struct mapped message, const char *signature_path)
{
    static uint8_t signature[SLH_DSA_SHA2_128F_SIGNATURE_BYTES];
    uint8_t randomizer[SLH_DSA_RANDOMIZER_BYTES(N)];
    slh_dsa_status status;

    if (!random_bytes(randomizer, sizeof randomizer))
        return 2;
    status = slh_dsa_sha2_sign(SET, SLH_DSA_PURE, key.bytes, key.len, message.bytes, message.len,
                               CONTEXT, CONTEXT_BYTES, randomizer, sizeof randomizer, signature,
                               sizeof signature);
    if (status != SLH_DSA_OK) {
        fprintf(stderr, "sign_file: not signed: %s\n", slh_dsa_status_text(status));
        return 2;
    }
    return write_file(signature_path, signature, sizeof signature, 0644) ? 0 : 2;
}

static int sign(const char *key_path, const char *path, const char *signature_path)
{
    struct mapped key, message;
    int status = 2;

    if (!map_file(key_path, &key))
        return 2;
    if (map_file(path, &message)) {
        status = sign_mapped(key, message, signature_path);
        unmap_file(message);
    }
    unmap_file(key);
    return status;
}

int main(int argc, char **argv)
{
    if (argc == 4 && strcmp(argv[1], "keygen") == 0)
        return keygen(argv[2], argv[3]);
    if (argc == 5 && strcmp(argv[1], "sign") == 0)
        return sign(argv[2], argv[3], argv[4]);
    fputs("usage: sign_file keygen KEY PUBLIC | sign KEY FILE SIGNATURE\n", stderr);
    return 2;
}
