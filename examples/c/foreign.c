/*
 * A signature that the key accepts and didn't make: `foreign KEY SIGNATURE`, in files, of `Hello`.
 * The first evidence is the early end of chain 1 in layer 0 (data/README.md tells why), and it
 * shows, while the same at another place doesn't. The status is 0 where all is so.
 */
#include <stdio.h>

#include "slh_dsa.h"

#define SET SLH_DSA_SHA2_128F

static uint8_t key[SLH_DSA_SHA2_128F_SIGNING_KEY_BYTES];
static uint8_t signature[SLH_DSA_SHA2_128F_SIGNATURE_BYTES];
static const uint8_t message[] = {'H', 'e', 'l', 'l', 'o'}, empty[1];

static int read_file(const char *path, uint8_t *to, size_t bytes)
{
    FILE *file = fopen(path, "rb");
    int done = file != NULL && fread(to, 1, bytes, file) == bytes && fgetc(file) == EOF;

    if (file != NULL)
        fclose(file);
    return done;
}

static slh_dsa_status check(slh_dsa_evidence evidence)
{
    return slh_dsa_sha2_check_evidence(SET, SLH_DSA_PURE, key, sizeof key, message, sizeof message,
                                       empty, 0, signature, sizeof signature, &evidence);
}

static int is_as_told(void)
{
    slh_dsa_evidence found = {77, 77, 77, 77}, moved;
    slh_dsa_status status =
        slh_dsa_sha2_audit(SET, SLH_DSA_PURE, key, sizeof key, message, sizeof message, empty, 0,
                           signature, sizeof signature, &found);

    if (status != SLH_DSA_FOREIGN || found.kind != SLH_DSA_EVIDENCE_EARLY || found.layer != 0 ||
        found.index != 1 || found.level != 0)
        return 0;
    moved = found;
    moved.index = 0;
    return check(found) == SLH_DSA_OK && check(moved) == SLH_DSA_NOT_SHOWN;
}

int main(int argc, char **argv)
{
    if (argc != 3 || !read_file(argv[1], key, sizeof key) ||
        !read_file(argv[2], signature, sizeof signature)) {
        fputs("usage: foreign KEY SIGNATURE\n", stderr);
        return 2;
    }
    return !is_as_told();
}
