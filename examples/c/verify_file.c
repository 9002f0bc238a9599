/*
 * Verifies a signature of a file of any size under SLH-DSA-SHA2-128f. The file is mapped: no byte of
 * it is copied.
 *
 *   verify_file PUBLIC FILE SIGNATURE
 *
 * The status is 0 where it is accepted, 1 where it isn't, 2 for anything else.
 */
#define _DEFAULT_SOURCE
#include "files.h"
#include "slh_dsa_inline.h"

static const uint8_t CONTEXT[] = "example.org firmware v1";
#define CONTEXT_BYTES (sizeof CONTEXT - 1)

static int verify(struct mapped public_key, struct mapped file, struct mapped signature)
{
    slh_dsa_status status = slh_dsa_sha2_verify(SLH_DSA_SHA2_128F, SLH_DSA_PURE, public_key.bytes,
                                          public_key.len, file.bytes, file.len, CONTEXT,
                                          CONTEXT_BYTES, signature.bytes, signature.len);

    if (status == SLH_DSA_OK) {
        puts("accepted");
        return 0;
    }
    if (status == SLH_DSA_INVALID) {
        puts("not accepted");
        return 1;
    }
    fprintf(stderr, "verify_file: refused: %s\n", slh_dsa_status_text(status));
    return 2;
}

int main(int argc, char **argv)
{
    struct mapped files[3];
    int i, status;

    if (argc != 4) {
        fputs("usage: verify_file PUBLIC FILE SIGNATURE\n", stderr);
        return 2;
    }
    for (i = 0; i < 3; i++)
        if (!map_file(argv[i + 1], &files[i]))
            return 2;
    status = verify(files[0], files[1], files[2]);
    for (i = 0; i < 3; i++)
        unmap_file(files[i]);
    return status;
}
