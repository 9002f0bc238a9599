/* Makes a key and signs with seeds that valgrind's memcheck takes for undefined, so that it reports each
 * branch and each index that a value made from them decides: `secrets SET seed` does so with the
 * secret seed, `secrets SET prf` with the PRF key. What is public is defined again: the verifying key,
 * and each signature once it is made. */

#include <stdio.h>
#include <stdlib.h>
#include <string.h>
#include <valgrind/memcheck.h>

#include "slh_dsa.h"

int main(int argc, char **argv)
{
    static uint8_t signature[SLH_DSA_MAX_SIGNATURE_BYTES];
    uint8_t seeds[SLH_DSA_MAX_SEEDS_BYTES], key[SLH_DSA_MAX_SIGNING_KEY_BYTES];
    uint8_t public_key[SLH_DSA_MAX_VERIFYING_KEY_BYTES];
    const uint8_t message[] = "hello", context[] = "example.org";
    slh_dsa_set set;
    slh_dsa_status status;
    size_t n;

    if (argc != 3)
        return 2;
    set = (slh_dsa_set)strtoul(argv[1], NULL, 10);
    n = slh_dsa_sha2_n(set);
    if (n == 0)
        return 2;
    memset(seeds, 7, sizeof seeds);
    VALGRIND_MAKE_MEM_UNDEFINED(seeds + (strcmp(argv[2], "seed") == 0 ? 0 : n), n);

    VALGRIND_PRINTF("begins: keygen\n");
    status = slh_dsa_sha2_keygen(set, seeds, 3 * n, key, 4 * n, public_key, 2 * n);
    VALGRIND_MAKE_MEM_DEFINED(&status, sizeof status);
    if (status != SLH_DSA_OK)
        return 1;
    VALGRIND_MAKE_MEM_DEFINED(public_key, 2 * n);
    VALGRIND_MAKE_MEM_DEFINED(key + 2 * n, 2 * n);

    VALGRIND_PRINTF("begins: sign\n");
    status = slh_dsa_sha2_sign_deterministic(set, SLH_DSA_PURE, key, 4 * n, message, sizeof message,
                                             context, sizeof context, signature,
                                             slh_dsa_sha2_signature_bytes(set));
    VALGRIND_MAKE_MEM_DEFINED(&status, sizeof status);
    VALGRIND_MAKE_MEM_DEFINED(signature, sizeof signature);
    if (status != SLH_DSA_OK)
        return 1;
    status = slh_dsa_sha2_verify(set, SLH_DSA_PURE, public_key, 2 * n, message, sizeof message,
                                 context, sizeof context, signature,
                                 slh_dsa_sha2_signature_bytes(set));
    return status != SLH_DSA_OK;
}
