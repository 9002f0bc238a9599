/*
 * Times the library for C: `rates TURNS SECONDS` prints, for each parameter set, the processor time
 * of a call that makes a key, that signs and that verifies, in milliseconds, and what the small form
 * of verifying takes of the plain one. Each is the best of the turns, which take at least so many
 * seconds each. The status is 0 where each signature is accepted.
 */
#include <stdio.h>
#include <stdlib.h>
#include <string.h>
#include <time.h>

#include "slh_dsa.h"

/* The call of one set. */
typedef slh_dsa_status verify_in_set(slh_dsa_mode mode, const uint8_t *verifying_key,
                                     const uint8_t *message, size_t message_bytes,
                                     const uint8_t *context, size_t context_bytes,
                                     const uint8_t *signature);

static const struct {
    const char *name;
    slh_dsa_set set;
    verify_in_set *verify, *verify_small;
} SETS[] = {
    {"SLH-DSA-SHA2-128s", SLH_DSA_SHA2_128S, slh_dsa_sha2_128s_verify, slh_dsa_sha2_128s_verify_small},
    {"SLH-DSA-SHA2-128f", SLH_DSA_SHA2_128F, slh_dsa_sha2_128f_verify, slh_dsa_sha2_128f_verify_small},
    {"SLH-DSA-SHA2-192s", SLH_DSA_SHA2_192S, slh_dsa_sha2_192s_verify, slh_dsa_sha2_192s_verify_small},
    {"SLH-DSA-SHA2-192f", SLH_DSA_SHA2_192F, slh_dsa_sha2_192f_verify, slh_dsa_sha2_192f_verify_small},
    {"SLH-DSA-SHA2-256s", SLH_DSA_SHA2_256S, slh_dsa_sha2_256s_verify, slh_dsa_sha2_256s_verify_small},
    {"SLH-DSA-SHA2-256f", SLH_DSA_SHA2_256F, slh_dsa_sha2_256f_verify, slh_dsa_sha2_256f_verify_small},
};

static const uint8_t MESSAGE[] = "a message of thirty-two bytes...";

/* Key, signature and set that the timed calls work on. */
static uint8_t key[SLH_DSA_MAX_SIGNING_KEY_BYTES], public_key[SLH_DSA_MAX_VERIFYING_KEY_BYTES];
static uint8_t signature[SLH_DSA_MAX_SIGNATURE_BYTES];
static size_t at;

static slh_dsa_status make_key(void)
{
    static const uint8_t seeds[SLH_DSA_MAX_SEEDS_BYTES] = {1, 2, 3};
    size_t n = slh_dsa_sha2_n(SETS[at].set);
    return slh_dsa_sha2_keygen(SETS[at].set, seeds, SLH_DSA_SEEDS_BYTES(n), key,
                               SLH_DSA_SIGNING_KEY_BYTES(n), public_key,
                               SLH_DSA_VERIFYING_KEY_BYTES(n));
}

static slh_dsa_status sign(void)
{
    size_t n = slh_dsa_sha2_n(SETS[at].set);
    return slh_dsa_sha2_sign_deterministic(SETS[at].set, SLH_DSA_PURE, key,
                                           SLH_DSA_SIGNING_KEY_BYTES(n), MESSAGE, sizeof MESSAGE,
                                           MESSAGE, 0, signature,
                                           slh_dsa_sha2_signature_bytes(SETS[at].set));
}

static slh_dsa_status verify(void)
{
    return SETS[at].verify(SLH_DSA_PURE, public_key, MESSAGE, sizeof MESSAGE, MESSAGE, 0, signature);
}

static slh_dsa_status verify_small(void)
{
    return SETS[at].verify_small(SLH_DSA_PURE, public_key, MESSAGE, sizeof MESSAGE, MESSAGE, 0,
                                 signature);
}

/* The processor time of a call in a turn of at least so many seconds, in milliseconds. */
static double turn(slh_dsa_status (*call)(void), double seconds)
{
    clock_t begun = clock();
    double spent;
    unsigned long calls = 0;
    do {
        slh_dsa_status status = call();
        if (status != SLH_DSA_OK) {
            fprintf(stderr, "%s: status %u\n", SETS[at].name, (unsigned)status);
            exit(1);
        }
        calls++;
        spent = (double)(clock() - begun) / CLOCKS_PER_SEC;
    } while (spent < seconds);
    return 1000 * spent / (double)calls;
}

int main(int argc, char **argv)
{
    static slh_dsa_status (*const calls[])(void) = {make_key, sign, verify, verify_small};
    if (argc != 3) {
        fprintf(stderr, "usage: rates TURNS SECONDS\n");
        return 2;
    }
    int turns = atoi(argv[1]);
    double seconds = atof(argv[2]);
    for (at = 0; at < sizeof SETS / sizeof *SETS; at++) {
        double best[4] = {1e9, 1e9, 1e9, 1e9};
        for (int i = 0; i < turns; i++) {
            for (size_t j = 0; j < 4; j++) {
                double spent = turn(calls[j], seconds);
                best[j] = spent < best[j] ? spent : best[j];
            }
        }
        printf("| %s | %.3g ms | %.3g ms | %.3g ms | %.1f |\n", SETS[at].name, best[0], best[1],
               best[2], best[3] / best[2]);
    }
    return 0;
}
