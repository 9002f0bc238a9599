/*
 * Two threads that verify at once, one key and one signature for both, and a third that signs with
 * the same key: the library keeps nothing between calls. It writes "all accepted", and answers 0.
 */
#include <pthread.h>
#include <stdio.h>

#include "slh_dsa.h"

#define SET SLH_DSA_SHA2_128F
#define N SLH_DSA_SHA2_128F_N

enum { ROUNDS = 200, SIGNED = 10 };

static uint8_t key[SLH_DSA_SIGNING_KEY_BYTES(N)], public_key[SLH_DSA_VERIFYING_KEY_BYTES(N)];
static uint8_t signature[SLH_DSA_SHA2_128F_SIGNATURE_BYTES];
static const uint8_t message[] = "one message for all threads", context[] = "threads";

static slh_dsa_status verify(const uint8_t *of)
{
    return slh_dsa_sha2_verify(SET, SLH_DSA_PURE, public_key, sizeof public_key, message,
                               sizeof message, context, sizeof context, of, sizeof signature);
}

static slh_dsa_status sign(uint8_t *to)
{
    return slh_dsa_sha2_sign_deterministic(SET, SLH_DSA_PURE, key, sizeof key, message,
                                           sizeof message, context, sizeof context, to,
                                           sizeof signature);
}

/* How many rounds are not accepted. */
static void *verify_all(void *refused)
{
    for (int i = 0; i < ROUNDS; i++)
        *(int *)refused += verify(signature) != SLH_DSA_OK;
    return NULL;
}

static void *sign_all(void *refused)
{
    static uint8_t another[sizeof signature];

    for (int i = 0; i < SIGNED; i++)
        *(int *)refused += sign(another) != SLH_DSA_OK || verify(another) != SLH_DSA_OK;
    return NULL;
}

int main(void)
{
    uint8_t seeds[SLH_DSA_SEEDS_BYTES(N)] = {0};
    pthread_t threads[3];
    int refused[3] = {0};

    if (slh_dsa_sha2_keygen(SET, seeds, sizeof seeds, key, sizeof key, public_key,
                            sizeof public_key) != SLH_DSA_OK ||
        sign(signature) != SLH_DSA_OK)
        return 1;
    for (int i = 0; i < 3; i++)
        if (pthread_create(&threads[i], NULL, i < 2 ? verify_all : sign_all, &refused[i]) != 0)
            return 1;
    for (int i = 0; i < 3; i++)
        pthread_join(threads[i], NULL);
    puts(refused[0] + refused[1] + refused[2] == 0 ? "all accepted" : "not all accepted");
    return refused[0] + refused[1] + refused[2] != 0;
}
