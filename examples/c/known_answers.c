/*
 * Holds the header's numbers of sets and modes to known answers: `known_answers SET MODE` writes a
 * signature of the key of data/known_answers.txt, which has its SHA-256. The status is 0 where the
 * verifying key accepts it, in this mode and with this context alone, by each call that verifies,
 * and where signing by the message's digest, or with the public seed as random bytes, gives the
 * same bytes.
 */
#include <stdio.h>
#include <string.h>

#include "slh_dsa.h"

/* The call of one set. */
typedef slh_dsa_status verify_in_set(slh_dsa_mode mode, const uint8_t *verifying_key,
                                     const uint8_t *message, size_t message_bytes,
                                     const uint8_t *context, size_t context_bytes,
                                     const uint8_t *signature);

/* The same for the mode pure alone. */
typedef slh_dsa_status verify_pure_in_set(const uint8_t *verifying_key, const uint8_t *message,
                                          size_t message_bytes, const uint8_t *context,
                                          size_t context_bytes, const uint8_t *signature);

struct parameters {
    const char *name;
    slh_dsa_set set;
    size_t seeds, key, public_key, randomizer, signature;
    verify_in_set *verify, *verify_small;
    verify_pure_in_set *verify_pure_small;
};

#define PARAMETERS(name, digits, set) \
    { \
        name, SLH_DSA_SHA2_##digits, SLH_DSA_SHA2_##digits##_SEEDS_BYTES, \
            SLH_DSA_SHA2_##digits##_SIGNING_KEY_BYTES, \
            SLH_DSA_SHA2_##digits##_VERIFYING_KEY_BYTES, \
            SLH_DSA_SHA2_##digits##_RANDOMIZER_BYTES, SLH_DSA_SHA2_##digits##_SIGNATURE_BYTES, \
            slh_dsa_sha2_##set##_verify, slh_dsa_sha2_##set##_verify_small, \
            slh_dsa_sha2_##set##_verify_pure_small \
    }

static const struct parameters SETS[] = {
    PARAMETERS("SLH-DSA-SHA2-128s", 128S, 128s), PARAMETERS("SLH-DSA-SHA2-128f", 128F, 128f),
    PARAMETERS("SLH-DSA-SHA2-192s", 192S, 192s), PARAMETERS("SLH-DSA-SHA2-192f", 192F, 192f),
    PARAMETERS("SLH-DSA-SHA2-256s", 256S, 256s), PARAMETERS("SLH-DSA-SHA2-256f", 256F, 256f),
};

/* What is signed in a mode; where a randomizer is given, its bytes count from 0 on. */
struct job {
    const char *name;
    slh_dsa_mode mode;
    const char *context, *message;
    int has_randomizer;
    const uint8_t *digest; /* of the message, by other programs */
    size_t digest_bytes;
};

static const uint8_t SHA256_DIGEST[] = {
    0x31, 0x5f, 0x5b, 0xdb, 0x76, 0xd0, 0x78, 0xc4, 0x3b, 0x8a, 0xc0, 0x06,
    0x4e, 0x4a, 0x01, 0x64, 0x61, 0x2b, 0x1f, 0xce, 0x77, 0xc8, 0x69, 0x34,
    0x5b, 0xfc, 0x94, 0xc7, 0x58, 0x94, 0xed, 0xd3,
};

/* FIPS 180-4's example. */
static const uint8_t SHA512_DIGEST[] = {
    0xdd, 0xaf, 0x35, 0xa1, 0x93, 0x61, 0x7a, 0xba, 0xcc, 0x41, 0x73, 0x49,
    0xae, 0x20, 0x41, 0x31, 0x12, 0xe6, 0xfa, 0x4e, 0x89, 0xa9, 0x7e, 0xa2,
    0x0a, 0x9e, 0xee, 0xe6, 0x4b, 0x55, 0xd3, 0x9a, 0x21, 0x92, 0x99, 0x2a,
    0x27, 0x4f, 0xc1, 0xa8, 0x36, 0xba, 0x3c, 0x23, 0xa3, 0xfe, 0xeb, 0xbd,
    0x45, 0x4d, 0x44, 0x23, 0x64, 0x3c, 0xe8, 0x0e, 0x2a, 0x9a, 0xc9, 0x4f,
    0xa5, 0x4c, 0xa4, 0x9f,
};

static const struct job JOBS[] = {
    {"pure", SLH_DSA_PURE, "", "Hello", 0, NULL, 0},
    {"sha256", SLH_DSA_PREHASH_SHA256, "Test context!", "Hello, world!", 0, SHA256_DIGEST,
     sizeof SHA256_DIGEST},
    {"sha512", SLH_DSA_PREHASH_SHA512, "", "abc", 1, SHA512_DIGEST, sizeof SHA512_DIGEST},
};

static uint8_t key[SLH_DSA_MAX_SIGNING_KEY_BYTES], public_key[SLH_DSA_MAX_VERIFYING_KEY_BYTES];
static uint8_t signature[SLH_DSA_MAX_SIGNATURE_BYTES];

static slh_dsa_status make_key(const struct parameters *p)
{
    uint8_t seeds[SLH_DSA_MAX_SEEDS_BYTES];

    for (size_t i = 0; i < p->seeds; i++)
        seeds[i] = (uint8_t)(i / p->randomizer + 1);
    return slh_dsa_sha2_keygen(p->set, seeds, p->seeds, key, p->key, public_key, p->public_key);
}

static slh_dsa_status sign(const struct parameters *p, const struct job *job)
{
    const uint8_t *message = (const uint8_t *)job->message;
    const uint8_t *context = (const uint8_t *)job->context;
    uint8_t randomizer[SLH_DSA_MAX_RANDOMIZER_BYTES];

    if (!job->has_randomizer)
        return slh_dsa_sha2_sign_deterministic(p->set, job->mode, key, p->key, message,
                                               strlen(job->message), context, strlen(job->context),
                                               signature, p->signature);
    for (size_t i = 0; i < p->randomizer; i++)
        randomizer[i] = (uint8_t)i;
    return slh_dsa_sha2_sign(p->set, job->mode, key, p->key, message, strlen(job->message), context,
                             strlen(job->context), randomizer, p->randomizer, signature,
                             p->signature);
}

/* Whether each call that verifies answers so, in a mode and with a context. */
static int all_answer(const struct parameters *p, const char *text, slh_dsa_mode mode,
                      const char *with, size_t context_length, slh_dsa_status wanted)
{
    const uint8_t *message = (const uint8_t *)text, *context = (const uint8_t *)with;
    size_t length = strlen(text);

    return slh_dsa_sha2_verify(p->set, mode, public_key, p->public_key, message, length, context,
                               context_length, signature, p->signature) == wanted &&
           p->verify(mode, public_key, message, length, context, context_length, signature) ==
               wanted &&
           p->verify_small(mode, public_key, message, length, context, context_length,
                           signature) == wanted &&
           (mode != SLH_DSA_PURE || p->verify_pure_small(public_key, message, length, context,
                                                         context_length, signature) == wanted);
}

/* Whether the signature is accepted in its mode with its context, and is none in another mode or
 * with another context; a mode that doesn't exist and a context that is too long are told. */
static int is_of_its_mode_alone(const struct parameters *p, const struct job *job)
{
    static const char other[SLH_DSA_MAX_CONTEXT_BYTES + 1];
    size_t context_length = strlen(job->context);
    int good = all_answer(p, job->message, 3, other, sizeof other, SLH_DSA_UNKNOWN_MODE);

    for (size_t i = 0; i < sizeof JOBS / sizeof JOBS[0]; i++) {
        slh_dsa_mode mode = JOBS[i].mode;
        slh_dsa_status wanted = &JOBS[i] == job ? SLH_DSA_OK : SLH_DSA_INVALID;

        good &= all_answer(p, job->message, mode, job->context, context_length, wanted);
        good &= all_answer(p, job->message, mode, other, 1, SLH_DSA_INVALID);
        good &= all_answer(p, job->message, mode, other, sizeof other, SLH_DSA_CONTEXT_TOO_LONG);
    }
    return good;
}

/* Whether the public seed as random bytes makes the signature that is made without any (FIPS 205,
 * section 9.2). */
static int is_by_public_seed(const struct parameters *p, const struct job *job)
{
    static uint8_t by_seed[SLH_DSA_MAX_SIGNATURE_BYTES];

    return slh_dsa_sha2_sign(p->set, job->mode, key, p->key, (const uint8_t *)job->message,
                             strlen(job->message), (const uint8_t *)job->context,
                             strlen(job->context), public_key, p->randomizer, by_seed,
                             p->signature) == SLH_DSA_OK &&
           memcmp(by_seed, signature, p->signature) == 0;
}

static slh_dsa_status verify_digest(const struct parameters *p, const struct job *job,
                                    const uint8_t *digest)
{
    return slh_dsa_sha2_verify_digest(p->set, job->mode, public_key, p->public_key, digest,
                                      job->digest_bytes, (const uint8_t *)job->context,
                                      strlen(job->context), signature, p->signature);
}

/* Whether the digest of the message is signed as the message is, and verified, and no other. */
static int is_signed_by_digest(const struct parameters *p, const struct job *job)
{
    static uint8_t by_digest[SLH_DSA_MAX_SIGNATURE_BYTES], other[sizeof SHA512_DIGEST];
    const uint8_t *context = (const uint8_t *)job->context;
    size_t context_length = strlen(job->context);
    uint8_t randomizer[SLH_DSA_MAX_RANDOMIZER_BYTES];
    slh_dsa_status signed_by;

    for (size_t i = 0; i < p->randomizer; i++)
        randomizer[i] = (uint8_t)i;
    signed_by = job->has_randomizer
                    ? slh_dsa_sha2_sign_digest(p->set, job->mode, key, p->key, job->digest,
                                               job->digest_bytes, context, context_length,
                                               randomizer, p->randomizer, by_digest, p->signature)
                    : slh_dsa_sha2_sign_digest_deterministic(
                          p->set, job->mode, key, p->key, job->digest, job->digest_bytes, context,
                          context_length, by_digest, p->signature);
    return signed_by == SLH_DSA_OK && memcmp(by_digest, signature, p->signature) == 0 &&
           verify_digest(p, job, job->digest) == SLH_DSA_OK &&
           verify_digest(p, job, other) == SLH_DSA_INVALID;
}

/* The root of the key of 128f that the Rust crate slh-dsa 0.1.0 gives. */
static const uint8_t ROOT_OF_128F[] = {
    0x40, 0x52, 0xe0, 0x73, 0x3e, 0x69, 0xe7, 0x87, 0x39, 0xd6, 0xe6, 0x7c, 0x77, 0xf9, 0xa3, 0x7d,
};

/* Whether the verifying key is the third seed and, of 128f, that root. */
static int has_known_halves(const struct parameters *p)
{
    for (size_t i = 0; i < p->randomizer; i++)
        if (public_key[i] != 3)
            return 0;
    return p->set != SLH_DSA_SHA2_128F ||
           memcmp(public_key + p->randomizer, ROOT_OF_128F, sizeof ROOT_OF_128F) == 0;
}

/* Whether the signing key tells the verifying key, and that its root is its own. */
static int tells_its_halves(const struct parameters *p)
{
    uint8_t told[SLH_DSA_MAX_VERIFYING_KEY_BYTES];

    return slh_dsa_sha2_public(p->set, key, p->key, told, p->public_key) == SLH_DSA_OK &&
           memcmp(told, public_key, p->public_key) == 0 &&
           slh_dsa_sha2_check_key(p->set, key, p->key) == SLH_DSA_OK;
}

static int answer(const struct parameters *p, const struct job *job)
{
    if (make_key(p) != SLH_DSA_OK || sign(p, job) != SLH_DSA_OK || !is_of_its_mode_alone(p, job))
        return 1;
    if (!has_known_halves(p) || !tells_its_halves(p))
        return 1;
    if (job->digest != NULL ? !is_signed_by_digest(p, job) : !is_by_public_seed(p, job))
        return 1;
    return fwrite(signature, 1, p->signature, stdout) != p->signature;
}

int main(int argc, char **argv)
{
    const struct parameters *p = NULL;
    const struct job *job = NULL;

    for (size_t i = 0; argc == 3 && i < sizeof SETS / sizeof SETS[0]; i++)
        if (strcmp(SETS[i].name, argv[1]) == 0)
            p = &SETS[i];
    for (size_t i = 0; argc == 3 && i < sizeof JOBS / sizeof JOBS[0]; i++)
        if (strcmp(JOBS[i].name, argv[2]) == 0)
            job = &JOBS[i];
    if (p == NULL || job == NULL) {
        fputs("usage: known_answers SET pure|sha256|sha512\n", stderr);
        return 2;
    }
    return answer(p, job);
}
