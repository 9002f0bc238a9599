/*
 * Holds the library to its header: each refusal, what is left unwritten, each mode. It writes
 * "as the header says", and answers 0. Build it with -fsanitize=address,undefined to see each
 * access of the C side, and that the library writes no byte beyond a buffer's end.
 */
#include <stdio.h>
#include <stdlib.h>
#include <string.h>

#include "slh_dsa.h"

static int failures;

static void want(int line, size_t got, size_t wanted)
{
    if (got != wanted) {
        printf("line %d: %zu in place of %zu\n", line, got, wanted);
        failures++;
    }
}

#define WANT(call, wanted) want(__LINE__, (size_t)(call), (size_t)(wanted))

/* One set with its key, a message and a context, each in memory of exactly its size. */
struct bench {
    slh_dsa_set set;
    size_t n, sig_bytes;
    uint8_t *seeds, *key, *public_key, *sig, *rand, *msg, *ctx;
};

enum { MSG = 100, CTX = SLH_DSA_MAX_CONTEXT_BYTES };

static uint8_t *filled(size_t bytes)
{
    uint8_t *made = malloc(bytes);

    if (made == NULL)
        abort();
    memset(made, 0x5a, bytes);
    return made;
}

static int is_filled(const uint8_t *at, size_t bytes)
{
    while (bytes > 0 && *at == 0x5a)
        at++, bytes--;
    return bytes == 0;
}

static struct bench make_bench(slh_dsa_set set)
{
    struct bench b = {.set = set, .n = slh_dsa_sha2_n(set)};

    b.sig_bytes = slh_dsa_sha2_signature_bytes(set);
    b.seeds = filled(SLH_DSA_SEEDS_BYTES(b.n));
    b.key = filled(SLH_DSA_SIGNING_KEY_BYTES(b.n));
    b.public_key = filled(SLH_DSA_VERIFYING_KEY_BYTES(b.n));
    b.sig = filled(b.sig_bytes);
    b.rand = filled(SLH_DSA_RANDOMIZER_BYTES(b.n));
    b.msg = filled(MSG);
    b.ctx = filled(CTX + 1);
    return b;
}

static void free_bench(struct bench *b)
{
    uint8_t *all[] = {b->seeds, b->key, b->public_key, b->sig, b->rand, b->msg, b->ctx};

    for (size_t i = 0; i < sizeof all / sizeof all[0]; i++)
        free(all[i]);
}

static slh_dsa_status keygen(const struct bench *b, slh_dsa_set set, size_t less_seeds,
                             size_t less_key)
{
    return slh_dsa_sha2_keygen(set, b->seeds, 3 * b->n - less_seeds, b->key, 4 * b->n - less_key,
                               b->public_key, 2 * b->n);
}

/* Signs with a context that is too long and a randomizer that is too short. */
static slh_dsa_status sign_in(const struct bench *b, slh_dsa_set set, slh_dsa_mode mode,
                              size_t less_key, size_t less_sig)
{
    return slh_dsa_sha2_sign(set, mode, b->key, 4 * b->n - less_key, b->msg, MSG, b->ctx, CTX + 1,
                             b->rand, 0, b->sig, b->sig_bytes - less_sig);
}

static slh_dsa_status sign(const struct bench *b, slh_dsa_mode mode, size_t msg, size_t ctx,
                           size_t rand)
{
    return slh_dsa_sha2_sign(b->set, mode, b->key, 4 * b->n, b->msg, msg, b->ctx, ctx, b->rand,
                             rand, b->sig, b->sig_bytes);
}

static slh_dsa_status verify(const struct bench *b, slh_dsa_mode mode, size_t msg, size_t ctx,
                             size_t sig)
{
    return slh_dsa_sha2_verify(b->set, mode, b->public_key, 2 * b->n, b->msg, msg, b->ctx, ctx,
                               b->sig, sig);
}

static slh_dsa_status sign_digest(const struct bench *b, slh_dsa_mode mode, size_t digest)
{
    return slh_dsa_sha2_sign_digest(b->set, mode, b->key, 4 * b->n, b->msg, digest, b->ctx, CTX,
                                    b->rand, b->n, b->sig, b->sig_bytes);
}

static slh_dsa_status audit(const struct bench *b, slh_dsa_mode mode, slh_dsa_evidence *evidence)
{
    return slh_dsa_sha2_audit(b->set, mode, b->key, 4 * b->n, b->msg, MSG, b->ctx, CTX, b->sig,
                              b->sig_bytes, evidence);
}

static slh_dsa_status check(const struct bench *b, uint32_t kind, uint32_t at)
{
    slh_dsa_evidence evidence = {kind, at, at, at};

    return slh_dsa_sha2_check_evidence(b->set, SLH_DSA_PURE, b->key, 4 * b->n, b->msg, MSG, b->ctx,
                                       CTX, b->sig, b->sig_bytes, &evidence);
}

static void keys(const struct bench *b)
{
    WANT(keygen(b, 0, 0, 0), SLH_DSA_UNKNOWN_SET);
    WANT(keygen(b, 7, 0, 0), SLH_DSA_UNKNOWN_SET);
    WANT(keygen(b, b->set, 1, 0), SLH_DSA_LENGTH);
    WANT(keygen(b, b->set, 3 * b->n, 0), SLH_DSA_LENGTH);
    WANT(keygen(b, b->set, 0, 1), SLH_DSA_LENGTH);
    WANT(is_filled(b->key, 4 * b->n) && is_filled(b->public_key, 2 * b->n), 1);
    WANT(keygen(b, b->set, 0, 0), SLH_DSA_OK);
    WANT(memcmp(b->key, b->seeds, 3 * b->n) == 0, 1);
    WANT(memcmp(b->key + 2 * b->n, b->public_key, 2 * b->n) == 0, 1);
}

/* What a signing key tells of itself. */
static void told_by_keys(const struct bench *b)
{
    const size_t key = 4 * b->n, public_key = 2 * b->n;
    uint8_t *told = filled(public_key);

    WANT(slh_dsa_sha2_public(7, b->key, 0, told, 0), SLH_DSA_UNKNOWN_SET);
    WANT(slh_dsa_sha2_public(b->set, b->key, key - 1, told, public_key), SLH_DSA_LENGTH);
    WANT(slh_dsa_sha2_public(b->set, b->key, key, told, public_key - 1), SLH_DSA_LENGTH);
    WANT(is_filled(told, public_key), 1);
    WANT(slh_dsa_sha2_public(b->set, b->key, key, told, public_key), SLH_DSA_OK);
    WANT(memcmp(told, b->public_key, public_key) == 0, 1);
    free(told);
    WANT(slh_dsa_sha2_check_key(7, b->key, 0), SLH_DSA_UNKNOWN_SET);
    WANT(slh_dsa_sha2_check_key(b->set, b->key, key - 1), SLH_DSA_LENGTH);
    WANT(slh_dsa_sha2_check_key(b->set, b->key, key), SLH_DSA_OK);
    b->key[key - 1] ^= 1;
    WANT(slh_dsa_sha2_check_key(b->set, b->key, key), SLH_DSA_KEY_MISMATCH);
    b->key[key - 1] ^= 1;
}

static void refused(const struct bench *b)
{
    const size_t too_long = ((size_t)1 << 60) + 1;

    WANT(sign_in(b, 0, 3, 1, 1), SLH_DSA_UNKNOWN_SET);
    WANT(sign_in(b, b->set, 3, 1, 1), SLH_DSA_UNKNOWN_MODE);
    WANT(sign_in(b, b->set, SLH_DSA_PURE, 1, 0), SLH_DSA_LENGTH);
    WANT(sign_in(b, b->set, SLH_DSA_PURE, 4 * b->n, 0), SLH_DSA_LENGTH);
    WANT(sign_in(b, b->set, SLH_DSA_PURE, 0, 1), SLH_DSA_LENGTH);
    WANT(sign(b, 3, MSG, CTX + 1, b->n), SLH_DSA_UNKNOWN_MODE);
    WANT(sign(b, SLH_DSA_PURE, too_long, CTX + 1, b->n - 1), SLH_DSA_CONTEXT_TOO_LONG);
    WANT(sign(b, SLH_DSA_PURE, too_long, CTX, b->n - 1), SLH_DSA_RANDOMIZER_LENGTH);
    WANT(sign(b, SLH_DSA_PURE, too_long, CTX, 0), SLH_DSA_RANDOMIZER_LENGTH);
    WANT(sign(b, SLH_DSA_PURE, too_long, CTX, b->n), SLH_DSA_MESSAGE_TOO_LONG);
    WANT(is_filled(b->sig, b->sig_bytes), 1);
    WANT(verify(b, 3, MSG, CTX + 1, 0), SLH_DSA_UNKNOWN_MODE);
    WANT(verify(b, SLH_DSA_PURE, too_long, CTX + 1, b->sig_bytes - 1), SLH_DSA_LENGTH);
    WANT(verify(b, SLH_DSA_PURE, too_long, CTX + 1, b->sig_bytes), SLH_DSA_CONTEXT_TOO_LONG);
    WANT(verify(b, SLH_DSA_PURE, too_long, CTX, b->sig_bytes), SLH_DSA_MESSAGE_TOO_LONG);
}

/* A digest has the length of its mode's hash, and the mode pure has none. */
static void digests_refused(const struct bench *b)
{
    WANT(sign_digest(b, SLH_DSA_PURE, 32), SLH_DSA_LENGTH);
    WANT(sign_digest(b, SLH_DSA_PREHASH_SHA256, 31), SLH_DSA_LENGTH);
    WANT(sign_digest(b, SLH_DSA_PREHASH_SHA512, 32), SLH_DSA_LENGTH);
    WANT(sign_digest(b, 3, 32), SLH_DSA_UNKNOWN_MODE);
    WANT(is_filled(b->sig, b->sig_bytes), 1);
}

static void signed_in(const struct bench *b, slh_dsa_mode mode)
{
    slh_dsa_evidence evidence = {77, 77, 77, 77};
    const size_t sig = b->sig_bytes;

    WANT(sign(b, mode, 0, 0, b->n), SLH_DSA_OK);
    WANT(verify(b, mode, 0, 0, sig), SLH_DSA_OK);
    WANT(sign(b, mode, MSG, CTX, b->n), SLH_DSA_OK);
    WANT(verify(b, mode, MSG, CTX, sig), SLH_DSA_OK);
    WANT(verify(b, (mode + 1) % 3, MSG, CTX, sig), SLH_DSA_INVALID);
    WANT(verify(b, mode, MSG - 1, CTX, sig), SLH_DSA_INVALID);
    WANT(verify(b, mode, MSG, CTX - 1, sig), SLH_DSA_INVALID);
    WANT(audit(b, mode, &evidence), SLH_DSA_OK);
    for (size_t at = 0; at < sig; at += sig / 7) {
        b->sig[at] ^= 1;
        WANT(verify(b, mode, MSG, CTX, sig), SLH_DSA_INVALID);
        WANT(audit(b, mode, &evidence), SLH_DSA_INVALID);
        b->sig[at] ^= 1;
    }
    b->key[4 * b->n - 1] ^= 1;
    WANT(audit(b, mode, &evidence), SLH_DSA_KEY_MISMATCH);
    b->key[4 * b->n - 1] ^= 1;
    WANT(evidence.kind, 77);
}

static void evidences(const struct bench *b)
{
    for (uint32_t kind = 0; kind < 9; kind++) {
        int is_known = kind >= SLH_DSA_EVIDENCE_FORS_NODE && kind <= SLH_DSA_EVIDENCE_EARLY;
        slh_dsa_status wanted = is_known ? SLH_DSA_NOT_SHOWN : SLH_DSA_UNKNOWN_EVIDENCE;

        WANT(check(b, kind, 1), wanted);
        WANT(check(b, kind, UINT32_MAX), wanted);
    }
    WANT(check(b, UINT32_MAX, 1), SLH_DSA_UNKNOWN_EVIDENCE);
}

#define WANT_SIZES(name) \
    do { \
        const slh_dsa_set set = SLH_DSA_SHA2_##name; \
        const size_t n = slh_dsa_sha2_n(set); \
\
        WANT(SLH_DSA_SHA2_##name##_N, n); \
        WANT(SLH_DSA_SHA2_##name##_SEEDS_BYTES, SLH_DSA_SEEDS_BYTES(n)); \
        WANT(SLH_DSA_SHA2_##name##_SIGNING_KEY_BYTES, SLH_DSA_SIGNING_KEY_BYTES(n)); \
        WANT(SLH_DSA_SHA2_##name##_VERIFYING_KEY_BYTES, SLH_DSA_VERIFYING_KEY_BYTES(n)); \
        WANT(SLH_DSA_SHA2_##name##_RANDOMIZER_BYTES, SLH_DSA_RANDOMIZER_BYTES(n)); \
        WANT(SLH_DSA_SHA2_##name##_SIGNATURE_BYTES, slh_dsa_sha2_signature_bytes(set)); \
        WANT(n <= SLH_DSA_MAX_RANDOMIZER_BYTES, 1); \
        WANT(SLH_DSA_SHA2_##name##_SIGNATURE_BYTES <= SLH_DSA_MAX_SIGNATURE_BYTES, 1); \
    } while (0)

static void sizes(void)
{
    WANT_SIZES(128S);
    WANT_SIZES(128F);
    WANT_SIZES(192S);
    WANT_SIZES(192F);
    WANT_SIZES(256S);
    WANT_SIZES(256F);
    WANT(slh_dsa_version(), SLH_DSA_VERSION_NUMBER);
    WANT(slh_dsa_sha2_n(0) == 0 && slh_dsa_sha2_n(7) == 0, 1);
    WANT(slh_dsa_sha2_signature_bytes(0) == 0 && slh_dsa_sha2_signature_bytes(7) == 0, 1);
    WANT(slh_dsa_sha2_n(UINT32_MAX) == 0 && slh_dsa_sha2_signature_bytes(UINT32_MAX) == 0, 1);
    WANT(SLH_DSA_MAX_RANDOMIZER_BYTES, slh_dsa_sha2_n(SLH_DSA_SHA2_256F));
    WANT(SLH_DSA_MAX_SIGNATURE_BYTES, slh_dsa_sha2_signature_bytes(SLH_DSA_SHA2_256F));
    WANT(SLH_DSA_SEEDS_BYTES(SLH_DSA_MAX_RANDOMIZER_BYTES), SLH_DSA_MAX_SEEDS_BYTES);
    WANT(SLH_DSA_SIGNING_KEY_BYTES(SLH_DSA_MAX_RANDOMIZER_BYTES), SLH_DSA_MAX_SIGNING_KEY_BYTES);
    WANT(SLH_DSA_VERIFYING_KEY_BYTES(SLH_DSA_MAX_RANDOMIZER_BYTES),
         SLH_DSA_MAX_VERIFYING_KEY_BYTES);
}

/* The names that had no prefix are those of today. */
static void old_names(void)
{
    WANT(SLH_DSA_SHA256, SLH_DSA_PREHASH_SHA256);
    WANT(SLH_DSA_SHA512, SLH_DSA_PREHASH_SHA512);
    WANT(SLH_DSA_FORS_NODE, SLH_DSA_EVIDENCE_FORS_NODE);
    WANT(SLH_DSA_FORS_ROOTS, SLH_DSA_EVIDENCE_FORS_ROOTS);
    WANT(SLH_DSA_CHAIN_STEP, SLH_DSA_EVIDENCE_CHAIN_STEP);
    WANT(SLH_DSA_LEAF, SLH_DSA_EVIDENCE_LEAF);
    WANT(SLH_DSA_TREE_NODE, SLH_DSA_EVIDENCE_TREE_NODE);
    WANT(SLH_DSA_EARLY, SLH_DSA_EVIDENCE_EARLY);
}

int main(void)
{
    const slh_dsa_set sets[] = {SLH_DSA_SHA2_128F, SLH_DSA_SHA2_192F, SLH_DSA_SHA2_256F};

    sizes();
    old_names();
    for (size_t i = 0; i < sizeof sets / sizeof sets[0]; i++) {
        struct bench b = make_bench(sets[i]);

        keys(&b);
        told_by_keys(&b);
        refused(&b);
        digests_refused(&b);
        for (slh_dsa_mode mode = SLH_DSA_PURE; mode <= SLH_DSA_PREHASH_SHA512; mode++)
            signed_in(&b, mode);
        evidences(&b);
        free_bench(&b);
    }
    puts(failures == 0 ? "as the header says" : "not as the header says");
    return failures != 0;
}
