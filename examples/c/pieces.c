/*
 * Holds the calls in pieces to those in one: each set and mode, the ways to cut a message into two
 * (all of them in one set), what was signed twice, each refusal, and states of any bytes. It writes
 * "as the header says", and answers 0. Build it with -fsanitize=address,undefined to see each
 * access of the C side.
 */
#include <stdio.h>
#include <stdlib.h>
#include <string.h>

#include "slh_dsa_inline.h"

enum { MSG = 300, CTX = 7 };

_Static_assert(sizeof(slh_dsa_verifier) == 744 && sizeof(slh_dsa_signer) == 808, "C.md tells it");

static uint8_t seeds[SLH_DSA_MAX_SEEDS_BYTES], key[SLH_DSA_MAX_SIGNING_KEY_BYTES];
static uint8_t public_key[SLH_DSA_MAX_VERIFYING_KEY_BYTES];
static uint8_t whole[SLH_DSA_MAX_SIGNATURE_BYTES], signature[SLH_DSA_MAX_SIGNATURE_BYTES];
static uint8_t msg[MSG], ctx[SLH_DSA_MAX_CONTEXT_BYTES + 1];
static slh_dsa_set set;
static size_t n, bytes;
static int failures;

static void want(int line, size_t got, size_t wanted)
{
    if (got != wanted) {
        printf("set %u, line %d: %zu instead of %zu\n", (unsigned)set, line, got, wanted);
        failures++;
    }
}

#define WANT(call, wanted) want(__LINE__, (size_t)(call), (size_t)(wanted))

static slh_dsa_status begin(slh_dsa_verifier *v, slh_dsa_mode mode)
{
    return slh_dsa_sha2_verify_begin(v, set, mode, public_key, 2 * n, ctx, CTX, whole, bytes);
}

/* What the calls in pieces answer to a message that is cut in two. */
static slh_dsa_status verify_cut(slh_dsa_mode mode, size_t cut)
{
    slh_dsa_verifier *v = malloc(sizeof *v);
    slh_dsa_status answer;

    if (v == NULL || begin(v, mode) != SLH_DSA_OK ||
        slh_dsa_sha2_verify_update(v, msg, cut) != SLH_DSA_OK ||
        slh_dsa_sha2_verify_update(v, msg + cut, MSG - cut) != SLH_DSA_OK)
        abort();
    answer = slh_dsa_sha2_verify_finish(v, whole, bytes);
    WANT(slh_dsa_sha2_verify_finish(v, whole, bytes), SLH_DSA_STATE);
    WANT(slh_dsa_sha2_verify_update(v, msg, 0), SLH_DSA_STATE);
    free(v);
    return answer;
}

static void verified_in(slh_dsa_mode mode)
{
    WANT(slh_dsa_sha2_sign(set, mode, key, 4 * n, msg, MSG, ctx, CTX, seeds, n, whole, bytes),
         SLH_DSA_OK);
    /* Each cut where a signature is verified soon, some in the other sets. */
    for (size_t cut = 0; cut <= MSG; cut += set == SLH_DSA_SHA2_128S ? 1 : 61)
        WANT(verify_cut(mode, cut), SLH_DSA_OK);
    msg[MSG / 2] ^= 1;
    WANT(verify_cut(mode, 1), SLH_DSA_INVALID);
    msg[MSG / 2] ^= 1;
    whole[bytes - 1] ^= 1;
    WANT(verify_cut(mode, 1), SLH_DSA_INVALID);
    whole[bytes - 1] ^= 1;
}

static void verify_refused(void)
{
    slh_dsa_verifier v, kept;

    memset(&v, 0x5a, sizeof v);
    kept = v;
    WANT(slh_dsa_sha2_verify_begin(&v, 7, 3, ctx, 0, ctx, sizeof ctx, whole, 0),
         SLH_DSA_UNKNOWN_SET);
    WANT(slh_dsa_sha2_verify_begin(&v, set, 3, ctx, 0, ctx, sizeof ctx, whole, 0),
         SLH_DSA_UNKNOWN_MODE);
    WANT(slh_dsa_sha2_verify_begin(&v, set, 0, public_key, 2 * n - 1, ctx, sizeof ctx, whole,
                                   bytes),
         SLH_DSA_LENGTH);
    WANT(slh_dsa_sha2_verify_begin(&v, set, 0, public_key, 2 * n, ctx, sizeof ctx, whole,
                                   bytes - 1),
         SLH_DSA_LENGTH);
    WANT(slh_dsa_sha2_verify_begin(&v, set, 0, public_key, 2 * n, ctx, sizeof ctx, whole, bytes),
         SLH_DSA_CONTEXT_TOO_LONG);
    WANT(memcmp(&v, &kept, sizeof v), 0);
    WANT(begin(&v, 0), SLH_DSA_OK);
    kept = v;
    WANT(slh_dsa_sha2_verify_update(&v, msg, ((size_t)1 << 60) + 1), SLH_DSA_MESSAGE_TOO_LONG);
    WANT(slh_dsa_sha2_verify_update(&v, msg, 1), SLH_DSA_OK);
    WANT(slh_dsa_sha2_verify_update(&v, msg, (size_t)1 << 60), SLH_DSA_MESSAGE_TOO_LONG);
    v = kept;
    WANT(slh_dsa_sha2_verify_finish(&v, whole, bytes - 1), SLH_DSA_LENGTH);
    v = kept;
    whole[0] ^= 1;
    WANT(slh_dsa_sha2_verify_finish(&v, whole, bytes), SLH_DSA_STATE);
    /* The length comes before the randomizer. */
    v = kept;
    WANT(slh_dsa_sha2_verify_finish(&v, whole, bytes - 1), SLH_DSA_LENGTH);
    v = kept;
    WANT(slh_dsa_sha2_verify_finish(&v, whole, 0), SLH_DSA_LENGTH);
    whole[0] ^= 1;
}

/* Signs the message in two pieces, and then in others. */
static slh_dsa_status sign_cut(size_t cut, const uint8_t *second, size_t again_cut)
{
    slh_dsa_signer *s = malloc(sizeof *s);
    slh_dsa_status answer;

    if (s == NULL ||
        slh_dsa_sha2_sign_begin(s, set, key, 4 * n, ctx, CTX, seeds, n) != SLH_DSA_OK ||
        slh_dsa_sha2_sign_update(s, msg, cut) != SLH_DSA_OK ||
        slh_dsa_sha2_sign_update(s, msg + cut, MSG - cut) != SLH_DSA_OK ||
        slh_dsa_sha2_sign_again(s, ctx, CTX) != SLH_DSA_OK ||
        slh_dsa_sha2_sign_update(s, second, again_cut) != SLH_DSA_OK ||
        slh_dsa_sha2_sign_update(s, second + again_cut, MSG - again_cut) != SLH_DSA_OK)
        abort();
    memset(signature, 0x5a, sizeof signature);
    answer = slh_dsa_sha2_sign_finish(s, key, 4 * n, signature, bytes);
    WANT(slh_dsa_sha2_sign_update(s, msg, 0), SLH_DSA_STATE);
    /* The PRF key stands nowhere in the state any more. */
    for (size_t at = 0; at + n <= sizeof *s; at++)
        WANT(memcmp((const uint8_t *)s + at, key + n, n) == 0, 0);
    free(s);
    return answer;
}

static void signed_twice(void)
{
    uint8_t changed[MSG];

    WANT(slh_dsa_sha2_sign(set, SLH_DSA_PURE, key, 4 * n, msg, MSG, ctx, CTX, seeds, n, whole,
                           bytes),
         SLH_DSA_OK);
    WANT(sign_cut(100, msg, 250), SLH_DSA_OK);
    WANT(memcmp(signature, whole, bytes), 0);
    for (size_t at = 0; at < MSG; at += 37) {
        memcpy(changed, msg, MSG);
        changed[at] ^= 1;
        WANT(sign_cut(MSG, changed, 0), SLH_DSA_CHANGED);
        WANT(signature[0] == 0x5a && memcmp(signature, signature + 1, bytes - 1) == 0, 1);
    }
}

static slh_dsa_status finish_after(slh_dsa_signer *s, const uint8_t *context, size_t context_bytes,
                                   size_t key_bytes, size_t signature_bytes)
{
    if (slh_dsa_sha2_sign_begin_deterministic(s, set, key, 4 * n, ctx, CTX) != SLH_DSA_OK)
        abort();
    WANT(slh_dsa_sha2_sign_again(s, ctx, sizeof ctx), SLH_DSA_CONTEXT_TOO_LONG);
    WANT(slh_dsa_sha2_sign_again(s, context, context_bytes), SLH_DSA_OK);
    WANT(slh_dsa_sha2_sign_again(s, context, context_bytes), SLH_DSA_STATE);
    return slh_dsa_sha2_sign_finish(s, key, key_bytes, signature, signature_bytes);
}

static void sign_refused(void)
{
    slh_dsa_signer s, kept;

    memset(&s, 0x5a, sizeof s);
    kept = s;
    WANT(slh_dsa_sha2_sign_begin(&s, 0, key, 0, ctx, sizeof ctx, seeds, 0), SLH_DSA_UNKNOWN_SET);
    WANT(slh_dsa_sha2_sign_begin(&s, set, key, 4 * n - 1, ctx, sizeof ctx, seeds, 0),
         SLH_DSA_LENGTH);
    WANT(slh_dsa_sha2_sign_begin(&s, set, key, 4 * n, ctx, sizeof ctx, seeds, 0),
         SLH_DSA_CONTEXT_TOO_LONG);
    WANT(slh_dsa_sha2_sign_begin(&s, set, key, 4 * n, ctx, CTX, seeds, n - 1),
         SLH_DSA_RANDOMIZER_LENGTH);
    WANT(memcmp(&s, &kept, sizeof s), 0);
    WANT(finish_after(&s, ctx, CTX - 1, 4 * n, bytes), SLH_DSA_CHANGED);
    WANT(finish_after(&s, ctx, CTX, 4 * n - 1, bytes), SLH_DSA_LENGTH);
    WANT(finish_after(&s, ctx, CTX, 4 * n, bytes - 1), SLH_DSA_LENGTH);
    WANT(finish_after(&s, ctx, CTX, 4 * n, bytes), SLH_DSA_OK);
    WANT(slh_dsa_sha2_sign_finish(&s, key, 4 * n, signature, bytes), SLH_DSA_STATE);
}

/* Signing ends in its second pass alone, and with the key that it began with: another PRF key,
 * public seed or root is another key. */
static void sign_ends_in_order(void)
{
    uint8_t other[sizeof key];
    slh_dsa_signer s;

    memset(signature, 0x5a, sizeof signature);
    WANT(slh_dsa_sha2_sign_begin_deterministic(&s, set, key, 4 * n, ctx, CTX), SLH_DSA_OK);
    WANT(slh_dsa_sha2_sign_finish(&s, key, 4 * n, signature, bytes), SLH_DSA_STATE);
    WANT(slh_dsa_sha2_sign_again(&s, ctx, CTX), SLH_DSA_STATE);
    for (size_t part = 1; part < 4; part++) {
        memcpy(other, key, sizeof key);
        other[part * n] ^= 1;
        WANT(slh_dsa_sha2_sign_begin_deterministic(&s, set, key, 4 * n, ctx, CTX), SLH_DSA_OK);
        WANT(slh_dsa_sha2_sign_again(&s, ctx, CTX), SLH_DSA_OK);
        WANT(slh_dsa_sha2_sign_finish(&s, other, 4 * n, signature, bytes), SLH_DSA_STATE);
    }
    WANT(signature[0] == 0x5a && memcmp(signature, signature + 1, bytes - 1) == 0, 1);
}

/* The library takes a state to have all bytes of the header's type, and none behind them: the end
 * of each writes the same whatever stood there. */
static void states_are_whole(void)
{
    const uint64_t paints[2] = {UINT64_C(0x5a5a5a5a5a5a5a5a), UINT64_C(0xa5a5a5a5a5a5a5a5)};
    struct {
        slh_dsa_verifier state;
        uint64_t behind;
    } v[2];
    struct {
        slh_dsa_signer state;
        uint64_t behind;
    } s[2];

    for (int i = 0; i < 2; i++) {
        memset(&v[i], (int)(paints[i] & 0xff), sizeof v[i]);
        memset(&s[i], (int)(paints[i] & 0xff), sizeof s[i]);
        WANT(slh_dsa_sha2_verify_finish(&v[i].state, whole, bytes), SLH_DSA_STATE);
        WANT(slh_dsa_sha2_sign_finish(&s[i].state, key, 4 * n, signature, bytes), SLH_DSA_STATE);
        WANT(v[i].behind == paints[i] && s[i].behind == paints[i], 1);
    }
    WANT(memcmp(&v[0].state, &v[1].state, sizeof v[0].state) == 0, 1);
    WANT(memcmp(&s[0].state, &s[1].state, sizeof s[0].state) == 0, 1);
}

/* What ends a copy of a state. */
static slh_dsa_status verify_ends(const slh_dsa_verifier *of)
{
    slh_dsa_verifier *v = malloc(sizeof *v);
    slh_dsa_status status;

    if (v == NULL)
        abort();
    memcpy(v, of, sizeof *v);
    status = slh_dsa_sha2_verify_finish(v, whole, bytes);
    free(v);
    return status;
}

static slh_dsa_status sign_ends(const slh_dsa_signer *of)
{
    slh_dsa_signer *s = malloc(sizeof *s);
    slh_dsa_status status;

    if (s == NULL)
        abort();
    memcpy(s, of, sizeof *s);
    status = slh_dsa_sha2_sign_finish(s, key, 4 * n, signature, bytes);
    free(s);
    return status;
}

/* Each call of a state of any bytes answers something, and none accepts or signs. */
static void any_bytes(const uint8_t *filling, size_t filling_bytes)
{
    slh_dsa_verifier *v = malloc(sizeof *v);
    slh_dsa_signer *s = malloc(sizeof *s);
    uint32_t *set_of = (uint32_t *)(void *)v, *pass_of = (uint32_t *)(void *)s;

    if (v == NULL || s == NULL)
        abort();
    for (size_t at = 0; at < sizeof *s; at++) {
        ((uint8_t *)s)[at] = filling[at % filling_bytes];
        if (at < sizeof *v)
            ((uint8_t *)v)[at] = filling[at % filling_bytes];
    }
    WANT(slh_dsa_sha2_verify_update(v, msg, 1) == SLH_DSA_STATE, 1);
    WANT(slh_dsa_sha2_sign_update(s, msg, 1) == SLH_DSA_STATE, 1);
    WANT(slh_dsa_sha2_sign_again(s, ctx, CTX) == SLH_DSA_STATE, 1);
    WANT(verify_ends(v), SLH_DSA_STATE);
    WANT(sign_ends(s), SLH_DSA_STATE);
    /* With a set, a mode and a pass, which stand there twice, what they stand for is up to the
       rest. */
    for (uint32_t number = 0; number < 9; number++) {
        set_of[0] = set;
        set_of[1] = set_of[2] = number % 3;
        pass_of[0] = set;
        pass_of[1] = pass_of[2] = number % 3;
        (void)!slh_dsa_sha2_verify_update(v, msg, MSG);
        (void)!slh_dsa_sha2_sign_update(s, msg, MSG);
        (void)!slh_dsa_sha2_sign_again(s, ctx, CTX);
        WANT(verify_ends(v) != SLH_DSA_OK, 1);
        WANT(sign_ends(s) != SLH_DSA_OK, 1);
    }
    free(v);
    free(s);
}

static void any_states(void)
{
    static const uint8_t zeros[1], ones[1] = {0xff};
    uint8_t random[64];
    uint32_t next = 1;

    any_bytes(zeros, 1);
    any_bytes(ones, 1);
    for (int i = 0; i < 50; i++) {
        for (size_t at = 0; at < sizeof random; at++) {
            next = next * 1664525 + 1013904223;
            random[at] = (uint8_t)(next >> 24);
        }
        any_bytes(random, sizeof random);
    }
}

int main(void)
{
    for (size_t at = 0; at < MSG; at++)
        msg[at] = (uint8_t)(at * 7);
    for (size_t at = 0; at < sizeof seeds; at++)
        seeds[at] = (uint8_t)(at + 1);
    for (set = SLH_DSA_SHA2_128S; set <= SLH_DSA_SHA2_256F; set++) {
        n = slh_dsa_sha2_n(set);
        bytes = slh_dsa_sha2_signature_bytes(set);
        WANT(slh_dsa_sha2_keygen(set, seeds, 3 * n, key, 4 * n, public_key, 2 * n), SLH_DSA_OK);
        for (slh_dsa_mode mode = SLH_DSA_PURE; mode <= SLH_DSA_PREHASH_SHA512; mode++)
            verified_in(mode);
        verify_refused();
        if (set == SLH_DSA_SHA2_128F || set == SLH_DSA_SHA2_192F || set == SLH_DSA_SHA2_256F) {
            signed_twice();
            sign_refused();
            sign_ends_in_order();
            states_are_whole();
            any_states();
        }
    }
    if (failures == 0)
        puts("as the header says");
    return failures != 0;
}
