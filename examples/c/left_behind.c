/*
 * What each call that gets a secret leaves behind: it runs on a stack that was painted, and then the
 * stack, and the state of a signer, are searched for eight bytes in a row of the secret seed or of
 * the PRF key, also with the bytes of each word turned round, under HMAC's two masks, and as what
 * HMAC's two hashes have absorbed of it. A line for a call that leaves any; the status is 1 then, or
 * where a call answered something else than it should.
 */
#define _GNU_SOURCE
#define OPENSSL_SUPPRESS_DEPRECATED
#include <openssl/sha.h>
#include <pthread.h>
#include <stdio.h>
#include <stdlib.h>
#include <string.h>

#include "slh_dsa.h"

enum { STACK = 1 << 18, PAINT = 0xa5, SETS = 6, RUN = 8, MAX_HIDDEN = 64 };

static _Alignas(4096) uint8_t stack[STACK];
static uint8_t key[SLH_DSA_MAX_SIGNING_KEY_BYTES], public_key[SLH_DSA_MAX_VERIFYING_KEY_BYTES];
static uint8_t seeds[SLH_DSA_MAX_SEEDS_BYTES], signature[SLH_DSA_MAX_SIGNATURE_BYTES];
static uint8_t randomizer[SLH_DSA_MAX_RANDOMIZER_BYTES];
static const uint8_t context[] = "left behind", digest[64] = {1};
/* Long enough for its blocks to be hashed several at a time. */
static uint8_t message[8192];
static slh_dsa_signer signer;
static slh_dsa_set set;
static slh_dsa_mode mode;
static size_t n, signature_bytes;
static slh_dsa_status status;

/* What is looked for: a name, and bytes. */
typedef struct hidden {
    const char *name;
    size_t bytes;
    uint8_t text[64];
} hidden;
static hidden all[MAX_HIDDEN];
static size_t hidden_count;

static void hide(const char *name, const void *text, size_t bytes)
{
    hidden *it = &all[hidden_count++];

    if (hidden_count > MAX_HIDDEN)
        abort();
    it->name = name;
    it->bytes = bytes;
    memcpy(it->text, text, bytes);
}

/* The text, and the same with the bytes of each word turned round. */
static void hide_turned(const char *name, const uint8_t *text, size_t bytes)
{
    uint8_t turned[64];

    hide(name, text, bytes);
    for (size_t word = 4; word <= 8; word += 4) {
        for (size_t i = 0; i < bytes; i++)
            turned[i] = text[i / word * word + (word - 1 - i % word)];
        hide(name, turned, bytes);
    }
}

/* A secret under a mask, and the states of HMAC's hashes that have absorbed it. */
static void hide_masked(const char *name, const uint8_t *secret, uint8_t mask)
{
    uint8_t block[128];
    SHA256_CTX sha256;
    SHA512_CTX sha512;

    memset(block, mask, sizeof block);
    for (size_t i = 0; i < n; i++)
        block[i] ^= secret[i];
    hide_turned(name, block, n);
    SHA256_Init(&sha256);
    SHA256_Update(&sha256, block, 64);
    hide_turned(name, (const uint8_t *)sha256.h, 32);
    SHA512_Init(&sha512);
    SHA512_Update(&sha512, block, 128);
    hide_turned(name, (const uint8_t *)sha512.h, 64);
}

static void hide_secrets(void)
{
    hidden_count = 0;
    hide_turned("the secret seed", key, n);
    hide_turned("the PRF key", key + n, n);
    hide_masked("HMAC's inner key", key + n, 0x36);
    hide_masked("HMAC's outer key", key + n, 0x5c);
}

/* The name of something hidden that has eight bytes in a row there, or NULL. */
static const char *found_in(const void *bytes, size_t size)
{
    const uint8_t *place = bytes;

    for (size_t i = 0; i < hidden_count; i++)
        for (size_t from = 0; from + RUN <= all[i].bytes; from++)
            if (memmem(place, size, all[i].text + from, RUN) != NULL)
                return all[i].name;
    return NULL;
}

static void *nothing(void *unused)
{
    status = SLH_DSA_OK;
    return unused;
}

static void *keygen(void *unused)
{
    status = slh_dsa_sha2_keygen(set, seeds, 3 * n, key, 4 * n, public_key, 2 * n);
    return unused;
}

static void *tell_public(void *unused)
{
    status = slh_dsa_sha2_public(set, key, 4 * n, public_key, 2 * n);
    return unused;
}

static void *check_key(void *unused)
{
    status = slh_dsa_sha2_check_key(set, key, 4 * n);
    return unused;
}

static void *sign(void *unused)
{
    status = slh_dsa_sha2_sign(set, mode, key, 4 * n, message, sizeof message, context,
                               sizeof context, randomizer, n, signature, signature_bytes);
    return unused;
}

static void *sign_deterministic(void *unused)
{
    status = slh_dsa_sha2_sign_deterministic(set, mode, key, 4 * n, message, sizeof message,
                                             context, sizeof context, signature, signature_bytes);
    return unused;
}

static void *sign_digest(void *unused)
{
    status = slh_dsa_sha2_sign_digest(set, SLH_DSA_PREHASH_SHA512, key, 4 * n, digest, 64, context,
                                      sizeof context, randomizer, n, signature, signature_bytes);
    return unused;
}

static void *sign_digest_deterministic(void *unused)
{
    status = slh_dsa_sha2_sign_digest_deterministic(set, SLH_DSA_PREHASH_SHA512, key, 4 * n, digest,
                                                    64, context, sizeof context, signature,
                                                    signature_bytes);
    return unused;
}

static void *sign_begin(void *unused)
{
    status = slh_dsa_sha2_sign_begin(&signer, set, key, 4 * n, context, sizeof context, randomizer,
                                     n);
    return unused;
}

static void *sign_begin_deterministic(void *unused)
{
    status = slh_dsa_sha2_sign_begin_deterministic(&signer, set, key, 4 * n, context,
                                                   sizeof context);
    return unused;
}

static void *sign_update(void *unused)
{
    status = slh_dsa_sha2_sign_update(&signer, message, sizeof message);
    return unused;
}

static void *sign_again(void *unused)
{
    status = slh_dsa_sha2_sign_again(&signer, context, sizeof context);
    return unused;
}

static void *sign_finish(void *unused)
{
    status = slh_dsa_sha2_sign_finish(&signer, key, 4 * n, signature, signature_bytes);
    return unused;
}

static void *audit(void *unused)
{
    slh_dsa_evidence evidence;

    status = slh_dsa_sha2_audit(set, mode, key, 4 * n, message, sizeof message, context,
                                sizeof context, signature, signature_bytes, &evidence);
    return unused;
}

/* Each kind of evidence shows nothing of a signature that the key made. */
static void *check_evidence(void *unused)
{
    slh_dsa_evidence evidence = {SLH_DSA_EVIDENCE_FORS_NODE, 0, 0, 1};

    do {
        status = slh_dsa_sha2_check_evidence(set, mode, key, 4 * n, message, sizeof message, context,
                                             sizeof context, signature, signature_bytes, &evidence);
    } while (status == SLH_DSA_NOT_SHOWN && ++evidence.kind <= SLH_DSA_EVIDENCE_EARLY);
    return unused;
}

/* In the order in which one needs what another made. A call of a state that was finished is refused. */
static const struct call {
    const char *name;
    void *(*run)(void *);
    slh_dsa_status wanted;
    int has_mode, ends_state;
} calls[] = {
    {"nothing", nothing, SLH_DSA_OK, 0, 0},
    {"keygen", keygen, SLH_DSA_OK, 0, 0},
    {"public", tell_public, SLH_DSA_OK, 0, 0},
    {"check_key", check_key, SLH_DSA_OK, 0, 0},
    {"sign_digest", sign_digest, SLH_DSA_OK, 0, 0},
    {"sign_digest_deterministic", sign_digest_deterministic, SLH_DSA_OK, 0, 0},
    {"sign_deterministic", sign_deterministic, SLH_DSA_OK, 1, 0},
    {"sign", sign, SLH_DSA_OK, 1, 0},
    {"audit", audit, SLH_DSA_OK, 1, 0},
    {"check_evidence", check_evidence, SLH_DSA_NOT_SHOWN, 1, 0},
    {"sign_begin_deterministic", sign_begin_deterministic, SLH_DSA_OK, 0, 0},
    {"sign_begin", sign_begin, SLH_DSA_OK, 0, 0},
    {"sign_update", sign_update, SLH_DSA_OK, 0, 0},
    {"sign_again", sign_again, SLH_DSA_OK, 0, 0},
    {"sign_update", sign_update, SLH_DSA_OK, 0, 0},
    {"sign_finish", sign_finish, SLH_DSA_OK, 0, 1},
    {"sign_update", sign_update, SLH_DSA_STATE, 0, 1},
    {"sign_again", sign_again, SLH_DSA_STATE, 0, 1},
    {"sign_finish", sign_finish, SLH_DSA_STATE, 0, 1},
};

static void run_painted(void *(*call)(void *))
{
    pthread_attr_t attributes;
    pthread_t thread;

    memset(stack, PAINT, sizeof stack);
    pthread_attr_init(&attributes);
    if (pthread_attr_setstack(&attributes, stack, sizeof stack) != 0 ||
        pthread_create(&thread, &attributes, call, NULL) != 0 || pthread_join(thread, NULL) != 0)
        abort();
    pthread_attr_destroy(&attributes);
}

/* 1 where the call leaves something behind, or answers something else than it should. */
static int is_bad(const struct call *call)
{
    const char *name;

    run_painted(call->run);
    hide_secrets();
    if (status != call->wanted) {
        printf("set %u mode %u %s: status %u\n", (unsigned)set, (unsigned)mode, call->name,
               (unsigned)status);
        return 1;
    }
    name = found_in(stack, sizeof stack);
    if (name == NULL && call->ends_state)
        name = found_in(&signer, sizeof signer);
    if (name != NULL)
        printf("set %u mode %u %s: %s\n", (unsigned)set, (unsigned)mode, call->name, name);
    return name != NULL;
}

int main(void)
{
    int bad = 0;

    for (size_t i = 0; i < sizeof seeds; i++)
        seeds[i] = (uint8_t)(i * i * 7 + i * 13 + 101);
    for (size_t i = 0; i < sizeof randomizer; i++)
        randomizer[i] = (uint8_t)(200 - 3 * i);
    for (size_t i = 0; i < sizeof message; i++)
        message[i] = (uint8_t)(i * 5 + i / 256);
    for (set = 1; set <= SETS; set++) {
        n = slh_dsa_sha2_n(set);
        signature_bytes = slh_dsa_sha2_signature_bytes(set);
        memcpy(key, seeds, 3 * n);
        for (mode = SLH_DSA_PURE; mode <= SLH_DSA_PREHASH_SHA512; mode++)
            for (size_t i = 0; i < sizeof calls / sizeof *calls; i++)
                if (mode == SLH_DSA_PURE || calls[i].has_mode)
                    bad |= is_bad(&calls[i]);
    }
    return bad;
}
