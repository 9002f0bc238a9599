/*
 * The stack that each call takes: it runs on memory that was painted before. A line for a call has
 * the bytes that it wrote over, and what the header allows it; the status is 1 where it took more,
 * or where a call answered something else than it should.
 */
#define _DEFAULT_SOURCE
#include <pthread.h>
#include <stdio.h>
#include <string.h>

#include "sealed.h"
#include "slh_dsa.h"

enum { STACK = 1 << 20, PAINT = 0xa5, SETS = 6 };

static _Alignas(4096) uint8_t stack[STACK];
static uint8_t key[SLH_DSA_MAX_SIGNING_KEY_BYTES], public_key[SLH_DSA_MAX_VERIFYING_KEY_BYTES];
static uint8_t seeds[SLH_DSA_MAX_SEEDS_BYTES], signature[SLH_DSA_MAX_SIGNATURE_BYTES];
static const uint8_t empty[1], zeros[40];
/* Long enough for its blocks to be hashed several at a time, which takes stack of its own. */
static const uint8_t message[8192];
static slh_dsa_set set;
static size_t n, signature_bytes;
static int surprises;

/* A call that is refused takes less stack than it may. */
static void want(slh_dsa_status status, slh_dsa_status wanted)
{
    surprises += status != wanted;
}

static void *nothing(void *unused)
{
    return unused;
}

static void *keygen(void *unused)
{
    want(slh_dsa_sha2_keygen(set, seeds, 3 * n, key, 4 * n, public_key, 2 * n), SLH_DSA_OK);
    return unused;
}

static void *tell_public(void *unused)
{
    want(slh_dsa_sha2_public(set, key, 4 * n, public_key, 2 * n), SLH_DSA_OK);
    return unused;
}

static void *sign(void *unused)
{
    want(slh_dsa_sha2_sign(set, SLH_DSA_PREHASH_SHA512, key, 4 * n, message, sizeof message,
                           empty, 1, seeds, n,
                           signature, signature_bytes),
         SLH_DSA_OK);
    return unused;
}

static void *verify(void *unused)
{
    want(slh_dsa_sha2_verify(set, SLH_DSA_PREHASH_SHA512, public_key, 2 * n, message,
                             sizeof message, empty, 1,
                             signature, signature_bytes),
         SLH_DSA_OK);
    return unused;
}

static void *sign_digest(void *unused)
{
    static const uint8_t digest[64];

    want(slh_dsa_sha2_sign_digest(set, SLH_DSA_PREHASH_SHA512, key, 4 * n, digest, sizeof digest,
                                  empty, 1, seeds, n, signature, signature_bytes),
         SLH_DSA_OK);
    return unused;
}

static void *verify_digest(void *unused)
{
    static const uint8_t digest[64];

    want(slh_dsa_sha2_verify_digest(set, SLH_DSA_PREHASH_SHA512, public_key, 2 * n, digest,
                                    sizeof digest, empty, 1, signature, signature_bytes),
         SLH_DSA_INVALID);
    return unused;
}

static void *verify_pieces(void *unused)
{
    static slh_dsa_verifier verifier;

    want(slh_dsa_sha2_verify_begin(&verifier, set, SLH_DSA_PREHASH_SHA512, public_key, 2 * n, empty,
                                   1, signature, signature_bytes),
         SLH_DSA_OK);
    want(slh_dsa_sha2_verify_update(&verifier, message, sizeof message), SLH_DSA_OK);
    want(slh_dsa_sha2_verify_finish(&verifier, signature, signature_bytes), SLH_DSA_OK);
    return unused;
}

static void *sign_pieces(void *unused)
{
    static slh_dsa_signer signer;

    want(slh_dsa_sha2_sign_begin(&signer, set, key, 4 * n, empty, 1, seeds, n), SLH_DSA_OK);
    want(slh_dsa_sha2_sign_update(&signer, message, sizeof message), SLH_DSA_OK);
    want(slh_dsa_sha2_sign_again(&signer, empty, 1), SLH_DSA_OK);
    want(slh_dsa_sha2_sign_update(&signer, message, sizeof message), SLH_DSA_OK);
    want(slh_dsa_sha2_sign_finish(&signer, key, 4 * n, signature, signature_bytes), SLH_DSA_OK);
    return unused;
}

static void *verify_small(void *unused)
{
    static slh_dsa_status (*const calls[])(slh_dsa_mode, const uint8_t *, const uint8_t *, size_t,
                                           const uint8_t *, size_t, const uint8_t *) = {
        slh_dsa_sha2_128s_verify_small, slh_dsa_sha2_128f_verify_small,
        slh_dsa_sha2_192s_verify_small, slh_dsa_sha2_192f_verify_small,
        slh_dsa_sha2_256s_verify_small, slh_dsa_sha2_256f_verify_small};

    want(calls[set - 1](SLH_DSA_PREHASH_SHA512, public_key, message, sizeof message, empty,
                        1, signature),
         SLH_DSA_OK);
    return unused;
}

/* The signature is one of another mode, which is told at the end. */
static void *verify_pure_small(void *unused)
{
    static slh_dsa_status (*const calls[])(const uint8_t *, const uint8_t *, size_t, const uint8_t *,
                                           size_t, const uint8_t *) = {
        slh_dsa_sha2_128s_verify_pure_small, slh_dsa_sha2_128f_verify_pure_small,
        slh_dsa_sha2_192s_verify_pure_small, slh_dsa_sha2_192f_verify_pure_small,
        slh_dsa_sha2_256s_verify_pure_small, slh_dsa_sha2_256f_verify_pure_small};

    want(calls[set - 1](public_key, message, sizeof message, empty, 1, signature),
         SLH_DSA_INVALID);
    return unused;
}

static void *check_key(void *unused)
{
    want(slh_dsa_sha2_check_key(set, key, 4 * n), SLH_DSA_OK);
    return unused;
}

static void *audit(void *unused)
{
    slh_dsa_evidence evidence;

    want(slh_dsa_sha2_audit(set, SLH_DSA_PREHASH_SHA512, key, 4 * n, message, sizeof message,
                            empty, 1, signature,
                            signature_bytes, &evidence),
         SLH_DSA_OK);
    return unused;
}

static void *check_evidence(void *unused)
{
    slh_dsa_evidence evidence = {SLH_DSA_EVIDENCE_CHAIN_STEP, 0, 0, 1};

    for (evidence.kind = SLH_DSA_EVIDENCE_FORS_NODE; evidence.kind <= SLH_DSA_EVIDENCE_EARLY;
         evidence.kind++)
        want(slh_dsa_sha2_check_evidence(set, SLH_DSA_PREHASH_SHA512, key, 4 * n, message,
                                         sizeof message, empty, 1, signature, signature_bytes,
                                         &evidence),
             SLH_DSA_NOT_SHOWN);
    return unused;
}

/* What an updater reads, of one part each, under the key: its signature is made before the call is
 * measured. */
static uint8_t update_space[3 * SLH_DSA_MAX_SIGNATURE_BYTES];
static struct sealed update = {0, key, update_space, 0};

static void make_link(void)
{
    put(&update, "\0\1x", 3);
    put(&update, public_key, 2 * n);
    want(seal(&update, "slh-chain"), SLH_DSA_OK);
}

static void *walk(void *unused)
{
    uint8_t end_key[SLH_DSA_MAX_VERIFYING_KEY_BYTES];
    slh_chain_end end;

    want(slh_chain_walk(set, public_key, 2 * n, update.at, update.bytes, end_key, 2 * n, &end),
         SLH_DSA_OK);
    return unused;
}

static void make_manifest(void)
{
    put(&update, "\0\0\0\1\1x", 6);
    put(&update, zeros, 40);
    want(seal(&update, "slh-manifest"), SLH_DSA_OK);
}

static void *open_manifest(void *unused)
{
    slh_manifest_file file;
    uint32_t entries;

    want(slh_manifest_open(set, public_key, 2 * n, update.at, update.bytes, &entries), SLH_DSA_OK);
    want(slh_manifest_entry(update.at, update.bytes, 0, &file), SLH_DSA_OK);
    want(slh_manifest_find(update.at, update.bytes, (const uint8_t *)"x", 1, &file), SLH_DSA_OK);
    return unused;
}

/* A receipt of one message: the signature is one of another root, so it is verified and refused. */
static void make_receipt(void)
{
    put(&update, "\0\0\0\0\0\0\0\1", 8);
    want(seal(&update, "slh-batch"), SLH_DSA_OK);
}

static void *accept_receipt(void *unused)
{
    want(slh_batch_accept(set, public_key, 2 * n, message, sizeof message, update.at, update.bytes),
         SLH_DSA_INVALID);
    return unused;
}

/* The head of a batch of one message, which is another one than that which is looked for. */
static void make_batch(void)
{
    put(&update, "\0\0\0\1", 4);
    put(&update, zeros, 32);
    want(seal(&update, "slh-batch"), SLH_DSA_OK);
}

static void *open_batch(void *unused)
{
    slh_batch_head head;

    want(slh_batch_open(set, public_key, 2 * n, update.at, update.bytes, &head), SLH_DSA_OK);
    want(slh_batch_accept_under(&head, message, sizeof message, 0, empty, 0), SLH_DSA_INVALID);
    return unused;
}

/* The ids of the keys of zeros in a log "o": SHA-256 of "o", LF, ff, the set's name, LF and the
 * verifying key, by another program. */
static const uint8_t ids[SETS][4] = {
    {0x16, 0x9e, 0xba, 0xcb}, {0x66, 0x42, 0x36, 0xbc}, {0x03, 0x40, 0x1d, 0xc7},
    {0x1c, 0xb3, 0x7c, 0x2b}, {0x96, 0x4a, 0x0e, 0x1f}, {0xa3, 0x41, 0xab, 0x40}};

static void make_checkpoint(void)
{
    want(seal_checkpoint(&update, "o", "1", zeros, ids[set - 1]), SLH_DSA_OK);
}

static void *open_log(void *unused)
{
    static uint8_t scratch[SLH_LOG_MAX_SCRATCH_BYTES];
    slh_log_head head;

    want(slh_log_open(set, public_key, 2 * n, (const uint8_t *)"o", 1, update.at, update.bytes,
                      scratch, sizeof scratch, &head),
         SLH_DSA_OK);
    want(slh_log_check_presence(&head, 0, message, sizeof message, empty, 0), SLH_DSA_INVALID);
    want(slh_log_check_growth(&head, &head, empty, 0), SLH_DSA_OK);
    return unused;
}

static void make_nothing(void)
{
}

static void (*make)(void) = make_nothing;

/* How many bytes a thread wrote over, from the stack's far end; 0 where it can't be told. */
static size_t written(void *(*call)(void *))
{
    pthread_attr_t on_stack;
    pthread_t thread;
    size_t clean = 0;

    memset(stack, PAINT, STACK);
    if (pthread_attr_init(&on_stack) != 0 || pthread_attr_setstack(&on_stack, stack, STACK) != 0 ||
        pthread_create(&thread, &on_stack, call, NULL) != 0 || pthread_join(thread, NULL) != 0)
        return 0;
    while (clean < STACK && stack[clean] == PAINT)
        clean++;
    return STACK - clean;
}

/* The most that a call takes for any set, beside what a thread takes for itself. */
static int is_at_most(const char *name, void *(*call)(void *), size_t allowed, size_t least)
{
    size_t most = 0, own = written(nothing);

    for (set = 1; set <= SETS; set++) {
        size_t taken;

        n = slh_dsa_sha2_n(set);
        signature_bytes = slh_dsa_sha2_signature_bytes(set);
        keygen(NULL);
        sign(NULL);
        update.set = set;
        update.bytes = 0;
        make();
        taken = written(call) - own;
        most = taken > most ? taken : most;
    }
    printf("%s %zu of %zu\n", name, most, allowed);
    return own > 0 && most >= least && most <= allowed;
}

static int is_within(const char *name, void *(*call)(void *), size_t allowed)
{
    return is_at_most(name, call, allowed, 1);
}

int main(void)
{
    int good = is_within("keygen", keygen, SLH_DSA_KEYGEN_STACK_BYTES);

    /* it copies half of a key, and may take no more than a call of nothing */
    good &= is_at_most("public", tell_public, SLH_DSA_VERIFY_STACK_BYTES, 0);
    good &= is_within("sign", sign, SLH_DSA_SIGN_STACK_BYTES);
    good &= is_within("verify", verify, SLH_DSA_VERIFY_STACK_BYTES);
    good &= is_within("sign_digest", sign_digest, SLH_DSA_SIGN_STACK_BYTES);
    good &= is_within("verify_digest", verify_digest, SLH_DSA_VERIFY_STACK_BYTES);
    good &= is_within("verify in pieces", verify_pieces, SLH_DSA_VERIFY_STACK_BYTES);
    good &= is_within("sign in pieces", sign_pieces, SLH_DSA_SIGN_STACK_BYTES);
    good &= is_within("verify_small", verify_small, SLH_DSA_VERIFY_STACK_BYTES);
    good &= is_within("verify_pure_small", verify_pure_small, SLH_DSA_VERIFY_STACK_BYTES);
    good &= is_within("check_key", check_key, SLH_DSA_KEYGEN_STACK_BYTES);
    good &= is_within("audit", audit, SLH_DSA_AUDIT_STACK_BYTES);
    good &= is_within("check_evidence", check_evidence, SLH_DSA_CHECK_EVIDENCE_STACK_BYTES);
    make = make_link;
    good &= is_within("chain_walk", walk, SLH_DSA_VERIFY_STACK_BYTES);
    make = make_manifest;
    good &= is_within("manifest_open", open_manifest, SLH_DSA_VERIFY_STACK_BYTES);
    make = make_receipt;
    good &= is_within("batch_accept", accept_receipt, SLH_DSA_VERIFY_STACK_BYTES);
    make = make_batch;
    good &= is_within("batch_open", open_batch, SLH_DSA_VERIFY_STACK_BYTES);
    make = make_checkpoint;
    good &= is_within("log_open", open_log, SLH_DSA_VERIFY_STACK_BYTES);
    return !good || surprises > 0;
}
