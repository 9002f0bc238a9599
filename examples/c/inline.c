/*
 * Holds slh_dsa_inline.h to what it says: `inline KEY SIGNATURE PEM DER`, the foreign signature of
 * `Hello` and its key, and keys of OpenSSL's in PEM and as DER, in files. Each form that takes NULL
 * answers and writes what the plain call does: of good arguments, of each one changed, of each one
 * NULL without bytes; NULL with some is refused. Then sizes, keys in PEM, the verdict, texts and
 * names. It writes "as the header says", and answers 0; with `names` it writes the numbers and
 * names of all sets.
 */
#include <stdio.h>
#include <stdlib.h>
#include <string.h>

#include "sealed.h"
#include "slh_dsa.h"

/* The verdict's own calls are looked at: how many there were, of which set and mode. One of them is
 * told to fail by its number, or all to be good by -1. */
static int verified, failing;
static slh_dsa_set asked_set[2];
static slh_dsa_mode asked_mode[2];

static slh_dsa_status watched_verify(slh_dsa_set set, slh_dsa_mode mode, const uint8_t *key,
                                     size_t key_bytes, const uint8_t *message, size_t message_bytes,
                                     const uint8_t *context, size_t context_bytes,
                                     const uint8_t *signature, size_t signature_bytes)
{
    const slh_dsa_status status =
        slh_dsa_sha2_verify(set, mode, key, key_bytes, message, message_bytes, context,
                            context_bytes, signature, signature_bytes);

    asked_set[verified % 2] = set;
    asked_mode[verified % 2] = mode;
    verified++;
    if (failing < 0)
        return SLH_DSA_OK;
    return verified == failing ? SLH_DSA_INVALID : status;
}

#define slh_dsa_sha2_verify watched_verify
#include "slh_dsa_inline.h"
#undef slh_dsa_sha2_verify

enum { SET = SLH_DSA_SHA2_128F, PURE = SLH_DSA_PURE, INS = 4, OUTS = 2 };

static int failures;

static void want(int line, const char *what, int holds)
{
    if (!holds) {
        printf("line %d: not so: %s\n", line, what);
        failures++;
    }
}

#define WANT(condition) want(__LINE__, #condition, (condition))

#include "pem_keys.h"

/* The good arguments. */
enum part {
    NONE,
    SEEDS,
    KEY,
    PUBLIC,
    MESSAGE,
    CONTEXT,
    RANDOMIZER,
    SIGNATURE,
    DIGEST,
    DIGEST_SIGNATURE,
    CHAIN,
    MANIFEST,
    NAME,
    RECEIPT,
    HEAD,
    PATH,
    ORIGIN,
    CHECKPOINT,
    SCRATCH,
    FOREIGN_KEY,
    FOREIGN_MESSAGE,
    NO_CONTEXT,
    FOREIGN_SIGNATURE,
    PEM,
    DER,
    PARTS
};

static struct {
    uint8_t *at;
    size_t bytes;
} parts[PARTS];

/* Memory of exactly its size, so that a sanitizer sees what is read behind it. */
static uint8_t *add(enum part part, const void *from, size_t bytes)
{
    parts[part].at = malloc(bytes == 0 ? 1 : bytes);
    if (parts[part].at == NULL)
        abort();
    if (from != NULL)
        memcpy(parts[part].at, from, bytes);
    parts[part].bytes = bytes;
    return parts[part].at;
}

static void add_text(enum part part, const char *text)
{
    add(part, text, strlen(text));
}

static void add_file(enum part part, const char *path, size_t bytes)
{
    FILE *file = fopen(path, "rb");

    WANT(file != NULL && fread(add(part, NULL, bytes), 1, bytes, file) == bytes);
    if (file != NULL)
        fclose(file);
}

/* A part as a pair of arguments. */
#define P(part) parts[part].at, parts[part].bytes

static void make_keys(void)
{
    uint8_t bytes[SLH_DSA_SHA2_128F_SEEDS_BYTES];

    for (size_t at = 0; at < sizeof bytes; at++)
        bytes[at] = (uint8_t)(at + 1);
    add(SEEDS, bytes, sizeof bytes);
    add(RANDOMIZER, bytes + 7, SLH_DSA_SHA2_128F_RANDOMIZER_BYTES);
    add(DIGEST, bytes + 9, 32);
    add(KEY, NULL, SLH_DSA_SHA2_128F_SIGNING_KEY_BYTES);
    add(PUBLIC, NULL, SLH_DSA_SHA2_128F_VERIFYING_KEY_BYTES);
    WANT(slh_dsa_sha2_keygen(SET, P(SEEDS), P(KEY), P(PUBLIC)) == SLH_DSA_OK);
}

static void make_signatures(void)
{
    add_text(MESSAGE, "a message of some bytes");
    add_text(CONTEXT, "a context");
    add(SIGNATURE, NULL, SLH_DSA_SHA2_128F_SIGNATURE_BYTES);
    add(DIGEST_SIGNATURE, NULL, SLH_DSA_SHA2_128F_SIGNATURE_BYTES);
    WANT(slh_dsa_sha2_sign(SET, PURE, P(KEY), P(MESSAGE), P(CONTEXT), P(RANDOMIZER),
                           P(SIGNATURE)) == SLH_DSA_OK);
    WANT(slh_dsa_sha2_sign_digest(SET, SLH_DSA_PREHASH_SHA256, P(KEY), P(DIGEST), P(CONTEXT),
                                  P(RANDOMIZER), P(DIGEST_SIGNATURE)) == SLH_DSA_OK);
}

/* By another program: the digest of 00 and the message, the bytes from 51 on beside it, the digest
 * of 01 and these two, and the id of the verifying key in a log of the origin (sealed.h). */
static const uint8_t leaf[32] = {
    0x16, 0x9c, 0x12, 0xed, 0x1d, 0x81, 0x82, 0x3b, 0x6a, 0x8b, 0x70, 0x3d, 0x67, 0xba, 0x22, 0xef,
    0xc0, 0x37, 0x0a, 0xb6, 0x3a, 0xdb, 0xab, 0xe6, 0x02, 0xa7, 0xa6, 0xf9, 0x12, 0x55, 0x7c, 0x94};
static const uint8_t root[32] = {
    0x4e, 0x2d, 0x4c, 0xf0, 0x61, 0x56, 0xfc, 0xb2, 0x92, 0x6e, 0xa2, 0xb7, 0x4e, 0x42, 0x69, 0xdb,
    0x24, 0xfd, 0xfc, 0xaf, 0xe7, 0xc2, 0x3a, 0xce, 0x6c, 0x78, 0xa4, 0x4c, 0xe5, 0xc3, 0x50, 0x36};
static const uint8_t key_id[4] = {0xf2, 0xc3, 0xe6, 0xf4};

static void make_updates(void)
{
    static uint8_t space[3 * SLH_DSA_MAX_SIGNATURE_BYTES];
    struct sealed all = {SET, parts[KEY].at, space, 0};
    uint8_t *receipt;

    put(&all, "\3\4link", 6);
    put(&all, P(PUBLIC));
    WANT(seal(&all, "slh-chain") == SLH_DSA_OK);
    add(CHAIN, all.at, all.bytes);
    all.bytes = 0;
    put(&all, "\0\0\0\1\5image", 10);
    put(&all, "\0\0\0\0\0\0\0\7", 8);
    put(&all, leaf, sizeof leaf);
    WANT(seal(&all, "slh-manifest") == SLH_DSA_OK);
    add(MANIFEST, all.at, all.bytes);
    add_text(NAME, "image");
    all.bytes = 0;
    put(&all, "\0\0\0\2", 4);
    put(&all, root, sizeof root);
    WANT(seal(&all, "slh-batch") == SLH_DSA_OK);
    add(HEAD, all.at, all.bytes);
    add(PATH, NULL, 32);
    for (size_t at = 0; at < 32; at++)
        parts[PATH].at[at] = (uint8_t)(at + 51);
    receipt = add(RECEIPT, NULL, all.bytes + 4);
    memcpy(receipt, "\0\0\0\0\0\0\0\2", 8);
    memcpy(receipt + 8, parts[PATH].at, 32);
    memcpy(receipt + 40, all.at + 36, all.bytes - 36);
    all.bytes = 0;
    add_text(ORIGIN, "example.org/log");
    WANT(seal_checkpoint(&all, "example.org/log", "2", root, key_id) == SLH_DSA_OK);
    add(CHECKPOINT, all.at, all.bytes);
    add(SCRATCH, NULL, SLH_LOG_SCRATCH_BYTES(SLH_DSA_SHA2_128F_SIGNATURE_BYTES));
}

/* One call: what it is given, and what it writes. */
struct trial {
    slh_dsa_set set;
    slh_dsa_mode mode;
    uint32_t number;
    const uint8_t *in[INS];
    size_t in_bytes[INS], out_bytes[OUTS];
    int out_is_null[OUTS];
    struct records {
        slh_dsa_verifier verifier;
        slh_dsa_signer signer;
        slh_dsa_evidence evidence;
        slh_chain_end end;
        slh_manifest_file file;
        slh_batch_head batch;
        slh_log_head old_log, log;
        uint32_t entries;
    } records;
    uint8_t written[OUTS][SLH_LOG_SCRATCH_BYTES(SLH_DSA_SHA2_128F_SIGNATURE_BYTES)];
};

static uint8_t *out_at(struct trial *t, int i)
{
    return t->out_is_null[i] ? NULL : t->written[i];
}

#define I(i) t->in[i], t->in_bytes[i]
#define O(i) out_at(t, i), t->out_bytes[i]
#define R(field) &t->records.field

/* Both forms of a call, of the same arguments. */
#define FORMS(call, ...) \
    static slh_dsa_status plain_##call(struct trial *t) { return slh_##call(__VA_ARGS__); } \
    static slh_dsa_status nullable_##call(struct trial *t) \
    { \
        return slh_##call##_nullable(__VA_ARGS__); \
    }

FORMS(dsa_sha2_keygen, t->set, I(0), O(0), O(1))
FORMS(dsa_sha2_public, t->set, I(0), O(0))
FORMS(dsa_sha2_check_key, t->set, I(0))
FORMS(dsa_sha2_sign, t->set, t->mode, I(0), I(1), I(2), I(3), O(0))
FORMS(dsa_sha2_sign_deterministic, t->set, t->mode, I(0), I(1), I(2), O(0))
FORMS(dsa_sha2_verify, t->set, t->mode, I(0), I(1), I(2), I(3))
FORMS(dsa_sha2_verify_begin, R(verifier), t->set, t->mode, I(0), I(1), I(2))
FORMS(dsa_sha2_verify_update, R(verifier), I(0))
FORMS(dsa_sha2_verify_finish, R(verifier), I(0))
FORMS(dsa_sha2_sign_begin, R(signer), t->set, I(0), I(1), I(2))
FORMS(dsa_sha2_sign_begin_deterministic, R(signer), t->set, I(0), I(1))
FORMS(dsa_sha2_sign_update, R(signer), I(0))
FORMS(dsa_sha2_sign_again, R(signer), I(0))
FORMS(dsa_sha2_sign_finish, R(signer), I(0), O(0))
FORMS(dsa_sha2_sign_digest, t->set, t->mode, I(0), I(1), I(2), I(3), O(0))
FORMS(dsa_sha2_sign_digest_deterministic, t->set, t->mode, I(0), I(1), I(2), O(0))
FORMS(dsa_sha2_verify_digest, t->set, t->mode, I(0), I(1), I(2), I(3))
FORMS(dsa_sha2_audit, t->set, t->mode, I(0), I(1), I(2), I(3), R(evidence))
FORMS(dsa_sha2_check_evidence, t->set, t->mode, I(0), I(1), I(2), I(3), R(evidence))
FORMS(chain_walk, t->set, I(0), I(1), O(0), R(end))
FORMS(manifest_open, t->set, I(0), I(1), R(entries))
FORMS(manifest_entry, I(0), t->number, R(file))
FORMS(manifest_find, I(0), I(1), R(file))
FORMS(batch_accept, t->set, I(0), I(1), I(2))
FORMS(batch_open, t->set, I(0), I(1), R(batch))
FORMS(batch_accept_under, R(batch), I(0), t->number, I(1))
FORMS(log_open, t->set, I(0), I(1), I(2), O(0), R(log))
FORMS(log_check_presence, R(log), t->number, I(0), I(1))
FORMS(log_check_growth, R(old_log), R(log), I(0))

/* The verdict as a status, of what takes no NULL. */
static slh_dsa_status whether_verified(struct trial *t)
{
    return plain_dsa_sha2_verify(t) == SLH_DSA_OK ? SLH_DSA_OK : SLH_DSA_INVALID;
}

static slh_dsa_status verdict_of(struct trial *t)
{
    slh_dsa_verdict verdict;

    verified = 0;
    verdict = slh_dsa_sha2_verdict(t->set, t->mode, I(0), I(1), I(2), I(3));
    WANT(verified == (verdict == SLH_DSA_VERDICT_ACCEPTED ? 2 : 1));
    WANT(verdict == SLH_DSA_VERDICT_ACCEPTED || verdict == SLH_DSA_VERDICT_REFUSED);
    WANT(slh_dsa_is_accepted(verdict) == (verdict == SLH_DSA_VERDICT_ACCEPTED));
    return verdict == SLH_DSA_VERDICT_ACCEPTED ? SLH_DSA_OK : SLH_DSA_INVALID;
}

/* What goes before a call: states are begun, and signatures of digests have their mode. */
static void verify_begun(struct trial *t)
{
    WANT(slh_dsa_sha2_verify_begin(R(verifier), SET, PURE, P(PUBLIC), P(CONTEXT), P(SIGNATURE)) ==
         SLH_DSA_OK);
}

static void verify_absorbed(struct trial *t)
{
    verify_begun(t);
    WANT(slh_dsa_sha2_verify_update(R(verifier), P(MESSAGE)) == SLH_DSA_OK);
}

static void sign_begun(struct trial *t)
{
    WANT(slh_dsa_sha2_sign_begin(R(signer), SET, P(KEY), P(CONTEXT), P(RANDOMIZER)) == SLH_DSA_OK);
}

static void sign_absorbed(struct trial *t)
{
    sign_begun(t);
    WANT(slh_dsa_sha2_sign_update(R(signer), P(MESSAGE)) == SLH_DSA_OK);
    WANT(slh_dsa_sha2_sign_again(R(signer), P(CONTEXT)) == SLH_DSA_OK);
    WANT(slh_dsa_sha2_sign_update(R(signer), P(MESSAGE)) == SLH_DSA_OK);
}

static void by_sha256(struct trial *t)
{
    t->mode = SLH_DSA_PREHASH_SHA256;
}

/* Where the foreign signature isn't what its key makes (data/README.md). */
static void with_evidence(struct trial *t)
{
    t->records.evidence.kind = SLH_DSA_EVIDENCE_EARLY;
    t->records.evidence.index = 1;
}

static void with_heads(struct trial *t)
{
    t->records.batch.count = 2;
    memcpy(t->records.batch.root, root, sizeof root);
    t->records.log.size = 2;
    memcpy(t->records.log.root, root, sizeof root);
    t->records.old_log.size = 1;
    memcpy(t->records.old_log.root, leaf, sizeof leaf);
}

static void nothing_before(struct trial *t)
{
    (void)t;
}

/* Whether a form takes no NULL, or its state is used up whatever it answers. */
enum kind { TAKES_NULL, NO_NULL, USES_UP };

struct row {
    const char *name;
    slh_dsa_status (*plain)(struct trial *), (*nullable)(struct trial *);
    enum kind kind;
    void (*before)(struct trial *);
    slh_dsa_status wanted;
    enum part in[INS], out[OUTS];
};

#define ROW(call, kind, before, wanted, ...) \
    {#call, plain_##call, nullable_##call, kind, before, wanted, __VA_ARGS__}
#define GOOD(call, before, ...) ROW(call, TAKES_NULL, before, SLH_DSA_OK, __VA_ARGS__)

static const struct row rows[] = {
    GOOD(dsa_sha2_keygen, nothing_before, {SEEDS}, {KEY, PUBLIC}),
    GOOD(dsa_sha2_public, nothing_before, {KEY}, {PUBLIC}),
    GOOD(dsa_sha2_check_key, nothing_before, {KEY}, {NONE}),
    GOOD(dsa_sha2_sign, nothing_before, {KEY, MESSAGE, CONTEXT, RANDOMIZER}, {SIGNATURE}),
    GOOD(dsa_sha2_sign_deterministic, nothing_before, {KEY, MESSAGE, CONTEXT}, {SIGNATURE}),
    GOOD(dsa_sha2_verify, nothing_before, {PUBLIC, MESSAGE, CONTEXT, SIGNATURE}, {NONE}),
    {"dsa_sha2_verdict", whether_verified, verdict_of, NO_NULL, nothing_before, SLH_DSA_OK,
     {PUBLIC, MESSAGE, CONTEXT, SIGNATURE}, {NONE}},
    GOOD(dsa_sha2_verify_begin, nothing_before, {PUBLIC, CONTEXT, SIGNATURE}, {NONE}),
    GOOD(dsa_sha2_verify_update, verify_begun, {MESSAGE}, {NONE}),
    ROW(dsa_sha2_verify_finish, USES_UP, verify_absorbed, SLH_DSA_OK, {SIGNATURE}, {NONE}),
    GOOD(dsa_sha2_sign_begin, nothing_before, {KEY, CONTEXT, RANDOMIZER}, {NONE}),
    GOOD(dsa_sha2_sign_begin_deterministic, nothing_before, {KEY, CONTEXT}, {NONE}),
    GOOD(dsa_sha2_sign_update, sign_begun, {MESSAGE}, {NONE}),
    GOOD(dsa_sha2_sign_again, sign_begun, {CONTEXT}, {NONE}),
    ROW(dsa_sha2_sign_finish, USES_UP, sign_absorbed, SLH_DSA_OK, {KEY}, {SIGNATURE}),
    GOOD(dsa_sha2_sign_digest, by_sha256, {KEY, DIGEST, CONTEXT, RANDOMIZER}, {SIGNATURE}),
    GOOD(dsa_sha2_sign_digest_deterministic, by_sha256, {KEY, DIGEST, CONTEXT}, {SIGNATURE}),
    GOOD(dsa_sha2_verify_digest, by_sha256, {PUBLIC, DIGEST, CONTEXT, DIGEST_SIGNATURE}, {NONE}),
    GOOD(dsa_sha2_audit, nothing_before, {KEY, MESSAGE, CONTEXT, SIGNATURE}, {NONE}),
    ROW(dsa_sha2_audit, TAKES_NULL, nothing_before, SLH_DSA_FOREIGN,
        {FOREIGN_KEY, FOREIGN_MESSAGE, NO_CONTEXT, FOREIGN_SIGNATURE}, {NONE}),
    GOOD(dsa_sha2_check_evidence, with_evidence,
         {FOREIGN_KEY, FOREIGN_MESSAGE, NO_CONTEXT, FOREIGN_SIGNATURE}, {NONE}),
    ROW(dsa_sha2_check_evidence, TAKES_NULL, with_evidence, SLH_DSA_NOT_SHOWN,
        {KEY, MESSAGE, CONTEXT, SIGNATURE}, {NONE}),
    GOOD(chain_walk, nothing_before, {PUBLIC, CHAIN}, {PUBLIC}),
    GOOD(manifest_open, nothing_before, {PUBLIC, MANIFEST}, {NONE}),
    GOOD(manifest_entry, nothing_before, {MANIFEST}, {NONE}),
    GOOD(manifest_find, nothing_before, {MANIFEST, NAME}, {NONE}),
    GOOD(batch_accept, nothing_before, {PUBLIC, MESSAGE, RECEIPT}, {NONE}),
    GOOD(batch_open, nothing_before, {PUBLIC, HEAD}, {NONE}),
    GOOD(batch_accept_under, with_heads, {MESSAGE, PATH}, {NONE}),
    GOOD(log_open, nothing_before, {PUBLIC, ORIGIN, CHECKPOINT}, {SCRATCH}),
    GOOD(log_check_presence, with_heads, {MESSAGE, PATH}, {NONE}),
    GOOD(log_check_growth, with_heads, {PATH}, {NONE}),
};

/* The good arguments of a row. */
static void set_up(const struct row *row, struct trial *t)
{
    memset(t, 0, sizeof *t);
    memset(t->written, 0x5a, sizeof t->written);
    t->set = SET;
    t->mode = PURE;
    for (int i = 0; i < INS; i++) {
        t->in[i] = parts[row->in[i]].at;
        t->in_bytes[i] = parts[row->in[i]].bytes;
    }
    for (int i = 0; i < OUTS; i++)
        t->out_bytes[i] = parts[row->out[i]].bytes;
    row->before(t);
}

static int is_same(const struct trial *one, const struct trial *other)
{
    return memcmp(&one->records, &other->records, sizeof one->records) == 0 &&
           memcmp(one->written, other->written, sizeof one->written) == 0;
}

static void want_of(const struct row *row, const char *what, int number, int holds)
{
    if (!holds) {
        printf("%s: not so: %s %d\n", row->name, what, number);
        failures++;
    }
}

/* Both forms answer and write the same. The plain one gets an address in place of each NULL. What
 * it wrote stays in `t`. */
static slh_dsa_status both(const struct row *row, struct trial *t, const char *what, int number)
{
    static const uint8_t empty[1];
    static struct trial nullable;
    slh_dsa_status status;

    nullable = *t;
    for (int i = 0; i < INS; i++)
        t->in[i] = t->in[i] == NULL ? empty : t->in[i];
    memset(t->out_is_null, 0, sizeof t->out_is_null);
    status = row->plain(t);
    want_of(row, what, number, row->nullable(&nullable) == status && is_same(t, &nullable));
    return status;
}

/* Whether an argument that has a byte more, or another byte at a place, has another answer; that of
 * the good ones is in `good`. */
static int is_seen(const struct row *row, const struct trial *good, int i, size_t at)
{
    static struct trial t;
    const size_t bytes = parts[row->in[i]].bytes;
    uint8_t *changed = malloc(bytes + 1);
    slh_dsa_status status;

    if (changed == NULL)
        abort();
    set_up(row, &t);
    memcpy(changed, t.in[i], bytes);
    changed[bytes] = 2;
    changed[at] ^= 1;
    t.in[i] = changed;
    t.in_bytes[i] += at == bytes;
    status = both(row, &t, "with another byte in argument", i);
    free(changed);
    return status != row->wanted || !is_same(&t, good);
}

/* Each argument in bytes, changed at its beginning, at its end or behind it, has a say; but nothing
 * shows against what a key made. */
static void other_bytes(const struct row *row, const struct trial *good)
{
    for (int i = 0; i < INS && row->in[i] != NONE; i++) {
        const size_t bytes = parts[row->in[i]].bytes;
        int seen = is_seen(row, good, i, bytes);

        if (bytes > 0) {
            seen = is_seen(row, good, i, 0);
            seen |= is_seen(row, good, i, bytes - 1);
        }
        want_of(row, "another answer to another argument", i,
                seen || row->wanted == SLH_DSA_NOT_SHOWN);
    }
}

/* Another set, mode, number, evidence, state, head: one is changed, the others stay. */
enum change {
    ANY_SET,
    ANY_MODE,
    ANY_NUMBER,
    ANY_EVIDENCE,
    NO_STATE,
    ANY_OLD_HEAD,
    ANY_HEAD,
    CHANGES
};

static void change(struct trial *t, enum change which)
{
    switch (which) {
    case ANY_SET: t->set = 7; break;
    case ANY_MODE: t->mode ^= 1; break;
    case ANY_NUMBER: t->number ^= 1; break;
    case ANY_EVIDENCE: t->records.evidence.index ^= 1; break;
    case NO_STATE:
        memset(R(verifier), 0, sizeof t->records.verifier);
        memset(R(signer), 0, sizeof t->records.signer);
        break;
    case ANY_OLD_HEAD: t->records.old_log.root[0] ^= 1; break;
    default:
        t->records.log.root[0] ^= 1;
        t->records.batch.root[0] ^= 1;
    }
}

static void other_values(const struct row *row)
{
    static struct trial t;

    for (enum change which = ANY_SET; which < CHANGES; which++) {
        set_up(row, &t);
        change(&t, which);
        (void)both(row, &t, "with another value", (int)which);
    }
}

/* NULL with bytes is a LENGTH, before an unknown set or state, and nothing is written; but a state
 * is used up, as by the plain call of an empty buffer. `as_empty` has that in place of NULL. */
static void want_missing(const struct row *row, const struct trial *given,
                         const struct trial *as_empty, int number)
{
    static struct trial t, after;

    for (int unknown = 0; unknown < 2; unknown++) {
        t = *given;
        after = *as_empty;
        if (unknown) {
            change(&t, ANY_SET), change(&t, NO_STATE);
            change(&after, ANY_SET), change(&after, NO_STATE);
        }
        if (row->kind == USES_UP)
            (void)row->plain(&after);
        want_of(row, "NULL with bytes", number,
                row->nullable(&t) == SLH_DSA_LENGTH && is_same(&t, &after));
    }
}

static void nulls(const struct row *row)
{
    static const uint8_t empty[1];
    static struct trial missing, none, as_empty;

    for (int i = 0; i < INS + OUTS; i++) {
        const int out = i - INS;

        if ((out < 0 ? row->in[i] : row->out[out]) == NONE)
            continue;
        set_up(row, &missing);
        none = missing;
        if (out < 0) {
            missing.in[i] = none.in[i] = NULL;
            missing.in_bytes[i] += missing.in_bytes[i] == 0;
            none.in_bytes[i] = 0;
        } else {
            missing.out_is_null[out] = none.out_is_null[out] = 1;
            none.out_bytes[out] = 0;
        }
        as_empty = none;
        if (out < 0)
            as_empty.in[i] = empty;
        memset(as_empty.out_is_null, 0, sizeof as_empty.out_is_null);
        want_missing(row, &missing, &as_empty, i);
        as_empty = none;
        (void)both(row, &none, "NULL without bytes", i);
        /* What comes before a length still does. */
        change(&as_empty, ANY_SET);
        change(&as_empty, NO_STATE);
        (void)both(row, &as_empty, "NULL without bytes in an unknown set or state", i);
    }
}

static void forms(void)
{
    static struct trial good;

    for (size_t i = 0; i < sizeof rows / sizeof rows[0]; i++) {
        const struct row *row = &rows[i];

        set_up(row, &good);
        want_of(row, "the answer, row", (int)i,
                both(row, &good, "the good arguments, row", (int)i) == row->wanted);
        other_bytes(row, &good);
        other_values(row);
        if (row->kind != NO_NULL)
            nulls(row);
    }
}

/* Sizes, by the plain numbers of each set, and by docs/FORMATS.md. */
static void sizes(void)
{
#define SIZES(set) \
    {set##_N, set##_SEEDS_BYTES, set##_SIGNING_KEY_BYTES, set##_VERIFYING_KEY_BYTES, \
     set##_RANDOMIZER_BYTES, set##_SIGNATURE_BYTES}
    static const size_t wanted[8][6] = {
        {0}, SIZES(SLH_DSA_SHA2_128S), SIZES(SLH_DSA_SHA2_128F), SIZES(SLH_DSA_SHA2_192S),
        SIZES(SLH_DSA_SHA2_192F), SIZES(SLH_DSA_SHA2_256S), SIZES(SLH_DSA_SHA2_256F), {0}};

    for (slh_dsa_set set = 0; set < 8; set++) {
        const size_t *own = wanted[set], signature = own[5], known = signature != 0;

        WANT(slh_dsa_sha2_n(set) == own[0] && slh_dsa_sha2_signature_bytes(set) == signature);
        WANT(slh_dsa_seeds_bytes(set) == own[1] && slh_dsa_signing_key_bytes(set) == own[2]);
        WANT(slh_dsa_verifying_key_bytes(set) == own[3] && slh_dsa_randomizer_bytes(set) == own[4]);
        WANT(slh_chain_max_bytes(set) == known * 16 * (1 + 1 + 64 + own[3] + signature));
        WANT(slh_manifest_max_bytes(set) == known * (4 + 4096 * (1 + 255 + 8 + 32) + signature));
        WANT(slh_batch_max_receipt_bytes(set) == known * (4 + 4 + 20 * 32 + signature));
        WANT(slh_batch_head_bytes(set) == known * (4 + 32 + signature));
        WANT(slh_log_scratch_bytes(set) == known * (4 + signature));
    }
}

static void keys(void)
{
    static char text[PEM_ROOM]; /* with a NUL in the end */

    memcpy(text, parts[PEM].at, parts[PEM].bytes);
    keys_in_pem(text, parts[DER].at);
}

/* A verdict is good where both verifications are. The second isn't made where the first fails. */
static void verdicts(void)
{
    for (failing = 0; failing < 4; failing++) {
        verified = 0;
        WANT(slh_dsa_sha2_verdict(SET, PURE, P(PUBLIC), P(MESSAGE), P(CONTEXT), P(SIGNATURE)) ==
             (failing == 1 || failing == 2 ? SLH_DSA_VERDICT_REFUSED : SLH_DSA_VERDICT_ACCEPTED));
        WANT(verified == (failing == 1 ? 1 : 2));
    }
    verified = 0;
    failing = -1;
    WANT(slh_dsa_sha2_verdict(5, 2, P(PUBLIC), P(MESSAGE), P(CONTEXT), P(SIGNATURE)) ==
         SLH_DSA_VERDICT_ACCEPTED);
    WANT(asked_set[0] == 5 && asked_set[1] == 5 && asked_mode[0] == 2 && asked_mode[1] == 2);
    failing = 0;
}

static void accepted_verdicts(void)
{
    WANT((slh_dsa_verdict)(SLH_DSA_VERDICT_ACCEPTED ^ SLH_DSA_VERDICT_REFUSED) == UINT32_MAX);
    WANT(slh_dsa_is_accepted(SLH_DSA_VERDICT_ACCEPTED) == 1);
    WANT(!slh_dsa_is_accepted(SLH_DSA_VERDICT_REFUSED));
    WANT(!slh_dsa_is_accepted(0) && !slh_dsa_is_accepted(1) && !slh_dsa_is_accepted(UINT32_MAX));
    for (int bit = 0; bit < 32; bit++) {
        WANT(!slh_dsa_is_accepted((slh_dsa_verdict)(SLH_DSA_VERDICT_ACCEPTED ^ (1UL << bit))));
        WANT(!slh_dsa_is_accepted((slh_dsa_verdict)(SLH_DSA_VERDICT_REFUSED ^ (1UL << bit))));
    }
}

/* A word that stands in the text of one status alone. */
static const char *const words[SLH_DSA_CHANGED + 1] = {
    "done", "not one of this message", "does not make it", "not show", "of its seeds", "digest or",
    "255 bytes", "the randomizer", "2^60", "parameter set", "mode", "such evidence", NULL,
    "the state", "the form", "deeper", "such entry", "another log", "no signature", "no entries",
    "fewer", "second pass",
};

static void texts(void)
{
    const char *none = slh_dsa_status_text(SLH_DSA_CHANGED + 1);

    WANT(strcmp(none, "no such status") == 0);
    for (slh_dsa_status one = 0; one <= SLH_DSA_CHANGED; one++) {
        const char *text = slh_dsa_status_text(one);

        /* No status has the number 12. */
        WANT(one == 12 ? strcmp(text, none) == 0 : strstr(text, words[one]) != NULL);
        for (slh_dsa_status other = 0; other <= SLH_DSA_CHANGED; other++)
            WANT(other == one || words[other] == NULL || strstr(text, words[other]) == NULL);
    }
    WANT(strcmp(slh_dsa_set_name(0), "") == 0 && strcmp(slh_dsa_set_name(7), "") == 0);
    WANT(slh_dsa_set_named("") == 0 && slh_dsa_set_named("SLH-DSA-SHA2-128") == 0);
    WANT(slh_dsa_set_named("SLH-DSA-SHA2-128ff") == 0);
    WANT(slh_dsa_set_named("slh-dsa-sha2-128f") == 0);
}

/* The names, as lines: number, name. */
static void print_names(void)
{
    for (slh_dsa_set set = 1; slh_dsa_set_name(set)[0] != '\0'; set++) {
        WANT(slh_dsa_set_named(slh_dsa_set_name(set)) == set);
        printf("%u %s\n", (unsigned)set, slh_dsa_set_name(set));
    }
}

int main(int argc, char **argv)
{
    if (argc == 2 && strcmp(argv[1], "names") == 0) {
        print_names();
        return failures != 0;
    }
    if (argc != 5) {
        fputs("usage: inline KEY SIGNATURE PEM DER, or inline names\n", stderr);
        return 2;
    }
    add(NO_CONTEXT, NULL, 0);
    add_text(FOREIGN_MESSAGE, "Hello");
    add_file(FOREIGN_KEY, argv[1], SLH_DSA_SHA2_128F_SIGNING_KEY_BYTES);
    add_file(FOREIGN_SIGNATURE, argv[2], SLH_DSA_SHA2_128F_SIGNATURE_BYTES);
    make_keys();
    make_signatures();
    make_updates();
    add_file(PEM, argv[3], 2138);
    add_file(DER, argv[4], 1096);
    forms();
    sizes();
    keys();
    verdicts();
    accepted_verdicts();
    texts();
    puts(failures == 0 ? "as the header says" : "not as the header says");
    return failures != 0;
}
