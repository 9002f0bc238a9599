/*
 * A stand-in for the library, of no use but to try inline.c on hundreds of headers within minutes.
 * It has the calls that slh_dsa_inline.h makes. Each looks at all that it is given: what it writes
 * is a hash of that, and where it writes nothing, the first arguments that it gets are the good
 * ones. It ends the program where a pointer is NULL.
 */
#include <stdlib.h>

#include "slh_dsa.h"

enum call {
    KEYGEN,
    PUBLIC,
    CHECK_KEY,
    SIGN,
    SIGN_DETERMINISTIC,
    VERIFY,
    VERIFY_BEGIN,
    VERIFY_UPDATE,
    VERIFY_FINISH,
    SIGN_BEGIN,
    SIGN_BEGIN_DETERMINISTIC,
    SIGN_UPDATE,
    SIGN_AGAIN,
    SIGN_FINISH,
    SIGN_DIGEST,
    SIGN_DIGEST_DETERMINISTIC,
    VERIFY_DIGEST,
    AUDIT,
    CHECK_EVIDENCE,
    CHAIN_WALK,
    MANIFEST_OPEN,
    MANIFEST_ENTRY,
    MANIFEST_FIND,
    BATCH_ACCEPT,
    BATCH_OPEN,
    BATCH_ACCEPT_UNDER,
    LOG_OPEN,
    LOG_CHECK_PRESENCE,
    LOG_CHECK_GROWTH,
    CALLS
};

/* What the caller owes. The compiler believes it of the calls themselves, so it is asked here. */
static void owed(const volatile void *at)
{
    const volatile void *volatile given = at;

    if (given == NULL)
        abort();
}

/* FNV-1a, of the length and of the bytes. */
static uint64_t with(uint64_t hash, const void *from, size_t bytes)
{
    const uint8_t *at = from;

    owed(from);
    for (int i = 0; i < 8; i++)
        hash = (hash ^ (uint8_t)((uint64_t)bytes >> 8 * i)) * UINT64_C(0x100000001b3);
    for (size_t i = 0; i < bytes; i++)
        hash = (hash ^ at[i]) * UINT64_C(0x100000001b3);
    return hash;
}

static uint64_t of_numbers(enum call call, uint64_t first, uint64_t second)
{
    const uint64_t numbers[3] = {call, first, second};

    return with(UINT64_C(0xcbf29ce484222325), numbers, sizeof numbers);
}

static slh_dsa_status write(uint64_t hash, void *to, size_t bytes)
{
    uint8_t *at = to;

    owed(to);
    for (size_t i = 0; i < bytes; i++) {
        hash = hash * UINT64_C(6364136223846793005) + UINT64_C(1442695040888963407);
        at[i] = (uint8_t)(hash >> 56);
    }
    return bytes == 0 ? SLH_DSA_LENGTH : SLH_DSA_OK;
}

/* OK of the first arguments that a call gets, and something else of all others. */
static slh_dsa_status accept(enum call call, uint64_t hash, slh_dsa_status other)
{
    static uint64_t good[CALLS];

    if (good[call] == 0)
        good[call] = hash;
    return good[call] == hash ? SLH_DSA_OK : other;
}

/* A state is blank before it is begun, and after it was finished. */
static int is_blank(const uint64_t *words, size_t count)
{
    owed(words);
    for (size_t i = 0; i < count; i++)
        if (words[i] != 0)
            return 0;
    return 1;
}

static void blank(uint64_t *words, size_t count)
{
    for (size_t i = 0; i < count; i++)
        words[i] = 0;
}

#define WORDS(state) (state)->words, sizeof(state)->words / sizeof *(state)->words
#define IN(name) const uint8_t *name, size_t name##_bytes
#define OUT(name) uint8_t *name, size_t name##_bytes
#define KNOWN(set) \
    if (slh_dsa_sha2_n(set) == 0) \
        return SLH_DSA_UNKNOWN_SET
#define TAKE(name) hash = with(hash, name, name##_bytes)
#define TAKE_ALL(name) hash = with(hash, name, sizeof *(name))
#define WRITE(name) write(hash, name, name##_bytes)
#define WRITE_ALL(name) write(hash, name, sizeof *(name))

size_t slh_dsa_sha2_n(slh_dsa_set set)
{
    return set < 1 || set > 6 ? 0 : 16 + (set - 1) / 2 * 8;
}

size_t slh_dsa_sha2_signature_bytes(slh_dsa_set set)
{
    static const size_t bytes[] = {7856, 17088, 16224, 35664, 29792, 49856};

    return set < 1 || set > 6 ? 0 : bytes[set - 1];
}

slh_dsa_status slh_dsa_sha2_keygen(slh_dsa_set set, IN(seeds), OUT(signing_key), OUT(verifying_key))
{
    uint64_t hash = of_numbers(KEYGEN, set, 0);

    TAKE(seeds);
    KNOWN(set);
    WRITE(signing_key);
    hash++;
    return WRITE(verifying_key);
}

slh_dsa_status slh_dsa_sha2_public(slh_dsa_set set, IN(signing_key), OUT(verifying_key))
{
    uint64_t hash = of_numbers(PUBLIC, set, 0);

    TAKE(signing_key);
    KNOWN(set);
    return WRITE(verifying_key);
}

slh_dsa_status slh_dsa_sha2_check_key(slh_dsa_set set, IN(signing_key))
{
    uint64_t hash = of_numbers(CHECK_KEY, set, 0);

    TAKE(signing_key);
    KNOWN(set);
    return accept(CHECK_KEY, hash, SLH_DSA_KEY_MISMATCH);
}

slh_dsa_status slh_dsa_sha2_sign(slh_dsa_set set, slh_dsa_mode mode, IN(signing_key), IN(message),
                                 IN(context), IN(randomizer), OUT(signature))
{
    uint64_t hash = of_numbers(SIGN, set, mode);

    TAKE(signing_key), TAKE(message), TAKE(context), TAKE(randomizer);
    KNOWN(set);
    return WRITE(signature);
}

slh_dsa_status slh_dsa_sha2_sign_deterministic(slh_dsa_set set, slh_dsa_mode mode, IN(signing_key),
                                               IN(message), IN(context), OUT(signature))
{
    uint64_t hash = of_numbers(SIGN_DETERMINISTIC, set, mode);

    TAKE(signing_key), TAKE(message), TAKE(context);
    KNOWN(set);
    return WRITE(signature);
}

slh_dsa_status slh_dsa_sha2_verify(slh_dsa_set set, slh_dsa_mode mode, IN(verifying_key),
                                   IN(message), IN(context), IN(signature))
{
    uint64_t hash = of_numbers(VERIFY, set, mode);

    TAKE(verifying_key), TAKE(message), TAKE(context), TAKE(signature);
    KNOWN(set);
    return accept(VERIFY, hash, SLH_DSA_INVALID);
}

slh_dsa_status slh_dsa_sha2_verify_begin(slh_dsa_verifier *verifier, slh_dsa_set set,
                                         slh_dsa_mode mode, IN(verifying_key), IN(context),
                                         IN(signature))
{
    uint64_t hash = of_numbers(VERIFY_BEGIN, set, mode);

    TAKE(verifying_key), TAKE(context), TAKE(signature);
    KNOWN(set);
    return WRITE_ALL(verifier);
}

slh_dsa_status slh_dsa_sha2_verify_update(slh_dsa_verifier *verifier, IN(piece))
{
    uint64_t hash = of_numbers(VERIFY_UPDATE, 0, 0);

    TAKE_ALL(verifier), TAKE(piece);
    return is_blank(WORDS(verifier)) ? SLH_DSA_STATE : WRITE_ALL(verifier);
}

slh_dsa_status slh_dsa_sha2_verify_finish(slh_dsa_verifier *verifier, IN(signature))
{
    const int was_blank = is_blank(WORDS(verifier));
    uint64_t hash = of_numbers(VERIFY_FINISH, 0, 0);

    TAKE_ALL(verifier), TAKE(signature);
    blank(WORDS(verifier));
    return was_blank ? SLH_DSA_STATE : accept(VERIFY_FINISH, hash, SLH_DSA_INVALID);
}

slh_dsa_status slh_dsa_sha2_sign_begin(slh_dsa_signer *signer, slh_dsa_set set, IN(signing_key),
                                       IN(context), IN(randomizer))
{
    uint64_t hash = of_numbers(SIGN_BEGIN, set, 0);

    TAKE(signing_key), TAKE(context), TAKE(randomizer);
    KNOWN(set);
    return WRITE_ALL(signer);
}

slh_dsa_status slh_dsa_sha2_sign_begin_deterministic(slh_dsa_signer *signer, slh_dsa_set set,
                                                     IN(signing_key), IN(context))
{
    uint64_t hash = of_numbers(SIGN_BEGIN_DETERMINISTIC, set, 0);

    TAKE(signing_key), TAKE(context);
    KNOWN(set);
    return WRITE_ALL(signer);
}

slh_dsa_status slh_dsa_sha2_sign_update(slh_dsa_signer *signer, IN(piece))
{
    uint64_t hash = of_numbers(SIGN_UPDATE, 0, 0);

    TAKE_ALL(signer), TAKE(piece);
    return is_blank(WORDS(signer)) ? SLH_DSA_STATE : WRITE_ALL(signer);
}

slh_dsa_status slh_dsa_sha2_sign_again(slh_dsa_signer *signer, IN(context))
{
    uint64_t hash = of_numbers(SIGN_AGAIN, 0, 0);

    TAKE_ALL(signer), TAKE(context);
    return is_blank(WORDS(signer)) ? SLH_DSA_STATE : WRITE_ALL(signer);
}

slh_dsa_status slh_dsa_sha2_sign_finish(slh_dsa_signer *signer, IN(signing_key), OUT(signature))
{
    const int was_blank = is_blank(WORDS(signer));
    uint64_t hash = of_numbers(SIGN_FINISH, 0, 0);

    TAKE_ALL(signer), TAKE(signing_key);
    blank(WORDS(signer));
    owed(signature);
    if (!was_blank && signing_key_bytes == 0)
        return SLH_DSA_LENGTH;
    return was_blank ? SLH_DSA_STATE : WRITE(signature);
}

slh_dsa_status slh_dsa_sha2_sign_digest(slh_dsa_set set, slh_dsa_mode mode, IN(signing_key),
                                        IN(digest), IN(context), IN(randomizer), OUT(signature))
{
    uint64_t hash = of_numbers(SIGN_DIGEST, set, mode);

    TAKE(signing_key), TAKE(digest), TAKE(context), TAKE(randomizer);
    KNOWN(set);
    return WRITE(signature);
}

slh_dsa_status slh_dsa_sha2_sign_digest_deterministic(slh_dsa_set set, slh_dsa_mode mode,
                                                      IN(signing_key), IN(digest), IN(context),
                                                      OUT(signature))
{
    uint64_t hash = of_numbers(SIGN_DIGEST_DETERMINISTIC, set, mode);

    TAKE(signing_key), TAKE(digest), TAKE(context);
    KNOWN(set);
    return WRITE(signature);
}

slh_dsa_status slh_dsa_sha2_verify_digest(slh_dsa_set set, slh_dsa_mode mode, IN(verifying_key),
                                          IN(digest), IN(context), IN(signature))
{
    uint64_t hash = of_numbers(VERIFY_DIGEST, set, mode);

    TAKE(verifying_key), TAKE(digest), TAKE(context), TAKE(signature);
    KNOWN(set);
    return accept(VERIFY_DIGEST, hash, SLH_DSA_INVALID);
}

slh_dsa_status slh_dsa_sha2_audit(slh_dsa_set set, slh_dsa_mode mode, IN(signing_key), IN(message),
                                  IN(context), IN(signature), slh_dsa_evidence *evidence)
{
    uint64_t hash = of_numbers(AUDIT, set, mode);

    TAKE(signing_key), TAKE(message), TAKE(context), TAKE(signature);
    KNOWN(set);
    owed(evidence);
    if (accept(AUDIT, hash, SLH_DSA_FOREIGN) == SLH_DSA_OK)
        return SLH_DSA_OK;
    WRITE_ALL(evidence);
    return SLH_DSA_FOREIGN;
}

slh_dsa_status slh_dsa_sha2_check_evidence(slh_dsa_set set, slh_dsa_mode mode, IN(signing_key),
                                           IN(message), IN(context), IN(signature),
                                           const slh_dsa_evidence *evidence)
{
    uint64_t hash = of_numbers(CHECK_EVIDENCE, set, mode);

    TAKE(signing_key), TAKE(message), TAKE(context), TAKE(signature), TAKE_ALL(evidence);
    KNOWN(set);
    return accept(CHECK_EVIDENCE, hash, SLH_DSA_NOT_SHOWN);
}

slh_dsa_status slh_chain_walk(slh_dsa_set set, IN(root_key), IN(chain), OUT(key),
                              slh_chain_end *end)
{
    uint64_t hash = of_numbers(CHAIN_WALK, set, 0);

    TAKE(root_key), TAKE(chain);
    KNOWN(set);
    WRITE(key);
    return WRITE_ALL(end);
}

slh_dsa_status slh_manifest_open(slh_dsa_set set, IN(verifying_key), IN(manifest),
                                 uint32_t *entries)
{
    uint64_t hash = of_numbers(MANIFEST_OPEN, set, 0);

    TAKE(verifying_key), TAKE(manifest);
    KNOWN(set);
    return WRITE_ALL(entries);
}

slh_dsa_status slh_manifest_entry(IN(manifest), uint32_t number, slh_manifest_file *file)
{
    uint64_t hash = of_numbers(MANIFEST_ENTRY, number, 0);

    TAKE(manifest);
    return manifest_bytes == 0 ? SLH_DSA_FORM : WRITE_ALL(file);
}

slh_dsa_status slh_manifest_find(IN(manifest), IN(name), slh_manifest_file *file)
{
    uint64_t hash = of_numbers(MANIFEST_FIND, 0, 0);

    TAKE(manifest), TAKE(name);
    return manifest_bytes == 0 ? SLH_DSA_FORM : WRITE_ALL(file);
}

slh_dsa_status slh_batch_accept(slh_dsa_set set, IN(verifying_key), IN(message), IN(receipt))
{
    uint64_t hash = of_numbers(BATCH_ACCEPT, set, 0);

    TAKE(verifying_key), TAKE(message), TAKE(receipt);
    KNOWN(set);
    return accept(BATCH_ACCEPT, hash, SLH_DSA_INVALID);
}

slh_dsa_status slh_batch_open(slh_dsa_set set, IN(verifying_key), IN(signed_head),
                              slh_batch_head *head)
{
    uint64_t hash = of_numbers(BATCH_OPEN, set, 0);

    TAKE(verifying_key), TAKE(signed_head);
    KNOWN(set);
    return WRITE_ALL(head);
}

slh_dsa_status slh_batch_accept_under(const slh_batch_head *head, IN(message), uint32_t index,
                                      IN(path))
{
    uint64_t hash = of_numbers(BATCH_ACCEPT_UNDER, index, 0);

    TAKE_ALL(head), TAKE(message), TAKE(path);
    return accept(BATCH_ACCEPT_UNDER, hash, SLH_DSA_INVALID);
}

slh_dsa_status slh_log_open(slh_dsa_set set, IN(verifying_key), IN(origin), IN(checkpoint),
                            OUT(scratch), slh_log_head *head)
{
    uint64_t hash = of_numbers(LOG_OPEN, set, 0);

    TAKE(verifying_key), TAKE(origin), TAKE(checkpoint);
    KNOWN(set);
    WRITE(scratch);
    return WRITE_ALL(head);
}

slh_dsa_status slh_log_check_presence(const slh_log_head *head, uint64_t index, IN(entry),
                                      IN(proof))
{
    uint64_t hash = of_numbers(LOG_CHECK_PRESENCE, index, 0);

    TAKE_ALL(head), TAKE(entry), TAKE(proof);
    return accept(LOG_CHECK_PRESENCE, hash, SLH_DSA_INVALID);
}

slh_dsa_status slh_log_check_growth(const slh_log_head *old_head, const slh_log_head *new_head,
                                    IN(proof))
{
    uint64_t hash = of_numbers(LOG_CHECK_GROWTH, 0, 0);

    TAKE_ALL(old_head), TAKE_ALL(new_head), TAKE(proof);
    return accept(LOG_CHECK_GROWTH, hash, SLH_DSA_INVALID);
}
