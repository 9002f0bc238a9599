/*
 * The calls of slh_dsa.h that get a secret, but for slh_dsa_sha2_public, which copies none: each is the
 * proved one, and behind it the stack that it took is written over, so that no copy of a key stays
 * there. examples/c/build gives the proved ones names that begin with `uncleared_`, and puts this
 * beside them into the archive.
 */
#include "slh_dsa.h"

/* Less than the stack that a call may take, by what stands above: what is left is for these frames. */
#define FRAMES 4096

/* More than the calls of signing in pieces take, but for the last one, which signs. */
#define PIECES_STACK_BYTES 36864

/* Writes over so much of the stack below the function that calls it. */
#define CLEARS(name, bytes)                                     \
    static __attribute__((noinline)) void name(void)            \
    {                                                           \
        volatile uint64_t room[((bytes) - FRAMES) / 8];         \
                                                                \
        for (size_t i = 0; i < sizeof room / sizeof *room; i++) \
            room[i] = 0;                                        \
    }

CLEARS(clear_keygen, SLH_DSA_KEYGEN_STACK_BYTES)
CLEARS(clear_sign, SLH_DSA_SIGN_STACK_BYTES)
CLEARS(clear_pieces, PIECES_STACK_BYTES)
CLEARS(clear_audit, SLH_DSA_AUDIT_STACK_BYTES)
CLEARS(clear_check_evidence, SLH_DSA_CHECK_EVIDENCE_STACK_BYTES)

/* Defines a call: the proved one with these arguments, and then `clear`. */
#define CLEARED(name, clear, parameters, arguments)               \
    __typeof__(name) uncleared_##name;                            \
    slh_dsa_status name parameters                                \
    {                                                             \
        const slh_dsa_status status = uncleared_##name arguments; \
                                                                  \
        clear();                                                  \
        return status;                                            \
    }

CLEARED(slh_dsa_sha2_keygen, clear_keygen,
        (slh_dsa_set set, const uint8_t *seeds, size_t seeds_bytes,
         uint8_t *signing_key, size_t signing_key_bytes,
         uint8_t *verifying_key, size_t verifying_key_bytes),
        (set, seeds, seeds_bytes, signing_key, signing_key_bytes, verifying_key,
         verifying_key_bytes))

CLEARED(slh_dsa_sha2_check_key, clear_keygen,
        (slh_dsa_set set, const uint8_t *signing_key, size_t signing_key_bytes),
        (set, signing_key, signing_key_bytes))

CLEARED(slh_dsa_sha2_sign, clear_sign,
        (slh_dsa_set set, slh_dsa_mode mode,
         const uint8_t *signing_key, size_t signing_key_bytes,
         const uint8_t *message, size_t message_bytes,
         const uint8_t *context, size_t context_bytes,
         const uint8_t *randomizer, size_t randomizer_bytes,
         uint8_t *signature, size_t signature_bytes),
        (set, mode, signing_key, signing_key_bytes, message, message_bytes, context, context_bytes,
         randomizer, randomizer_bytes, signature, signature_bytes))

CLEARED(slh_dsa_sha2_sign_deterministic, clear_sign,
        (slh_dsa_set set, slh_dsa_mode mode,
         const uint8_t *signing_key, size_t signing_key_bytes,
         const uint8_t *message, size_t message_bytes,
         const uint8_t *context, size_t context_bytes,
         uint8_t *signature, size_t signature_bytes),
        (set, mode, signing_key, signing_key_bytes, message, message_bytes, context, context_bytes,
         signature, signature_bytes))

CLEARED(slh_dsa_sha2_sign_begin, clear_pieces,
        (slh_dsa_signer *signer, slh_dsa_set set,
         const uint8_t *signing_key, size_t signing_key_bytes,
         const uint8_t *context, size_t context_bytes,
         const uint8_t *randomizer, size_t randomizer_bytes),
        (signer, set, signing_key, signing_key_bytes, context, context_bytes, randomizer,
         randomizer_bytes))

CLEARED(slh_dsa_sha2_sign_begin_deterministic, clear_pieces,
        (slh_dsa_signer *signer, slh_dsa_set set,
         const uint8_t *signing_key, size_t signing_key_bytes,
         const uint8_t *context, size_t context_bytes),
        (signer, set, signing_key, signing_key_bytes, context, context_bytes))

CLEARED(slh_dsa_sha2_sign_update, clear_pieces,
        (slh_dsa_signer *signer, const uint8_t *piece, size_t piece_bytes),
        (signer, piece, piece_bytes))

CLEARED(slh_dsa_sha2_sign_again, clear_pieces,
        (slh_dsa_signer *signer, const uint8_t *context, size_t context_bytes),
        (signer, context, context_bytes))

CLEARED(slh_dsa_sha2_sign_finish, clear_sign,
        (slh_dsa_signer *signer, const uint8_t *signing_key, size_t signing_key_bytes,
         uint8_t *signature, size_t signature_bytes),
        (signer, signing_key, signing_key_bytes, signature, signature_bytes))

CLEARED(slh_dsa_sha2_sign_digest, clear_sign,
        (slh_dsa_set set, slh_dsa_mode mode,
         const uint8_t *signing_key, size_t signing_key_bytes,
         const uint8_t *digest, size_t digest_bytes,
         const uint8_t *context, size_t context_bytes,
         const uint8_t *randomizer, size_t randomizer_bytes,
         uint8_t *signature, size_t signature_bytes),
        (set, mode, signing_key, signing_key_bytes, digest, digest_bytes, context, context_bytes,
         randomizer, randomizer_bytes, signature, signature_bytes))

CLEARED(slh_dsa_sha2_sign_digest_deterministic, clear_sign,
        (slh_dsa_set set, slh_dsa_mode mode,
         const uint8_t *signing_key, size_t signing_key_bytes,
         const uint8_t *digest, size_t digest_bytes,
         const uint8_t *context, size_t context_bytes,
         uint8_t *signature, size_t signature_bytes),
        (set, mode, signing_key, signing_key_bytes, digest, digest_bytes, context, context_bytes,
         signature, signature_bytes))

CLEARED(slh_dsa_sha2_audit, clear_audit,
        (slh_dsa_set set, slh_dsa_mode mode,
         const uint8_t *signing_key, size_t signing_key_bytes,
         const uint8_t *message, size_t message_bytes,
         const uint8_t *context, size_t context_bytes,
         const uint8_t *signature, size_t signature_bytes, slh_dsa_evidence *evidence),
        (set, mode, signing_key, signing_key_bytes, message, message_bytes, context, context_bytes,
         signature, signature_bytes, evidence))

CLEARED(slh_dsa_sha2_check_evidence, clear_check_evidence,
        (slh_dsa_set set, slh_dsa_mode mode,
         const uint8_t *signing_key, size_t signing_key_bytes,
         const uint8_t *message, size_t message_bytes,
         const uint8_t *context, size_t context_bytes,
         const uint8_t *signature, size_t signature_bytes, const slh_dsa_evidence *evidence),
        (set, mode, signing_key, signing_key_bytes, message, message_bytes, context, context_bytes,
         signature, signature_bytes, evidence))
