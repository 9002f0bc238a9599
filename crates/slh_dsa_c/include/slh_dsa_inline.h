/*
 * Inline functions over the calls of slh_dsa.h, WITHOUT A PROOF: forms that take NULL, sizes of a
 * set, keys in PEM, a verdict for boot loaders, a status as text, a set by its name. They need no
 * object file and no C library, and what isn't called takes no room.
 */
#ifndef SLH_DSA_INLINE_H
#define SLH_DSA_INLINE_H

#include "slh_dsa.h"

#if defined(__cplusplus) || (defined(__STDC_VERSION__) && __STDC_VERSION__ >= 199901L)
#define SLH_DSA_INLINE static inline
#elif defined(__GNUC__)
#define SLH_DSA_INLINE static __inline__
#elif defined(_MSC_VER)
#define SLH_DSA_INLINE static __inline
#else
#error "slh_dsa_inline.h wants a compiler with inline functions"
#endif

/* FORMS THAT TAKE NULL: the calls of slh_dsa.h but those of one set, where a buffer of the length 0
 * may also be NULL. NULL with another length is answered by LENGTH, before all other causes. What
 * has no length isn't NULL: a state, evidence, an end, a head, a file, a number. */

/* Whether bytes are told of and none can be there. */
SLH_DSA_INLINE int slh_dsa_is_missing(const uint8_t *at, size_t bytes)
{
    return at == NULL && bytes != 0;
}

/* An address that isn't NULL. */
SLH_DSA_INLINE const uint8_t *slh_dsa_read_at(const uint8_t *at, const uint8_t *nothing)
{
    return at != NULL ? at : nothing;
}

SLH_DSA_INLINE uint8_t *slh_dsa_write_at(uint8_t *at, uint8_t *nothing)
{
    return at != NULL ? at : nothing;
}

SLH_DSA_MUST_CHECK SLH_DSA_INLINE slh_dsa_status slh_dsa_sha2_keygen_nullable(
    slh_dsa_set set,
    const uint8_t *seeds, size_t seeds_bytes,
    uint8_t *signing_key, size_t signing_key_bytes,
    uint8_t *verifying_key, size_t verifying_key_bytes)
{
    uint8_t nothing = 0;

    if (slh_dsa_is_missing(seeds, seeds_bytes) ||
        slh_dsa_is_missing(signing_key, signing_key_bytes) ||
        slh_dsa_is_missing(verifying_key, verifying_key_bytes))
        return SLH_DSA_LENGTH;
    return slh_dsa_sha2_keygen(
        set,
        slh_dsa_read_at(seeds, &nothing), seeds_bytes,
        slh_dsa_write_at(signing_key, &nothing), signing_key_bytes,
        slh_dsa_write_at(verifying_key, &nothing), verifying_key_bytes);
}

SLH_DSA_MUST_CHECK SLH_DSA_INLINE slh_dsa_status slh_dsa_sha2_public_nullable(
    slh_dsa_set set,
    const uint8_t *signing_key, size_t signing_key_bytes,
    uint8_t *verifying_key, size_t verifying_key_bytes)
{
    uint8_t nothing = 0;

    if (slh_dsa_is_missing(signing_key, signing_key_bytes) ||
        slh_dsa_is_missing(verifying_key, verifying_key_bytes))
        return SLH_DSA_LENGTH;
    return slh_dsa_sha2_public(
        set,
        slh_dsa_read_at(signing_key, &nothing), signing_key_bytes,
        slh_dsa_write_at(verifying_key, &nothing), verifying_key_bytes);
}

SLH_DSA_MUST_CHECK SLH_DSA_INLINE slh_dsa_status slh_dsa_sha2_check_key_nullable(
    slh_dsa_set set,
    const uint8_t *signing_key, size_t signing_key_bytes)
{
    const uint8_t nothing = 0;

    if (slh_dsa_is_missing(signing_key, signing_key_bytes))
        return SLH_DSA_LENGTH;
    return slh_dsa_sha2_check_key(
        set, slh_dsa_read_at(signing_key, &nothing), signing_key_bytes);
}

SLH_DSA_MUST_CHECK SLH_DSA_INLINE slh_dsa_status slh_dsa_sha2_sign_nullable(
    slh_dsa_set set, slh_dsa_mode mode,
    const uint8_t *signing_key, size_t signing_key_bytes,
    const uint8_t *message, size_t message_bytes,
    const uint8_t *context, size_t context_bytes,
    const uint8_t *randomizer, size_t randomizer_bytes,
    uint8_t *signature, size_t signature_bytes)
{
    uint8_t nothing = 0;

    if (slh_dsa_is_missing(signing_key, signing_key_bytes) ||
        slh_dsa_is_missing(message, message_bytes) ||
        slh_dsa_is_missing(context, context_bytes) ||
        slh_dsa_is_missing(randomizer, randomizer_bytes) ||
        slh_dsa_is_missing(signature, signature_bytes))
        return SLH_DSA_LENGTH;
    return slh_dsa_sha2_sign(
        set, mode,
        slh_dsa_read_at(signing_key, &nothing), signing_key_bytes,
        slh_dsa_read_at(message, &nothing), message_bytes,
        slh_dsa_read_at(context, &nothing), context_bytes,
        slh_dsa_read_at(randomizer, &nothing), randomizer_bytes,
        slh_dsa_write_at(signature, &nothing), signature_bytes);
}

SLH_DSA_MUST_CHECK SLH_DSA_INLINE slh_dsa_status slh_dsa_sha2_sign_deterministic_nullable(
    slh_dsa_set set, slh_dsa_mode mode,
    const uint8_t *signing_key, size_t signing_key_bytes,
    const uint8_t *message, size_t message_bytes,
    const uint8_t *context, size_t context_bytes,
    uint8_t *signature, size_t signature_bytes)
{
    uint8_t nothing = 0;

    if (slh_dsa_is_missing(signing_key, signing_key_bytes) ||
        slh_dsa_is_missing(message, message_bytes) ||
        slh_dsa_is_missing(context, context_bytes) ||
        slh_dsa_is_missing(signature, signature_bytes))
        return SLH_DSA_LENGTH;
    return slh_dsa_sha2_sign_deterministic(
        set, mode,
        slh_dsa_read_at(signing_key, &nothing), signing_key_bytes,
        slh_dsa_read_at(message, &nothing), message_bytes,
        slh_dsa_read_at(context, &nothing), context_bytes,
        slh_dsa_write_at(signature, &nothing), signature_bytes);
}

SLH_DSA_MUST_CHECK SLH_DSA_INLINE slh_dsa_status slh_dsa_sha2_verify_nullable(
    slh_dsa_set set, slh_dsa_mode mode,
    const uint8_t *verifying_key, size_t verifying_key_bytes,
    const uint8_t *message, size_t message_bytes,
    const uint8_t *context, size_t context_bytes,
    const uint8_t *signature, size_t signature_bytes)
{
    const uint8_t nothing = 0;

    if (slh_dsa_is_missing(verifying_key, verifying_key_bytes) ||
        slh_dsa_is_missing(message, message_bytes) ||
        slh_dsa_is_missing(context, context_bytes) ||
        slh_dsa_is_missing(signature, signature_bytes))
        return SLH_DSA_LENGTH;
    return slh_dsa_sha2_verify(
        set, mode,
        slh_dsa_read_at(verifying_key, &nothing), verifying_key_bytes,
        slh_dsa_read_at(message, &nothing), message_bytes,
        slh_dsa_read_at(context, &nothing), context_bytes,
        slh_dsa_read_at(signature, &nothing), signature_bytes);
}

SLH_DSA_MUST_CHECK SLH_DSA_INLINE slh_dsa_status slh_dsa_sha2_verify_begin_nullable(
    slh_dsa_verifier *verifier,
    slh_dsa_set set, slh_dsa_mode mode,
    const uint8_t *verifying_key, size_t verifying_key_bytes,
    const uint8_t *context, size_t context_bytes,
    const uint8_t *signature, size_t signature_bytes)
{
    const uint8_t nothing = 0;

    if (slh_dsa_is_missing(verifying_key, verifying_key_bytes) ||
        slh_dsa_is_missing(context, context_bytes) ||
        slh_dsa_is_missing(signature, signature_bytes))
        return SLH_DSA_LENGTH;
    return slh_dsa_sha2_verify_begin(
        verifier, set, mode,
        slh_dsa_read_at(verifying_key, &nothing), verifying_key_bytes,
        slh_dsa_read_at(context, &nothing), context_bytes,
        slh_dsa_read_at(signature, &nothing), signature_bytes);
}

SLH_DSA_MUST_CHECK SLH_DSA_INLINE slh_dsa_status slh_dsa_sha2_verify_update_nullable(
    slh_dsa_verifier *verifier,
    const uint8_t *piece, size_t piece_bytes)
{
    const uint8_t nothing = 0;

    if (slh_dsa_is_missing(piece, piece_bytes))
        return SLH_DSA_LENGTH;
    return slh_dsa_sha2_verify_update(verifier, slh_dsa_read_at(piece, &nothing), piece_bytes);
}

/* The state is used up here, too, whatever the answer, and so in sign_finish. */
SLH_DSA_MUST_CHECK SLH_DSA_INLINE slh_dsa_status slh_dsa_sha2_verify_finish_nullable(
    slh_dsa_verifier *verifier,
    const uint8_t *signature, size_t signature_bytes)
{
    const uint8_t nothing = 0;
    const int is_missing = slh_dsa_is_missing(signature, signature_bytes);
    const slh_dsa_status status = slh_dsa_sha2_verify_finish(
        verifier,
        slh_dsa_read_at(signature, &nothing), is_missing ? 0 : signature_bytes);

    if (is_missing)
        return SLH_DSA_LENGTH;
    return status;
}

SLH_DSA_MUST_CHECK SLH_DSA_INLINE slh_dsa_status slh_dsa_sha2_sign_begin_nullable(
    slh_dsa_signer *signer,
    slh_dsa_set set,
    const uint8_t *signing_key, size_t signing_key_bytes,
    const uint8_t *context, size_t context_bytes,
    const uint8_t *randomizer, size_t randomizer_bytes)
{
    const uint8_t nothing = 0;

    if (slh_dsa_is_missing(signing_key, signing_key_bytes) ||
        slh_dsa_is_missing(context, context_bytes) ||
        slh_dsa_is_missing(randomizer, randomizer_bytes))
        return SLH_DSA_LENGTH;
    return slh_dsa_sha2_sign_begin(
        signer, set,
        slh_dsa_read_at(signing_key, &nothing), signing_key_bytes,
        slh_dsa_read_at(context, &nothing), context_bytes,
        slh_dsa_read_at(randomizer, &nothing), randomizer_bytes);
}

SLH_DSA_MUST_CHECK SLH_DSA_INLINE slh_dsa_status slh_dsa_sha2_sign_begin_deterministic_nullable(
    slh_dsa_signer *signer,
    slh_dsa_set set,
    const uint8_t *signing_key, size_t signing_key_bytes,
    const uint8_t *context, size_t context_bytes)
{
    const uint8_t nothing = 0;

    if (slh_dsa_is_missing(signing_key, signing_key_bytes) ||
        slh_dsa_is_missing(context, context_bytes))
        return SLH_DSA_LENGTH;
    return slh_dsa_sha2_sign_begin_deterministic(
        signer, set,
        slh_dsa_read_at(signing_key, &nothing), signing_key_bytes,
        slh_dsa_read_at(context, &nothing), context_bytes);
}

SLH_DSA_MUST_CHECK SLH_DSA_INLINE slh_dsa_status slh_dsa_sha2_sign_update_nullable(
    slh_dsa_signer *signer,
    const uint8_t *piece, size_t piece_bytes)
{
    const uint8_t nothing = 0;

    if (slh_dsa_is_missing(piece, piece_bytes))
        return SLH_DSA_LENGTH;
    return slh_dsa_sha2_sign_update(signer, slh_dsa_read_at(piece, &nothing), piece_bytes);
}

SLH_DSA_MUST_CHECK SLH_DSA_INLINE slh_dsa_status slh_dsa_sha2_sign_again_nullable(
    slh_dsa_signer *signer,
    const uint8_t *context, size_t context_bytes)
{
    const uint8_t nothing = 0;

    if (slh_dsa_is_missing(context, context_bytes))
        return SLH_DSA_LENGTH;
    return slh_dsa_sha2_sign_again(signer, slh_dsa_read_at(context, &nothing), context_bytes);
}

SLH_DSA_MUST_CHECK SLH_DSA_INLINE slh_dsa_status slh_dsa_sha2_sign_finish_nullable(
    slh_dsa_signer *signer,
    const uint8_t *signing_key, size_t signing_key_bytes,
    uint8_t *signature, size_t signature_bytes)
{
    uint8_t nothing = 0;
    const int is_missing = slh_dsa_is_missing(signing_key, signing_key_bytes) ||
                           slh_dsa_is_missing(signature, signature_bytes);
    const slh_dsa_status status = slh_dsa_sha2_sign_finish(
        signer,
        slh_dsa_read_at(signing_key, &nothing), is_missing ? 0 : signing_key_bytes,
        slh_dsa_write_at(signature, &nothing), is_missing ? 0 : signature_bytes);

    if (is_missing)
        return SLH_DSA_LENGTH;
    return status;
}

SLH_DSA_MUST_CHECK SLH_DSA_INLINE slh_dsa_status slh_dsa_sha2_sign_digest_nullable(
    slh_dsa_set set, slh_dsa_mode mode,
    const uint8_t *signing_key, size_t signing_key_bytes,
    const uint8_t *digest, size_t digest_bytes,
    const uint8_t *context, size_t context_bytes,
    const uint8_t *randomizer, size_t randomizer_bytes,
    uint8_t *signature, size_t signature_bytes)
{
    uint8_t nothing = 0;

    if (slh_dsa_is_missing(signing_key, signing_key_bytes) ||
        slh_dsa_is_missing(digest, digest_bytes) ||
        slh_dsa_is_missing(context, context_bytes) ||
        slh_dsa_is_missing(randomizer, randomizer_bytes) ||
        slh_dsa_is_missing(signature, signature_bytes))
        return SLH_DSA_LENGTH;
    return slh_dsa_sha2_sign_digest(
        set, mode,
        slh_dsa_read_at(signing_key, &nothing), signing_key_bytes,
        slh_dsa_read_at(digest, &nothing), digest_bytes,
        slh_dsa_read_at(context, &nothing), context_bytes,
        slh_dsa_read_at(randomizer, &nothing), randomizer_bytes,
        slh_dsa_write_at(signature, &nothing), signature_bytes);
}

SLH_DSA_MUST_CHECK SLH_DSA_INLINE slh_dsa_status slh_dsa_sha2_sign_digest_deterministic_nullable(
    slh_dsa_set set, slh_dsa_mode mode,
    const uint8_t *signing_key, size_t signing_key_bytes,
    const uint8_t *digest, size_t digest_bytes,
    const uint8_t *context, size_t context_bytes,
    uint8_t *signature, size_t signature_bytes)
{
    uint8_t nothing = 0;

    if (slh_dsa_is_missing(signing_key, signing_key_bytes) ||
        slh_dsa_is_missing(digest, digest_bytes) ||
        slh_dsa_is_missing(context, context_bytes) ||
        slh_dsa_is_missing(signature, signature_bytes))
        return SLH_DSA_LENGTH;
    return slh_dsa_sha2_sign_digest_deterministic(
        set, mode,
        slh_dsa_read_at(signing_key, &nothing), signing_key_bytes,
        slh_dsa_read_at(digest, &nothing), digest_bytes,
        slh_dsa_read_at(context, &nothing), context_bytes,
        slh_dsa_write_at(signature, &nothing), signature_bytes);
}

SLH_DSA_MUST_CHECK SLH_DSA_INLINE slh_dsa_status slh_dsa_sha2_verify_digest_nullable(
    slh_dsa_set set, slh_dsa_mode mode,
    const uint8_t *verifying_key, size_t verifying_key_bytes,
    const uint8_t *digest, size_t digest_bytes,
    const uint8_t *context, size_t context_bytes,
    const uint8_t *signature, size_t signature_bytes)
{
    const uint8_t nothing = 0;

    if (slh_dsa_is_missing(verifying_key, verifying_key_bytes) ||
        slh_dsa_is_missing(digest, digest_bytes) ||
        slh_dsa_is_missing(context, context_bytes) ||
        slh_dsa_is_missing(signature, signature_bytes))
        return SLH_DSA_LENGTH;
    return slh_dsa_sha2_verify_digest(
        set, mode,
        slh_dsa_read_at(verifying_key, &nothing), verifying_key_bytes,
        slh_dsa_read_at(digest, &nothing), digest_bytes,
        slh_dsa_read_at(context, &nothing), context_bytes,
        slh_dsa_read_at(signature, &nothing), signature_bytes);
}

SLH_DSA_MUST_CHECK SLH_DSA_INLINE slh_dsa_status slh_dsa_sha2_audit_nullable(
    slh_dsa_set set, slh_dsa_mode mode,
    const uint8_t *signing_key, size_t signing_key_bytes,
    const uint8_t *message, size_t message_bytes,
    const uint8_t *context, size_t context_bytes,
    const uint8_t *signature, size_t signature_bytes,
    slh_dsa_evidence *evidence)
{
    const uint8_t nothing = 0;

    if (slh_dsa_is_missing(signing_key, signing_key_bytes) ||
        slh_dsa_is_missing(message, message_bytes) ||
        slh_dsa_is_missing(context, context_bytes) ||
        slh_dsa_is_missing(signature, signature_bytes))
        return SLH_DSA_LENGTH;
    return slh_dsa_sha2_audit(
        set, mode,
        slh_dsa_read_at(signing_key, &nothing), signing_key_bytes,
        slh_dsa_read_at(message, &nothing), message_bytes,
        slh_dsa_read_at(context, &nothing), context_bytes,
        slh_dsa_read_at(signature, &nothing), signature_bytes,
        evidence);
}

SLH_DSA_MUST_CHECK SLH_DSA_INLINE slh_dsa_status slh_dsa_sha2_check_evidence_nullable(
    slh_dsa_set set, slh_dsa_mode mode,
    const uint8_t *signing_key, size_t signing_key_bytes,
    const uint8_t *message, size_t message_bytes,
    const uint8_t *context, size_t context_bytes,
    const uint8_t *signature, size_t signature_bytes,
    const slh_dsa_evidence *evidence)
{
    const uint8_t nothing = 0;

    if (slh_dsa_is_missing(signing_key, signing_key_bytes) ||
        slh_dsa_is_missing(message, message_bytes) ||
        slh_dsa_is_missing(context, context_bytes) ||
        slh_dsa_is_missing(signature, signature_bytes))
        return SLH_DSA_LENGTH;
    return slh_dsa_sha2_check_evidence(
        set, mode,
        slh_dsa_read_at(signing_key, &nothing), signing_key_bytes,
        slh_dsa_read_at(message, &nothing), message_bytes,
        slh_dsa_read_at(context, &nothing), context_bytes,
        slh_dsa_read_at(signature, &nothing), signature_bytes,
        evidence);
}

SLH_DSA_MUST_CHECK SLH_DSA_INLINE slh_dsa_status slh_chain_walk_nullable(
    slh_dsa_set set,
    const uint8_t *root_key, size_t root_key_bytes,
    const uint8_t *chain, size_t chain_bytes,
    uint8_t *key, size_t key_bytes,
    slh_chain_end *end)
{
    uint8_t nothing = 0;

    if (slh_dsa_is_missing(root_key, root_key_bytes) ||
        slh_dsa_is_missing(chain, chain_bytes) ||
        slh_dsa_is_missing(key, key_bytes))
        return SLH_DSA_LENGTH;
    return slh_chain_walk(
        set,
        slh_dsa_read_at(root_key, &nothing), root_key_bytes,
        slh_dsa_read_at(chain, &nothing), chain_bytes,
        slh_dsa_write_at(key, &nothing), key_bytes,
        end);
}

SLH_DSA_MUST_CHECK SLH_DSA_INLINE slh_dsa_status slh_manifest_open_nullable(
    slh_dsa_set set,
    const uint8_t *verifying_key, size_t verifying_key_bytes,
    const uint8_t *manifest, size_t manifest_bytes,
    uint32_t *entries)
{
    const uint8_t nothing = 0;

    if (slh_dsa_is_missing(verifying_key, verifying_key_bytes) ||
        slh_dsa_is_missing(manifest, manifest_bytes))
        return SLH_DSA_LENGTH;
    return slh_manifest_open(
        set,
        slh_dsa_read_at(verifying_key, &nothing), verifying_key_bytes,
        slh_dsa_read_at(manifest, &nothing), manifest_bytes,
        entries);
}

SLH_DSA_MUST_CHECK SLH_DSA_INLINE slh_dsa_status slh_manifest_entry_nullable(
    const uint8_t *manifest, size_t manifest_bytes,
    uint32_t number,
    slh_manifest_file *file)
{
    const uint8_t nothing = 0;

    if (slh_dsa_is_missing(manifest, manifest_bytes))
        return SLH_DSA_LENGTH;
    return slh_manifest_entry(
        slh_dsa_read_at(manifest, &nothing), manifest_bytes, number, file);
}

SLH_DSA_MUST_CHECK SLH_DSA_INLINE slh_dsa_status slh_manifest_find_nullable(
    const uint8_t *manifest, size_t manifest_bytes,
    const uint8_t *name, size_t name_bytes,
    slh_manifest_file *file)
{
    const uint8_t nothing = 0;

    if (slh_dsa_is_missing(manifest, manifest_bytes) ||
        slh_dsa_is_missing(name, name_bytes))
        return SLH_DSA_LENGTH;
    return slh_manifest_find(
        slh_dsa_read_at(manifest, &nothing), manifest_bytes,
        slh_dsa_read_at(name, &nothing), name_bytes,
        file);
}

SLH_DSA_MUST_CHECK SLH_DSA_INLINE slh_dsa_status slh_batch_accept_nullable(
    slh_dsa_set set,
    const uint8_t *verifying_key, size_t verifying_key_bytes,
    const uint8_t *message, size_t message_bytes,
    const uint8_t *receipt, size_t receipt_bytes)
{
    const uint8_t nothing = 0;

    if (slh_dsa_is_missing(verifying_key, verifying_key_bytes) ||
        slh_dsa_is_missing(message, message_bytes) ||
        slh_dsa_is_missing(receipt, receipt_bytes))
        return SLH_DSA_LENGTH;
    return slh_batch_accept(
        set,
        slh_dsa_read_at(verifying_key, &nothing), verifying_key_bytes,
        slh_dsa_read_at(message, &nothing), message_bytes,
        slh_dsa_read_at(receipt, &nothing), receipt_bytes);
}

SLH_DSA_MUST_CHECK SLH_DSA_INLINE slh_dsa_status slh_batch_open_nullable(
    slh_dsa_set set,
    const uint8_t *verifying_key, size_t verifying_key_bytes,
    const uint8_t *signed_head, size_t signed_head_bytes,
    slh_batch_head *head)
{
    const uint8_t nothing = 0;

    if (slh_dsa_is_missing(verifying_key, verifying_key_bytes) ||
        slh_dsa_is_missing(signed_head, signed_head_bytes))
        return SLH_DSA_LENGTH;
    return slh_batch_open(
        set,
        slh_dsa_read_at(verifying_key, &nothing), verifying_key_bytes,
        slh_dsa_read_at(signed_head, &nothing), signed_head_bytes,
        head);
}

SLH_DSA_MUST_CHECK SLH_DSA_INLINE slh_dsa_status slh_batch_accept_under_nullable(
    const slh_batch_head *head,
    const uint8_t *message, size_t message_bytes,
    uint32_t index,
    const uint8_t *path, size_t path_bytes)
{
    const uint8_t nothing = 0;

    if (slh_dsa_is_missing(message, message_bytes) || slh_dsa_is_missing(path, path_bytes))
        return SLH_DSA_LENGTH;
    return slh_batch_accept_under(
        head,
        slh_dsa_read_at(message, &nothing), message_bytes,
        index,
        slh_dsa_read_at(path, &nothing), path_bytes);
}

SLH_DSA_MUST_CHECK SLH_DSA_INLINE slh_dsa_status slh_log_open_nullable(
    slh_dsa_set set,
    const uint8_t *verifying_key, size_t verifying_key_bytes,
    const uint8_t *origin, size_t origin_bytes,
    const uint8_t *checkpoint, size_t checkpoint_bytes,
    uint8_t *scratch, size_t scratch_bytes,
    slh_log_head *head)
{
    uint8_t nothing = 0;

    if (slh_dsa_is_missing(verifying_key, verifying_key_bytes) ||
        slh_dsa_is_missing(origin, origin_bytes) ||
        slh_dsa_is_missing(checkpoint, checkpoint_bytes) ||
        slh_dsa_is_missing(scratch, scratch_bytes))
        return SLH_DSA_LENGTH;
    return slh_log_open(
        set,
        slh_dsa_read_at(verifying_key, &nothing), verifying_key_bytes,
        slh_dsa_read_at(origin, &nothing), origin_bytes,
        slh_dsa_read_at(checkpoint, &nothing), checkpoint_bytes,
        slh_dsa_write_at(scratch, &nothing), scratch_bytes,
        head);
}

SLH_DSA_MUST_CHECK SLH_DSA_INLINE slh_dsa_status slh_log_check_presence_nullable(
    const slh_log_head *head,
    uint64_t index,
    const uint8_t *entry, size_t entry_bytes,
    const uint8_t *proof, size_t proof_bytes)
{
    const uint8_t nothing = 0;

    if (slh_dsa_is_missing(entry, entry_bytes) || slh_dsa_is_missing(proof, proof_bytes))
        return SLH_DSA_LENGTH;
    return slh_log_check_presence(
        head, index,
        slh_dsa_read_at(entry, &nothing), entry_bytes,
        slh_dsa_read_at(proof, &nothing), proof_bytes);
}

SLH_DSA_MUST_CHECK SLH_DSA_INLINE slh_dsa_status slh_log_check_growth_nullable(
    const slh_log_head *old_head,
    const slh_log_head *new_head,
    const uint8_t *proof, size_t proof_bytes)
{
    const uint8_t nothing = 0;

    if (slh_dsa_is_missing(proof, proof_bytes))
        return SLH_DSA_LENGTH;
    return slh_log_check_growth(
        old_head, new_head, slh_dsa_read_at(proof, &nothing), proof_bytes);
}

/* SIZES of a set, as the macros of slh_dsa.h tell them, for languages that can't call a macro. 0
 * where no set has the number. */
SLH_DSA_MUST_CHECK SLH_DSA_INLINE size_t slh_dsa_seeds_bytes(slh_dsa_set set)
{
    return SLH_DSA_SEEDS_BYTES(slh_dsa_sha2_n(set));
}

SLH_DSA_MUST_CHECK SLH_DSA_INLINE size_t slh_dsa_signing_key_bytes(slh_dsa_set set)
{
    return SLH_DSA_SIGNING_KEY_BYTES(slh_dsa_sha2_n(set));
}

SLH_DSA_MUST_CHECK SLH_DSA_INLINE size_t slh_dsa_verifying_key_bytes(slh_dsa_set set)
{
    return SLH_DSA_VERIFYING_KEY_BYTES(slh_dsa_sha2_n(set));
}

SLH_DSA_MUST_CHECK SLH_DSA_INLINE size_t slh_dsa_randomizer_bytes(slh_dsa_set set)
{
    return SLH_DSA_RANDOMIZER_BYTES(slh_dsa_sha2_n(set));
}

SLH_DSA_MUST_CHECK SLH_DSA_INLINE size_t slh_chain_max_bytes(slh_dsa_set set)
{
    const size_t n = slh_dsa_sha2_n(set);

    return n == 0 ? 0 : SLH_CHAIN_MAX_BYTES(n, slh_dsa_sha2_signature_bytes(set));
}

SLH_DSA_MUST_CHECK SLH_DSA_INLINE size_t slh_manifest_max_bytes(slh_dsa_set set)
{
    const size_t signature_bytes = slh_dsa_sha2_signature_bytes(set);

    return signature_bytes == 0 ? 0 : SLH_MANIFEST_MAX_BYTES(signature_bytes);
}

SLH_DSA_MUST_CHECK SLH_DSA_INLINE size_t slh_batch_max_receipt_bytes(slh_dsa_set set)
{
    const size_t signature_bytes = slh_dsa_sha2_signature_bytes(set);

    return signature_bytes == 0 ? 0 : SLH_BATCH_MAX_RECEIPT_BYTES(signature_bytes);
}

SLH_DSA_MUST_CHECK SLH_DSA_INLINE size_t slh_batch_head_bytes(slh_dsa_set set)
{
    const size_t signature_bytes = slh_dsa_sha2_signature_bytes(set);

    return signature_bytes == 0 ? 0 : SLH_BATCH_HEAD_BYTES(signature_bytes);
}

SLH_DSA_MUST_CHECK SLH_DSA_INLINE size_t slh_log_scratch_bytes(slh_dsa_set set)
{
    const size_t signature_bytes = slh_dsa_sha2_signature_bytes(set);

    return signature_bytes == 0 ? 0 : SLH_LOG_SCRATCH_BYTES(signature_bytes);
}

/* KEYS IN PEM, as `slh keygen` and OpenSSL 3.5 write them, without a passphrase. The text has one
 * block, and anything around it. */

/* The place behind a word that stands at a place of a text, 0 where it doesn't. */
SLH_DSA_INLINE size_t slh_dsa_behind(
    const char *text, size_t bytes, size_t at, const char *word)
{
    while (*word != '\0' && at < bytes && text[at] == *word) {
        at++;
        word++;
    }
    return *word == '\0' ? at : 0;
}

/* The place behind the first such word from a place on, 0 where there is none. */
SLH_DSA_INLINE size_t slh_dsa_find(
    const char *text, size_t bytes, size_t at, const char *word)
{
    size_t behind = 0;

    for (; at < bytes && behind == 0; at++)
        behind = slh_dsa_behind(text, bytes, at, word);
    return behind;
}

/* The value of a digit of Base64, 64 of anything else. */
SLH_DSA_INLINE uint32_t slh_dsa_base64_value(char digit)
{
    static const char digits[] =
        "ABCDEFGHIJKLMNOPQRSTUVWXYZabcdefghijklmnopqrstuvwxyz0123456789+/";
    uint32_t value = 0;

    while (value < 64 && digits[value] != digit)
        value++;
    return value;
}

/* Reads Base64 with blanks and ends of lines in it. It answers how many bytes there are, 0 where it
 * is none or where there are more than there is room for. */
SLH_DSA_INLINE size_t slh_dsa_from_base64(
    const char *text, size_t text_bytes, uint8_t *bytes, size_t room)
{
    size_t at, digits = 0, missing = 0, padding = 0, read = 0;
    uint32_t bits = 0;

    for (at = 0; at < text_bytes; at++) {
        const uint32_t value = slh_dsa_base64_value(text[at]);

        if (text[at] == ' ' || text[at] == '\t' || text[at] == '\r' || text[at] == '\n')
            continue;
        if (text[at] == '=') {
            padding++;
            continue;
        }
        if (value == 64 || padding != 0)
            return 0;
        bits = bits << 6 | value;
        missing = 3 - digits++ % 4; /* digits until four are full */
        if (missing == 3)
            continue;
        if (read == room)
            return 0;
        bytes[read++] = (uint8_t)(bits >> 2 * missing);
    }
    return missing < 3 && padding == missing && bits % (1UL << 2 * missing) == 0 ? read : 0;
}

enum { SLH_DSA_KEY_HEAD_MAX_BYTES = 22 };

/* What stands before a key's bytes in DER (RFC 9909), and how many bytes that has. */
SLH_DSA_INLINE size_t slh_dsa_key_head(slh_dsa_set set, int is_signing, uint8_t *head)
{
    static const uint8_t version[] = {0x02, 0x01, 0x00};
    static const uint8_t algorithm[] = {0x30, 0x0b, 0x06, 0x09, 0x60, 0x86,
                                        0x48, 0x01, 0x65, 0x03, 0x04, 0x03};
    const size_t key_bytes =
        is_signing ? slh_dsa_signing_key_bytes(set) : slh_dsa_verifying_key_bytes(set);
    const int is_long = key_bytes > 127;
    size_t at = 0, i;

    head[at++] = 0x30;
    if (is_long)
        head[at++] = 0x81;
    head[at++] = (uint8_t)(key_bytes + (is_signing ? 18U + (unsigned)is_long : 16U));
    for (i = 0; is_signing && i < sizeof version; i++)
        head[at++] = version[i];
    for (i = 0; i < sizeof algorithm; i++)
        head[at++] = algorithm[i];
    head[at++] = (uint8_t)(19 + set); /* the last arc of the set's identifier */
    head[at++] = is_signing ? 0x04 : 0x03;
    if (is_long)
        head[at++] = 0x81;
    head[at++] = (uint8_t)(is_signing ? key_bytes : key_bytes + 1);
    if (!is_signing)
        head[at++] = 0x00;
    return at;
}

/* The set and the bytes of a key in DER. */
SLH_DSA_INLINE slh_dsa_status slh_dsa_key_of_der(
    const uint8_t *der, size_t der_bytes, int is_signing, slh_dsa_set *set, uint8_t *key)
{
    uint8_t head[SLH_DSA_KEY_HEAD_MAX_BYTES];
    slh_dsa_set each;

    for (each = SLH_DSA_SHA2_128S; each <= SLH_DSA_SHA2_256F; each++) {
        const size_t head_bytes = slh_dsa_key_head(each, is_signing, head);
        const size_t key_bytes =
            is_signing ? slh_dsa_signing_key_bytes(each) : slh_dsa_verifying_key_bytes(each);
        size_t at = 0;

        if (der_bytes != head_bytes + key_bytes)
            continue;
        while (at < head_bytes && der[at] == head[at])
            at++;
        if (at != head_bytes)
            continue;
        *set = each;
        for (at = 0; at < key_bytes; at++)
            key[at] = der[head_bytes + at];
        return SLH_DSA_OK;
    }
    return SLH_DSA_FORM;
}

SLH_DSA_INLINE slh_dsa_status slh_dsa_key_of_pem(
    const char *pem, size_t pem_bytes, int is_signing, slh_dsa_set *set, uint8_t *key)
{
    const char *label = is_signing ? "PRIVATE KEY-----" : "PUBLIC KEY-----";
    uint8_t der[SLH_DSA_KEY_HEAD_MAX_BYTES + SLH_DSA_MAX_SIGNING_KEY_BYTES];
    volatile uint8_t *secret = der;
    size_t body, end, at;
    slh_dsa_status status;

    body = slh_dsa_find(pem, pem_bytes, 0, "-----BEGIN ");
    if (body == 0 || slh_dsa_find(pem, pem_bytes, body, "-----BEGIN ") != 0)
        return SLH_DSA_FORM;
    body = slh_dsa_behind(pem, pem_bytes, body, label);
    end = slh_dsa_find(pem, pem_bytes, body, "-----END ");
    if (body == 0 || end == 0 || slh_dsa_behind(pem, pem_bytes, end, label) == 0)
        return SLH_DSA_FORM;
    end -= sizeof "-----END " - 1;
    at = slh_dsa_from_base64(pem + body, end - body, der, sizeof der);
    status = slh_dsa_key_of_der(der, at, is_signing, set, key);
    for (at = 0; at < sizeof der; at++)
        secret[at] = 0;
    return status;
}

/* Reads a signing key (PRIVATE KEY, PKCS #8), and writes its set and its bytes, 4n of them: there
 * has to be room for SLH_DSA_MAX_SIGNING_KEY_BYTES. Its root isn't looked at, which
 * slh_dsa_sha2_check_key does. OK; FORM, and nothing is written. */
SLH_DSA_MUST_CHECK SLH_DSA_NONNULL SLH_DSA_INLINE slh_dsa_status slh_dsa_signing_key_of_pem(
    const char *pem, size_t pem_bytes, slh_dsa_set *set, uint8_t *signing_key)
{
    return slh_dsa_key_of_pem(pem, pem_bytes, 1, set, signing_key);
}

/* The same of a verifying key (PUBLIC KEY, SubjectPublicKeyInfo), with 2n bytes and room for
 * SLH_DSA_MAX_VERIFYING_KEY_BYTES. */
SLH_DSA_MUST_CHECK SLH_DSA_NONNULL SLH_DSA_INLINE slh_dsa_status slh_dsa_verifying_key_of_pem(
    const char *pem, size_t pem_bytes, slh_dsa_set *set, uint8_t *verifying_key)
{
    return slh_dsa_key_of_pem(pem, pem_bytes, 0, set, verifying_key);
}

/* A VERDICT FOR BOOT LOADERS. It verifies twice, so it takes twice the time, and answers one of two
 * numbers that differ in each bit; slh_dsa_is_accepted compares it twice. That is meant against a
 * skipped instruction or a flipped bit, and wasn't tried against such faults. */
typedef uint32_t slh_dsa_verdict;

#define SLH_DSA_VERDICT_ACCEPTED 0x3ca5965aUL
#define SLH_DSA_VERDICT_REFUSED 0xc35a69a5UL

SLH_DSA_MUST_CHECK SLH_DSA_NONNULL SLH_DSA_INLINE slh_dsa_verdict slh_dsa_sha2_verdict(
    slh_dsa_set set, slh_dsa_mode mode,
    const uint8_t *verifying_key, size_t verifying_key_bytes,
    const uint8_t *message, size_t message_bytes,
    const uint8_t *context, size_t context_bytes,
    const uint8_t *signature, size_t signature_bytes)
{
    volatile slh_dsa_verdict verdict = SLH_DSA_VERDICT_REFUSED;
    volatile slh_dsa_status first = SLH_DSA_INVALID, second = SLH_DSA_INVALID;

    first = slh_dsa_sha2_verify(
        set, mode, verifying_key, verifying_key_bytes, message, message_bytes,
        context, context_bytes, signature, signature_bytes);
    if (first != SLH_DSA_OK)
        return SLH_DSA_VERDICT_REFUSED;
    second = slh_dsa_sha2_verify(
        set, mode, verifying_key, verifying_key_bytes, message, message_bytes,
        context, context_bytes, signature, signature_bytes);
    if (second == SLH_DSA_OK && first == SLH_DSA_OK)
        verdict = SLH_DSA_VERDICT_ACCEPTED;
    return verdict;
}

/* Whether a verdict is the good one, looked at twice. */
SLH_DSA_MUST_CHECK SLH_DSA_INLINE int slh_dsa_is_accepted(slh_dsa_verdict verdict)
{
    volatile slh_dsa_verdict given = verdict;

    if (given != SLH_DSA_VERDICT_ACCEPTED)
        return 0;
    return (given ^ SLH_DSA_VERDICT_REFUSED) == 0xffffffffUL;
}

/* TEXTS. What a status says, for people. */
SLH_DSA_MUST_CHECK SLH_DSA_INLINE const char *slh_dsa_status_text(slh_dsa_status status)
{
    switch (status) {
    case SLH_DSA_OK: return "done";
    case SLH_DSA_INVALID: return "the signature is not one of this message under this key";
    case SLH_DSA_FOREIGN: return "the signature is accepted, but the key does not make it";
    case SLH_DSA_NOT_SHOWN: return "the evidence does not show";
    case SLH_DSA_KEY_MISMATCH: return "the root of the key is not that of its seeds";
    case SLH_DSA_LENGTH: return "the seeds, a key, the digest or the signature have a wrong length";
    case SLH_DSA_CONTEXT_TOO_LONG: return "the context has more than 255 bytes";
    case SLH_DSA_RANDOMIZER_LENGTH: return "the randomizer has a wrong length";
    case SLH_DSA_MESSAGE_TOO_LONG: return "the message has more than 2^60 bytes";
    case SLH_DSA_UNKNOWN_SET: return "no such parameter set";
    case SLH_DSA_UNKNOWN_MODE: return "no such mode";
    case SLH_DSA_UNKNOWN_EVIDENCE: return "no such evidence";
    case SLH_DSA_STATE: return "the state is not one of this call, key or signature";
    case SLH_DSA_FORM: return "the bytes do not have the form";
    case SLH_DSA_BUDGET: return "a link delegates deeper than it may";
    case SLH_DSA_NO_ENTRY: return "no such entry";
    case SLH_DSA_ORIGIN: return "the checkpoint is of another log";
    case SLH_DSA_UNSIGNED: return "the checkpoint has no signature of this key";
    case SLH_DSA_EMPTY: return "the old log has no entries";
    case SLH_DSA_SMALLER: return "the new log has fewer entries than the old";
    case SLH_DSA_CHANGED: return "the second pass was over other bytes than the first";
    default: return "no such status";
    }
}

/* The name of a set (FIPS 205, section 11), no characters where none has the number. */
SLH_DSA_MUST_CHECK SLH_DSA_INLINE const char *slh_dsa_set_name(slh_dsa_set set)
{
    switch (set) {
    case SLH_DSA_SHA2_128S: return "SLH-DSA-SHA2-128s";
    case SLH_DSA_SHA2_128F: return "SLH-DSA-SHA2-128f";
    case SLH_DSA_SHA2_192S: return "SLH-DSA-SHA2-192s";
    case SLH_DSA_SHA2_192F: return "SLH-DSA-SHA2-192f";
    case SLH_DSA_SHA2_256S: return "SLH-DSA-SHA2-256s";
    case SLH_DSA_SHA2_256F: return "SLH-DSA-SHA2-256f";
    default: return "";
    }
}

/* The set of a name, 0 where none has it: each call answers UNKNOWN_SET to that. */
SLH_DSA_MUST_CHECK SLH_DSA_NONNULL SLH_DSA_INLINE slh_dsa_set slh_dsa_set_named(const char *name)
{
    slh_dsa_set set;

    for (set = SLH_DSA_SHA2_128S; set <= SLH_DSA_SHA2_256F; set++) {
        const char *own = slh_dsa_set_name(set);
        size_t at = 0;

        while (own[at] != '\0' && own[at] == name[at])
            at++;
        if (own[at] == name[at])
            return set;
    }
    return 0;
}

#endif
