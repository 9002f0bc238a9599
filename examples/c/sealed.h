/*
 * What an updater reads, made under a key for the tests: bytes that are put one after the other,
 * with a signature behind them, or as a log's checkpoint.
 */
#ifndef SEALED_H
#define SEALED_H

#include <string.h>

#include "slh_dsa.h"

struct sealed {
    slh_dsa_set set;
    const uint8_t *key;
    uint8_t *at; /* there is room for three signatures */
    size_t bytes;
};

static inline void put(struct sealed *to, const void *bytes, size_t count)
{
    memcpy(to->at + to->bytes, bytes, count);
    to->bytes += count;
}

static inline void put_base64(struct sealed *to, const uint8_t *from, size_t bytes)
{
    static const char symbols[] =
        "ABCDEFGHIJKLMNOPQRSTUVWXYZabcdefghijklmnopqrstuvwxyz0123456789+/";

    for (size_t at = 0; at < bytes; at += 3) {
        size_t left = bytes - at;
        uint32_t three = (uint32_t)from[at] << 16 | (left > 1 ? (uint32_t)from[at + 1] << 8 : 0) |
                         (left > 2 ? from[at + 2] : 0);
        char four[4];

        for (int i = 0; i < 4; i++)
            four[i] = symbols[three >> (18 - 6 * i) & 63];
        memset(four + (left < 3 ? left + 1 : 4), '=', left < 3 ? 3 - left : 0);
        put(to, four, 4);
    }
}

/* Signs what was put, and writes the signature behind it. */
static inline slh_dsa_status seal(struct sealed *to, const char *context)
{
    size_t bytes = slh_dsa_sha2_signature_bytes(to->set);
    slh_dsa_status status = slh_dsa_sha2_sign_deterministic(
        to->set, SLH_DSA_PURE, to->key, 4 * slh_dsa_sha2_n(to->set), to->at, to->bytes,
        (const uint8_t *)context, strlen(context), to->at + to->bytes, bytes);

    to->bytes += bytes;
    return status;
}

/* Puts the checkpoint of a log of an origin, whose size is written in decimal digits. The id of the
 * key is the beginning of SHA-256 of the origin, LF, ff, the set's name, LF and the verifying
 * key. */
static inline slh_dsa_status seal_checkpoint(struct sealed *to, const char *origin,
                                             const char *size, const uint8_t root[32],
                                             const uint8_t id[4])
{
    static uint8_t signed_by[4 + SLH_DSA_MAX_SIGNATURE_BYTES];
    slh_dsa_status status;
    size_t end;

    put(to, origin, strlen(origin));
    put(to, "\n", 1);
    put(to, size, strlen(size));
    put(to, "\n", 1);
    put_base64(to, root, 32);
    put(to, "\n", 1);
    end = to->bytes;
    status = seal(to, "slh-log");
    memcpy(signed_by, id, 4);
    memcpy(signed_by + 4, to->at + end, to->bytes - end);
    to->bytes = end;
    put(to, "\n\xe2\x80\x94 ", 5);
    put(to, origin, strlen(origin));
    put(to, " ", 1);
    put_base64(to, signed_by, 4 + slh_dsa_sha2_signature_bytes(to->set));
    put(to, "\n", 1);
    return status;
}

#endif
