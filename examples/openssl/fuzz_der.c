/*
 * libFuzzer over the reading of DER: what is read is written and read again to the same key, and
 * the DER of a public key has one form.
 */
#include <string.h>

#include "../../providers/openssl/provider.h"

#define ALGORITHM(id, name, short_name, arc, set, mode, digest) \
    {name, short_name, #arc, digest, SLH_DSA_SHA2_##set, SLH_DSA_##mode, arc, \
     SLH_DSA_SHA2_##set##_N},
const struct algorithm algorithms[ALGORITHMS] = {FOR_EACH_ALGORITHM(ALGORITHM)};

static void read_twice(const struct algorithm *algorithm, const uint8_t *in, size_t bytes)
{
    struct key key = {NULL, algorithm, 0, {0}}, again = key;
    uint8_t der[MAX_DER_BYTES];
    size_t written;

    if (!read_der(&key, in, bytes))
        return;
    if (key.has == HAS_PUBLIC) {
        written = public_der(&key, der);
        if (written != bytes || memcmp(der, in, bytes) != 0)
            __builtin_trap();
    } else {
        written = private_der(&key, der);
    }
    if (!read_der(&again, der, written) || memcmp(&again, &key, sizeof key) != 0)
        __builtin_trap();
}

int LLVMFuzzerTestOneInput(const uint8_t *in, size_t bytes);

int LLVMFuzzerTestOneInput(const uint8_t *in, size_t bytes)
{
    for (size_t i = 0; i < ALGORITHMS; i++)
        read_twice(&algorithms[i], in, bytes);
    return 0;
}
