/*
 * A verifier without an operating system's library: it is linked with -nostdlib, and has the three
 * functions that the library wants, and nothing else. `image.h` has a key, an image and a signature
 * of it, as a boot loader finds them in flash. The status, by the one system call that it makes, is
 * 0 where the image is accepted and the same image with a bit changed is not. It verifies twice, by
 * slh_dsa_sha2_verdict, or once by the call of one set, where ONE_SET names it, or PURE_SET one that
 * takes no mode.
 */
#include "image.h"
#include "slh_dsa_inline.h"

static const uint8_t CONTEXT[] = "example.org firmware v1";
#define CONTEXT_BYTES (sizeof CONTEXT - 1)

/* The compiler may not make calls of themselves of these loops. */
void *memcpy(void *to, const void *from, size_t count)
{
    uint8_t *out = to;
    const uint8_t *in = from;

    while (count-- > 0) {
        *out++ = *in++;
        __asm__ volatile("" ::: "memory");
    }
    return to;
}

void *memmove(void *to, const void *from, size_t count)
{
    uint8_t *out = to;
    const uint8_t *in = from;

    if ((uintptr_t)out <= (uintptr_t)in)
        return memcpy(to, from, count);
    while (count-- > 0) {
        out[count] = in[count];
        __asm__ volatile("" ::: "memory");
    }
    return to;
}

void *memset(void *at, int byte, size_t count)
{
    uint8_t *out = at;

    while (count-- > 0) {
        *out++ = (uint8_t)byte;
        __asm__ volatile("" ::: "memory");
    }
    return at;
}

static slh_dsa_verdict verdict(void)
{
#if defined(PURE_SET)
    return PURE_SET(public_key, image, sizeof image, CONTEXT, CONTEXT_BYTES, signature)
                   == SLH_DSA_OK
               ? SLH_DSA_VERDICT_ACCEPTED
               : SLH_DSA_VERDICT_REFUSED;
#elif defined(ONE_SET)
    return ONE_SET(SLH_DSA_PURE, public_key, image, sizeof image, CONTEXT, CONTEXT_BYTES,
                   signature) == SLH_DSA_OK
               ? SLH_DSA_VERDICT_ACCEPTED
               : SLH_DSA_VERDICT_REFUSED;
#else
    return slh_dsa_sha2_verdict(SLH_DSA_SHA2_128F, SLH_DSA_PURE, public_key, sizeof public_key,
                                image, sizeof image, CONTEXT, CONTEXT_BYTES, signature,
                                sizeof signature);
#endif
}

static int boots(void)
{
    if (!slh_dsa_is_accepted(verdict()))
        return 0;
    image[0] ^= 1;
    return verdict() == SLH_DSA_VERDICT_REFUSED;
}

static void leave(int status)
{
#if defined(__x86_64__)
    __asm__ volatile("syscall" ::"a"(60), "D"(status) : "rcx", "r11", "memory");
#endif
    for (;;)
        (void)status;
}

__attribute__((force_align_arg_pointer, noreturn, used)) void _start(void)
{
    leave(boots() ? 0 : 1);
    for (;;)
        ;
}
