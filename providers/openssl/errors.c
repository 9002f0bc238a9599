/*
 * Errors, told by the core: so they stand on the queue that the application reads, whichever
 * libcrypto it has.
 */
#include <stdarg.h>
#include <stddef.h>

#include "provider.h"

void raise_at(const struct provider *provider, const char *file, int line, const char *function,
              enum reason reason, const char *format, ...)
{
    va_list arguments;

    provider->new_error(provider->core);
    provider->set_error_debug(provider->core, file, line, function);
    va_start(arguments, format);
    provider->vset_error(provider->core, reason, format, arguments);
    va_end(arguments);
}

const OSSL_ITEM *reason_strings(void *provider)
{
#define STRING_OF(name, text) {name, (void *)(uintptr_t)text},
    static const OSSL_ITEM strings[] = {FOR_EACH_REASON(STRING_OF){0, NULL}};

    (void)provider;
    return strings;
}
