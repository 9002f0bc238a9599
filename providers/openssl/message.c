/*
 * A message that comes in pieces. The library takes whole messages, so the pieces are kept one
 * behind the other, up to `message-limit`; for a pre-hash algorithm they are hashed by libcrypto as
 * they come, and the library takes the digest.
 *
 * EVP_DigestSignFinal and its like work on a copy of the operation. Copies share a message, and who
 * adds a piece to a shared one gets one of his own first.
 */
#include <openssl/crypto.h>
#include <openssl/evp.h>
#include <stdatomic.h>
#include <string.h>

#include "provider.h"

struct message {
    atomic_size_t holders;
    size_t bytes, room; /* of the pieces that are kept */
    uint8_t *at;
    EVP_MD_CTX *hash; /* of those that are hashed, else NULL */
};

static struct message *message_new(void)
{
    struct message *message = OPENSSL_zalloc(sizeof *message);

    if (message != NULL)
        atomic_init(&message->holders, 1);
    return message;
}

void message_drop(struct message *message)
{
    if (message == NULL || atomic_fetch_sub(&message->holders, 1) > 1)
        return;
    OPENSSL_clear_free(message->at, message->bytes);
    EVP_MD_CTX_free(message->hash);
    OPENSSL_free(message);
}

struct message *message_share(struct message *message)
{
    if (message != NULL)
        atomic_fetch_add(&message->holders, 1);
    return message;
}

const uint8_t *message_read(const struct message *message, size_t *bytes)
{
    *bytes = message == NULL ? 0 : message->bytes;
    return message == NULL ? NULL : message->at;
}

int message_is_hashed(const struct message *message)
{
    return message != NULL && message->hash != NULL;
}

/* The hash goes on as it was. */
int message_digest(const struct provider *provider, const struct message *message,
                   uint8_t *digest, size_t *bytes)
{
    EVP_MD_CTX *end = EVP_MD_CTX_new();
    unsigned int size = 0;
    int done = end != NULL && EVP_MD_CTX_copy_ex(end, message->hash) &&
               EVP_DigestFinal_ex(end, digest, &size);

    EVP_MD_CTX_free(end);
    *bytes = size;
    if (!done)
        RAISE(provider, REASON_HASHING, NULL);
    return done;
}

/* Room for more bytes, twice as much as was there where the limit allows it. */
static int make_room(struct message *message, size_t more, size_t limit)
{
    size_t wanted = message->bytes + more, room = message->room;
    uint8_t *at;

    if (wanted <= room)
        return 1;
    room = room > limit / 2 ? limit : 2 * room;
    room = room < wanted ? wanted : room;
    if ((at = OPENSSL_realloc(message->at, room)) == NULL)
        return 0;
    message->at = at;
    message->room = room;
    return 1;
}

static void put(struct message *message, const uint8_t *piece, size_t bytes)
{
    if (bytes > 0)
        memcpy(message->at + message->bytes, piece, bytes);
    message->bytes += bytes;
}

static int begin_hash(const struct provider *provider, EVP_MD_CTX *hash, const char *name)
{
    EVP_MD *digest = EVP_MD_fetch(provider->libctx, name, NULL);
    int begun = digest != NULL && EVP_DigestInit_ex2(hash, digest, NULL);

    EVP_MD_free(digest);
    return begun;
}

/* Makes what a new message wants: room for the bytes of the other one and for more, or the other
 * one's hash, or one that begins. */
static int take_over(const struct provider *provider, const char *digest,
                     const struct message *other, struct message *own, size_t more)
{
    size_t bytes;
    const uint8_t *at = message_read(other, &bytes);

    if (digest == NULL) {
        if (!make_room(own, bytes + more, provider->message_limit))
            return 0;
        put(own, at, bytes);
        return 1;
    }
    return (own->hash = EVP_MD_CTX_new()) != NULL &&
           (other == NULL ? begin_hash(provider, own->hash, digest)
                          : EVP_MD_CTX_copy_ex(own->hash, other->hash));
}

/* Sees to it that `*message` is there and has no other holder. */
static int make_own(const struct provider *provider, const char *digest, struct message **message,
                    size_t more)
{
    struct message *own;

    if (*message != NULL && atomic_load(&(*message)->holders) == 1)
        return 1;
    if ((own = message_new()) == NULL)
        return 0;
    if (!take_over(provider, digest, *message, own, more)) {
        message_drop(own);
        return 0;
    }
    message_drop(*message);
    *message = own;
    return 1;
}

static int keep(const struct provider *provider, struct message **message, const uint8_t *piece,
                size_t bytes)
{
    size_t before, limit = provider->message_limit;

    (void)message_read(*message, &before);
    if (bytes > limit - before) {
        RAISE(provider, REASON_MESSAGE_LIMIT, "more than %zu bytes", limit);
        return 0;
    }
    if (!make_own(provider, NULL, message, bytes) || !make_room(*message, bytes, limit)) {
        RAISE(provider, REASON_MEMORY, "for a message of %zu bytes", before + bytes);
        return 0;
    }
    put(*message, piece, bytes);
    return 1;
}

int message_add(const struct provider *provider, const char *digest, struct message **message,
                const uint8_t *piece, size_t bytes)
{
    if (bytes == 0)
        return 1;
    if (digest == NULL)
        return keep(provider, message, piece, bytes);
    if (make_own(provider, digest, message, bytes) &&
        EVP_DigestUpdate((*message)->hash, piece, bytes))
        return 1;
    RAISE(provider, REASON_HASHING, "by %s", digest);
    return 0;
}
