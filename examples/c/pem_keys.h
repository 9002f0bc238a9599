/*
 * Holds the readers of PEM in slh_dsa_inline.h to keys that OpenSSL made: a text with all of them,
 * a signing and a verifying key of each set in turn, and their DER, one behind the other, as
 * `base64` has it. It is included by inline.c, which has WANT.
 */
#ifndef PEM_KEYS_H
#define PEM_KEYS_H

enum { PEM_ROOM = 4096, NO_SET = 77 };

/* What a reader answers, and what it writes. */
struct pem_read {
    slh_dsa_status status;
    slh_dsa_set set;
    uint8_t key[SLH_DSA_MAX_SIGNING_KEY_BYTES];
};

/* The text is in memory of exactly its size. */
static struct pem_read read_pem(const char *text, size_t bytes, int is_signing)
{
    struct pem_read found = {0, NO_SET, {0}};
    char *exact = malloc(bytes == 0 ? 1 : bytes);

    if (exact == NULL)
        abort();
    memcpy(exact, text, bytes);
    memset(found.key, 0x5a, sizeof found.key);
    found.status = is_signing ? slh_dsa_signing_key_of_pem(exact, bytes, &found.set, found.key)
                              : slh_dsa_verifying_key_of_pem(exact, bytes, &found.set, found.key);
    free(exact);
    return found;
}

static int is_refused(struct pem_read found)
{
    int untouched = found.set == NO_SET;

    for (size_t at = 0; at < sizeof found.key; at++)
        untouched &= found.key[at] == 0x5a;
    return found.status == SLH_DSA_FORM && untouched;
}

/* A text that is made of others. */
struct pem_text {
    char at[PEM_ROOM];
    size_t bytes;
};

static void append(struct pem_text *to, const char *text, size_t bytes)
{
    if (bytes > PEM_ROOM - to->bytes)
        abort();
    memcpy(to->at + to->bytes, text, bytes);
    to->bytes += bytes;
}

/* One key: its block, where the lines of digits begin and end in that, and what it is. */
struct pem_key {
    const char *text;
    size_t bytes, digits, end;
    int is_signing;
    struct pem_read wanted;
};

static int is_key(const struct pem_key *key, const char *text, size_t bytes)
{
    const struct pem_read found = read_pem(text, bytes, key->is_signing);

    return memcmp(&found, &key->wanted, sizeof found) == 0;
}

/* The key in a text with others around it, and with other ends of lines. */
static void pem_is_read(const struct pem_key *key)
{
    static const char *const before[] = {"",         "x",  "--", "-----BEGIN",
                                         "a key:\n", "\n\n", "-----END -----\n"};
    static const char *const blanks[] = {"", " ", "\t \r\n", "\n\n"};

    WANT(is_refused(read_pem(key->text, key->bytes, !key->is_signing)));
    for (size_t i = 0; i < sizeof before / sizeof *before; i++)
        for (int more = 0; more < 2; more++) {
            struct pem_text text = {{0}, 0};

            append(&text, before[i], strlen(before[i]));
            append(&text, key->text, key->bytes);
            append(&text, before[i], more ? strlen(before[i]) : 0);
            WANT(is_key(key, text.at, text.bytes));
        }
    for (size_t i = 0; i < sizeof blanks / sizeof *blanks; i++) {
        struct pem_text text = {{0}, 0};

        append(&text, key->text, key->digits);
        for (size_t at = key->digits; at < key->end; at++) {
            append(&text, blanks[i], strlen(blanks[i]));
            append(&text, key->text + at, key->text[at] != '\n');
        }
        append(&text, key->text + key->end, key->bytes - key->end);
        WANT(is_key(key, text.at, text.bytes));
    }
}

/* Another character gives another key, or none. In the last digits each one is tried, since some of
 * their bits are no part of a byte. */
static void pem_is_bent(const struct pem_key *key)
{
    static const char others[] =
        "!A=-bABCDEFGHIJKLMNOPQRSTUVWXYZabcdefghijklmnopqrstuvwxyz0123456789+/";
    struct pem_text text = {{0}, 0};

    append(&text, key->text, key->bytes);
    for (size_t at = 0; at + 1 < key->bytes; at++) {
        const size_t count = at + 6 > key->end && at < key->end ? sizeof others - 1 : 5;

        if (text.at[at] == '\n')
            continue;
        for (size_t i = 0; i < count; i++) {
            text.at[at] = others[i];
            WANT(others[i] == key->text[at] || !is_key(key, text.at, text.bytes));
        }
        text.at[at] = ' ';
        WANT(key->text[at] == ' ' || is_refused(read_pem(text.at, text.bytes, key->is_signing)));
        text.at[at] = key->text[at];
    }
    for (size_t cut = 0; cut + 1 < key->bytes; cut++)
        WANT(is_refused(read_pem(key->text, cut, key->is_signing)));
}

/* More digits than there are, and other blocks beside the key's. */
static void pem_is_more(const struct pem_key *key, const char *all, size_t all_bytes)
{
    static const char *const more[] = {"A", "AA", "AAA", "AAAA", "A===", "=", "==", "===", "===="};
    static const char *const other = "-----BEGIN X-----\n-----END X-----\n";
    struct pem_text text = {{0}, 0};

    for (size_t i = 0; i < sizeof more / sizeof *more; i++) {
        text.bytes = 0;
        append(&text, key->text, key->end);
        append(&text, more[i], strlen(more[i]));
        append(&text, key->text + key->end, key->bytes - key->end);
        WANT(is_refused(read_pem(text.at, text.bytes, key->is_signing)));
    }
    text.bytes = 0;
    append(&text, key->text, key->end);
    for (int i = 0; i < 64; i++)
        append(&text, "AAAA", 4);
    append(&text, key->text + key->end, key->bytes - key->end);
    WANT(is_refused(read_pem(text.at, text.bytes, key->is_signing)));
    for (int first = 0; first < 2; first++) {
        text.bytes = 0;
        append(&text, other, first ? strlen(other) : 0);
        append(&text, key->text, key->bytes);
        append(&text, other, first ? 0 : strlen(other));
        WANT(is_refused(read_pem(text.at, text.bytes, key->is_signing)));
    }
    WANT(is_refused(read_pem(all, all_bytes, key->is_signing)));
}

/* A block without its end, behind its label, and one that begins behind its end. */
static void pem_is_out_of_order(const struct pem_key *key)
{
    const char *label = key->is_signing ? "PRIVATE KEY-----" : "PUBLIC KEY-----";
    struct pem_text text = {{0}, 0};

    append(&text, label, strlen(label));
    append(&text, key->text, key->end);
    WANT(is_refused(read_pem(text.at, text.bytes, key->is_signing)));
    text.bytes = 0;
    append(&text, key->text + key->digits, key->bytes - key->digits);
    append(&text, "-----BEGIN X-----\n", 18);
    WANT(is_refused(read_pem(text.at, text.bytes, key->is_signing)));
}

/* Base64 by itself: what is none has no bytes. */
static void base64_is_read(void)
{
    static const char *const none[] = {"",    "\n",   "=",    "*",       "A",
                                       "QQ=", "QQ=A", "QR==", "QUJDRA==", "QQ"};
    uint8_t bytes[3];

    for (size_t i = 0; i < sizeof none / sizeof *none; i++)
        WANT(slh_dsa_from_base64(none[i], strlen(none[i]), bytes, sizeof bytes) == 0);
    WANT(slh_dsa_from_base64("QUJD", 4, bytes, sizeof bytes) == 3 && memcmp(bytes, "ABC", 3) == 0);
    WANT(slh_dsa_from_base64(" QQ= =", 6, bytes, 1) == 1 && bytes[0] == 'A');
}

static const char *pem_place(const char *text, const char *word)
{
    const char *at = strstr(text, word);

    if (at == NULL)
        abort();
    return at;
}

/* All keys, by their text, which a NUL ends, and by their DER. */
static void keys_in_pem(const char *text, const uint8_t *der)
{
    static const size_t signing[] = {64, 64, 96, 96, 128, 128};
    const char *at = text;

    for (int i = 0; i < 12; i++) {
        const int is_signing = i % 2 == 0;
        const size_t before = !is_signing ? 18 : i / 2 < 4 ? 20 : 22;
        const size_t bytes = signing[i / 2] / (is_signing ? 1 : 2);
        struct pem_key key = {at, 0, 0, 0, is_signing, {SLH_DSA_OK, (slh_dsa_set)i / 2 + 1, {0}}};

        key.digits = (size_t)(pem_place(at, "KEY-----\n") - at) + 8;
        key.end = (size_t)(pem_place(at, "-----END") - at);
        key.bytes = (size_t)(pem_place(at + key.end, "KEY-----\n") - at) + 9;
        memset(key.wanted.key, 0x5a, sizeof key.wanted.key);
        memcpy(key.wanted.key, der + before, bytes);
        der += before + bytes;
        WANT(is_key(&key, key.text, key.bytes));
        pem_is_read(&key);
        pem_is_bent(&key);
        pem_is_more(&key, text, strlen(text));
        pem_is_out_of_order(&key);
        at += key.bytes;
    }
    WANT(*at == '\0');
    base64_is_read();
    WANT(is_refused(read_pem("", 0, 0)) && is_refused(read_pem("-----BEGIN ", 11, 1)));
}

#endif
