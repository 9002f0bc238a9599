/*
 * What calls.c checks by: what has to be so, what has to be refused with an error's text, and
 * memory that is counted and that fails where it is told to.
 */
#ifndef CHECKS_H
#define CHECKS_H

#include <malloc.h>
#include <openssl/err.h>
#include <pthread.h>
#include <stdio.h>
#include <stdlib.h>
#include <string.h>

static int failures, checks;

/* All that stands on the queue of errors, which is empty then. */
static const char *errors(void)
{
    static char all[4096];
    const char *data;
    unsigned long code;
    size_t at = 0;
    int flags;

    all[0] = '\0';
    while ((code = ERR_get_error_all(NULL, NULL, NULL, &data, &flags)) != 0 && at < 3000) {
        const char *reason = ERR_reason_error_string(code);

        at += (size_t)snprintf(all + at, 1000, "%s: %s\n", reason == NULL ? "" : reason,
                               (flags & ERR_TXT_STRING) != 0 ? data : "");
    }
    return all;
}

static void check(int good, int line, const char *what)
{
    const char *all = errors();

    checks++;
    if (!good) {
        failures++;
        printf("line %d: not so: %s\n%s", line, what, all);
    }
}

/* A call is refused, and an error says why. */
static void check_refused(int done, const char *text, int line, const char *what)
{
    const char *all = errors();

    checks++;
    if (done || strstr(all, text) == NULL) {
        failures++;
        printf("line %d: %s: %s, and not: %s\n%s", line, done ? "not refused" : "refused", what,
               text, all);
    }
}

#define CHECK(what) check((what) != 0, __LINE__, #what)
#define REFUSED(text, what) (ERR_clear_error(), check_refused((what) != 0, text, __LINE__, #what))

/* Memory, with the bytes that are there, the most that were there at once, and one that fails. */
static long fail_at, allocations;
static size_t held, most_held;
static pthread_mutex_t memory = PTHREAD_MUTEX_INITIALIZER;

static int allocation_fails(void)
{
    int fails;

    pthread_mutex_lock(&memory);
    fails = fail_at != 0 && ++allocations == fail_at;
    pthread_mutex_unlock(&memory);
    return fails;
}

static void count(size_t more, size_t less)
{
    pthread_mutex_lock(&memory);
    held += more;
    held -= less;
    most_held = held > most_held ? held : most_held;
    pthread_mutex_unlock(&memory);
}

static void *get_memory(size_t bytes, const char *file, int line)
{
    void *at = bytes == 0 || allocation_fails() ? NULL : malloc(bytes);

    (void)file, (void)line;
    count(malloc_usable_size(at), 0);
    return at;
}

static void put_memory(void *at, const char *file, int line)
{
    (void)file, (void)line;
    count(0, malloc_usable_size(at));
    free(at);
}

static void *get_more_memory(void *at, size_t bytes, const char *file, int line)
{
    size_t before = malloc_usable_size(at);
    void *moved;

    if (bytes == 0) {
        put_memory(at, file, line);
        return NULL;
    }
    if (allocation_fails() || (moved = realloc(at, bytes)) == NULL)
        return NULL;
    count(malloc_usable_size(moved), before);
    return moved;
}

#endif
