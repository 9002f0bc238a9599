/*
 * A file that stands for a device's flash: two slots, and the page of a counter. A page is erased to
 * 0xff; programming clears bits, and sets none. The power fails where the environment says so: with
 * CUT=2k after k erasures and programmings, with CUT=2k+1 in the middle of the next one, of which the
 * first half is done. Then the program ends with status 3. It needs _XOPEN_SOURCE.
 */
#ifndef FLASH_H
#define FLASH_H

#include <fcntl.h>
#include <limits.h>
#include <stdint.h>
#include <stdio.h>
#include <stdlib.h>
#include <string.h>
#include <unistd.h>

enum { PAGE_BYTES = 4096, SLOT_BYTES = 32 * PAGE_BYTES, COUNTER_AT = 2 * SLOT_BYTES };

static int flash = -1;
static unsigned long halves_left = ULONG_MAX;

static inline void want(int holds, const char *what)
{
    if (!holds) {
        fprintf(stderr, "can't be used: %s\n", what);
        exit(2);
    }
}

/* Opens a file, and tells its length. */
static inline int open_file(const char *path, int flags, uint64_t *bytes)
{
    int file = open(path, flags);
    off_t end = file < 0 ? -1 : lseek(file, 0, SEEK_END);

    want(end >= 0, path);
    *bytes = (uint64_t)end;
    return file;
}

static inline void read_file(int file, uint64_t at, uint8_t *to, size_t count)
{
    want(pread(file, to, count, (off_t)at) == (ssize_t)count, "a file that ends too soon");
}

static inline void flash_open(const char *path)
{
    const char *cut = getenv("CUT");
    uint64_t bytes;

    if (cut != NULL)
        halves_left = strtoul(cut, NULL, 10);
    flash = open_file(path, O_RDWR, &bytes);
    want(bytes == COUNTER_AT + PAGE_BYTES, "a flash of another size");
}

/* All that changes the flash. */
static inline void flash_change(uint64_t at, const uint8_t *bytes, size_t count)
{
    size_t powered = halves_left > 1 ? count : halves_left == 1 ? count / 2 : 0;

    want(pwrite(flash, bytes, powered, (off_t)at) == (ssize_t)powered, "a flash that isn't written");
    if (halves_left < 2)
        exit(3);
    halves_left -= 2;
}

/* Erases the page that begins here. */
static inline void flash_erase(uint64_t at)
{
    uint8_t page[PAGE_BYTES];

    memset(page, 0xff, sizeof page);
    flash_change(at, page, sizeof page);
}

/* Programs at most a page. */
static inline void flash_program(uint64_t at, const uint8_t *bytes, size_t count)
{
    uint8_t page[PAGE_BYTES];

    read_file(flash, at, page, count);
    for (size_t i = 0; i < count; i++)
        page[i] &= bytes[i];
    flash_change(at, page, count);
}

#endif
