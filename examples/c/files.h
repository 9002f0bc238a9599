/*
 * Whole files in memory: mapped to be read, so that a file of 1 GB takes no memory of its own.
 */
#ifndef FILES_H
#define FILES_H

#include <errno.h>
#include <fcntl.h>
#include <stdint.h>
#include <stdio.h>
#include <sys/mman.h>
#include <sys/stat.h>
#include <unistd.h>

/* The bytes of a file. The pointer is never NULL, of an empty file too. */
struct mapped {
    const uint8_t *bytes;
    size_t len;
};

/* Maps a regular file, or says why not. Nobody may write to the file while it is mapped. */
static inline int map_file(const char *path, struct mapped *to)
{
    struct stat info;
    int fd = open(path, O_RDONLY | O_CLOEXEC), done = 0;

    if (fd >= 0 && fstat(fd, &info) == 0) {
        if (!S_ISREG(info.st_mode)) {
            errno = EINVAL;
        } else if (info.st_size == 0) {
            *to = (struct mapped){(const uint8_t *)"", 0};
            done = 1;
        } else {
            void *at = mmap(NULL, (size_t)info.st_size, PROT_READ, MAP_PRIVATE, fd, 0);

            if (at != MAP_FAILED) {
                *to = (struct mapped){at, (size_t)info.st_size};
                done = 1;
            }
        }
    }
    if (!done)
        perror(path);
    if (fd >= 0)
        close(fd);
    return done;
}

static inline void unmap_file(struct mapped file)
{
    if (file.len > 0)
        munmap((void *)file.bytes, file.len);
}

/* Writes a new file, or says why not. A file that is there already is refused, not written over. */
static inline int write_file(const char *path, const uint8_t *bytes, size_t count, mode_t mode)
{
    int fd = open(path, O_WRONLY | O_CREAT | O_EXCL | O_CLOEXEC, mode);
    FILE *file = fd < 0 ? NULL : fdopen(fd, "wb");
    int done = 0;

    if (file != NULL) {
        done = fwrite(bytes, 1, count, file) == count;
        done = fclose(file) == 0 && done;
    }
    if (!done)
        perror(path);
    return done;
}

#endif
