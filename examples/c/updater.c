/*
 * A boot loader and an updater for a device without an operating system, with two slots in flash and
 * a counter that only grows. An image runs only where it was verified in its slot, from the root key
 * in ROM on. rom.h has root_key, the bytes of a key of SET; flash.h is a file that stands for flash.
 *
 *   updater boot FLASH             writes the image that boots to standard output
 *   updater install FLASH UPDATE   writes an update into the slot that doesn't boot
 *   updater confirm FLASH          what an image calls that works: from now on none older boots
 *
 * An update, and what a slot has: the version, the lengths of the chain and the manifest (4 bytes
 * each, the highest first), the chain, the manifest, the image's signature, the image. The manifest
 * and the context of the signature name the image by MODEL and the version in decimal.
 *
 * The status is 0; 1 where something is refused, 2 where a file can't be used, 3 where power failed.
 */
#define _XOPEN_SOURCE 700
#include "flash.h"
#include "slh_dsa.h"

#include "rom.h"

/* A set of category 1, since a manifest has digests by SHA-256. */
#ifndef SET
#define SET SLH_DSA_SHA2_128S
#endif
#define MODEL "thermostat/"

#define JOINED(set, what) set##what
#define OF_SET(set, what) JOINED(set, what)

enum {
    KEY_BYTES = OF_SET(SET, _VERIFYING_KEY_BYTES),
    SIGNATURE_BYTES = OF_SET(SET, _SIGNATURE_BYTES),
    HEADER_BYTES = 12,
    LINK_BYTES = 2 + 64 + KEY_BYTES + SIGNATURE_BYTES, /* at most */
    NO_SLOT = -1
};

_Static_assert(sizeof root_key == KEY_BYTES, "the root key is of another set");

/* Where bytes stand: a slot, or the update as it came. */
struct area {
    int file;
    uint64_t at, bytes;
};

struct image {
    uint32_t version;
    char name[sizeof MODEL + 10];
    size_t name_bytes;
    uint8_t key[KEY_BYTES]; /* the one at the end of the chain */
    uint64_t at, end;       /* in the area */
};

/* First a chain of two links, then a manifest in its place, then the image's signature. */
static uint8_t front[2 * LINK_BYTES];
static uint8_t piece[PAGE_BYTES];

static int holds(const struct area *area, uint64_t at, uint64_t count)
{
    return at <= area->bytes && count <= area->bytes - at;
}

/* Reads a part of an area into `front`, if it is there and has room. */
static int load(const struct area *area, uint64_t at, uint32_t count)
{
    if (count > sizeof front || !holds(area, at, count))
        return 0;
    read_file(area->file, area->at + at, front, count);
    return 1;
}

/* Reads the next piece before the end, and tells its length. */
static size_t next_piece(const struct area *area, uint64_t at, uint64_t end)
{
    uint64_t rest = at < end ? end - at : 0;
    size_t count = rest < sizeof piece ? (size_t)rest : sizeof piece;

    read_file(area->file, area->at + at, piece, count);
    return count;
}

static struct area slot(int number)
{
    return (struct area){flash, (uint64_t)number * SLOT_BYTES, SLOT_BYTES};
}

static uint32_t number_at(const uint8_t *at)
{
    return (uint32_t)at[0] << 24 | (uint32_t)at[1] << 16 | (uint32_t)at[2] << 8 | at[3];
}

/* The least version that may run: as many bytes of the counter's page as are programmed. They are
 * programmed in their order, so a cut leaves a number between the old and the new one. */
static uint32_t least_version(void)
{
    uint32_t count = 0;

    read_file(flash, COUNTER_AT, piece, sizeof piece);
    while (count < sizeof piece && piece[count] == 0)
        count++;
    return count;
}

/* Finds the image of a version in the manifest in `front`, and its length and digest. */
static int find(struct image *image, uint32_t manifest_bytes, slh_manifest_file *file)
{
    int count = snprintf(image->name, sizeof image->name, MODEL "%lu",
                         (unsigned long)image->version);

    image->name_bytes = (size_t)count;
    return slh_manifest_find(front, manifest_bytes, (const uint8_t *)image->name,
                             image->name_bytes, file) == SLH_DSA_OK;
}

/* Verifies all that stands before an image, and leaves the signature in `front`. Answers NULL, or
 * what is refused. */
static const char *check_front(const struct area *area, struct image *image)
{
    uint32_t chain_bytes, manifest_bytes, entries;
    slh_chain_end end;
    slh_manifest_file file;

    if (!load(area, 0, HEADER_BYTES))
        return "the header";
    image->version = number_at(front);
    chain_bytes = number_at(front + 4);
    manifest_bytes = number_at(front + 8);
    image->at = HEADER_BYTES;
    if (!load(area, image->at, chain_bytes) ||
        slh_chain_walk(SET, root_key, sizeof root_key, front, chain_bytes, image->key,
                       sizeof image->key, &end) != SLH_DSA_OK)
        return "the chain";
    image->at += chain_bytes;
    if (!load(area, image->at, manifest_bytes) ||
        slh_manifest_open(SET, image->key, sizeof image->key, front, manifest_bytes, &entries) !=
            SLH_DSA_OK)
        return "the manifest";
    image->at += manifest_bytes;
    if (!find(image, manifest_bytes, &file))
        return "the name";
    if (image->version < least_version() || image->version > PAGE_BYTES)
        return "the version";
    if (!load(area, image->at, SIGNATURE_BYTES) ||
        !holds(area, image->at + SIGNATURE_BYTES, file.file_bytes))
        return "the length";
    image->at += SIGNATURE_BYTES;
    image->end = image->at + file.file_bytes;
    if (slh_dsa_sha2_verify_digest(SET, SLH_DSA_PREHASH_SHA256, image->key, sizeof image->key,
                                   file.digest, sizeof file.digest, (const uint8_t *)image->name,
                                   image->name_bytes, front, SIGNATURE_BYTES) != SLH_DSA_OK)
        return "the signature";
    return NULL;
}

/* Verifies an image in pieces, by the signature in `front`. That was accepted for the digest in the
 * manifest: so the image has this digest, or the signature is forged. */
static const char *check_image(const struct area *area, const struct image *image)
{
    slh_dsa_verifier verifier;
    uint64_t at = image->at;
    size_t count;
    slh_dsa_status status = slh_dsa_sha2_verify_begin(
        &verifier, SET, SLH_DSA_PREHASH_SHA256, image->key, sizeof image->key,
        (const uint8_t *)image->name, image->name_bytes, front, SIGNATURE_BYTES);

    while (status == SLH_DSA_OK && (count = next_piece(area, at, image->end)) > 0) {
        status = slh_dsa_sha2_verify_update(&verifier, piece, count);
        at += count;
    }
    if (status == SLH_DSA_OK)
        status = slh_dsa_sha2_verify_finish(&verifier, front, SIGNATURE_BYTES);
    return status == SLH_DSA_OK ? NULL : "the image";
}

static const char *check(struct area area, struct image *image)
{
    const char *refused = check_front(&area, image);

    return refused != NULL ? refused : check_image(&area, image);
}

/* What a slot says of itself, before anything is verified. */
static uint32_t said_version(int number)
{
    read_file(flash, slot(number).at, piece, 4);
    return number_at(piece);
}

/* The slot that boots: the newer one if it is verified, else the other. Nothing else tells which it
 * is, so no cut can leave that half written. */
static int booting_slot(struct image *image)
{
    int newer = said_version(1) > said_version(0);

    if (check(slot(newer), image) == NULL)
        return newer;
    return check(slot(!newer), image) == NULL ? !newer : NO_SLOT;
}

static int refuse(const char *what)
{
    fprintf(stderr, "refused: %s\n", what);
    return 1;
}

static int tell(const char *what, const struct image *image, int number)
{
    fprintf(stderr, "%s version %lu in slot %c\n", what, (unsigned long)image->version,
            "AB"[number]);
    return 0;
}

/* Nothing is erased for an update that is refused by what stands before its image. */
static int install(const char *path)
{
    struct area update = {-1, 0, 0}, to;
    struct image image;
    const char *refused;
    size_t count;
    int number;

    update.file = open_file(path, O_RDONLY, &update.bytes);
    refused = update.bytes > SLOT_BYTES ? "the length" : check_front(&update, &image);
    if (refused != NULL)
        return refuse(refused);
    number = booting_slot(&image) == 0 ? 1 : 0;
    to = slot(number);
    for (uint64_t at = 0; at < SLOT_BYTES; at += PAGE_BYTES) {
        flash_erase(to.at + at);
        if ((count = next_piece(&update, at, update.bytes)) > 0)
            flash_program(to.at + at, piece, count);
    }
    refused = check(to, &image);
    return refused != NULL ? refuse(refused) : tell("installed", &image, number);
}

/* A device jumps to the image here. */
static int boot(void)
{
    struct image image;
    int number = booting_slot(&image);
    struct area from = slot(number == 1);
    size_t count;

    if (number == NO_SLOT)
        return refuse("both slots");
    for (; (count = next_piece(&from, image.at, image.end)) > 0; image.at += count)
        fwrite(piece, 1, count, stdout);
    return tell("booted", &image, number);
}

static int confirm(void)
{
    struct image image;
    int number = booting_slot(&image);
    uint32_t least = least_version();

    if (number == NO_SLOT)
        return refuse("both slots");
    memset(piece, 0, sizeof piece);
    if (image.version > least)
        flash_program(COUNTER_AT + least, piece, image.version - least);
    return tell("confirmed", &image, number);
}

int main(int argc, char **argv)
{
    if (argc > 2)
        flash_open(argv[2]);
    if (argc == 3 && strcmp(argv[1], "boot") == 0)
        return boot();
    if (argc == 4 && strcmp(argv[1], "install") == 0)
        return install(argv[3]);
    if (argc == 3 && strcmp(argv[1], "confirm") == 0)
        return confirm();
    fputs("usage: updater boot FLASH | install FLASH UPDATE | confirm FLASH\n", stderr);
    return 2;
}
