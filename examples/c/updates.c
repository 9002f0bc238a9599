/*
 * updates FOLDER: holds the calls on chains, manifests, receipts and logs to the header, over the
 * files that examples/python/update_files.py wrote there: what is accepted, each refusal, and what
 * is left unwritten. It writes "as the header says", and answers 0. Each file is in memory of
 * exactly its size, for -fsanitize=address.
 */
#include <stdio.h>
#include <stdlib.h>
#include <string.h>

#include "slh_dsa.h"

enum { SET = SLH_DSA_SHA2_128F, KEY = SLH_DSA_SHA2_128F_VERIFYING_KEY_BYTES };

struct file {
    uint8_t *at;
    size_t bytes;
};

static const char *folder;
static int failures;

static void want(int line, int holds)
{
    if (!holds) {
        printf("line %d: not so\n", line);
        failures++;
    }
}

#define WANT(holds) want(__LINE__, (holds))

static struct file file_of(const char *name)
{
    struct file file = {NULL, 0};
    char path[1024];
    FILE *in;
    long bytes;

    snprintf(path, sizeof path, "%s/%s", folder, name);
    in = fopen(path, "rb");
    if (in == NULL || fseek(in, 0, SEEK_END) != 0 || (bytes = ftell(in)) <= 0)
        abort();
    rewind(in);
    file.bytes = (size_t)bytes;
    file.at = malloc(file.bytes);
    if (file.at == NULL || fread(file.at, 1, file.bytes, in) != file.bytes)
        abort();
    fclose(in);
    return file;
}

static int is_file(const char *name, const uint8_t *at, size_t bytes)
{
    struct file file = file_of(name);
    int same = file.bytes == bytes && memcmp(file.at, at, bytes) == 0;

    free(file.at);
    return same;
}

static void chains(void)
{
    struct file root = file_of("root_key"), chain = file_of("chain"), deep = file_of("as_deep");
    struct file first = file_of("first_link");
    slh_chain_end end = {77, 77};
    uint8_t key[KEY] = {0};

#define WALK(links, links_bytes) \
    slh_chain_walk(SET, root.at, root.bytes, (links), (links_bytes), key, sizeof key, &end)

    WANT(slh_chain_walk(7, root.at, 0, chain.at, 0, key, 0, &end) == SLH_DSA_UNKNOWN_SET);
    WANT(slh_chain_walk(SET, root.at, KEY - 1, chain.at, 0, key, KEY, &end) == SLH_DSA_LENGTH);
    WANT(slh_chain_walk(SET, root.at, KEY, chain.at, 0, key, KEY - 1, &end) == SLH_DSA_LENGTH);
    WANT(WALK(chain.at, chain.bytes - 1) == SLH_DSA_FORM);
    WANT(WALK(deep.at, deep.bytes) == SLH_DSA_BUDGET);
    chain.at[first.bytes + 1000] ^= 1;
    WANT(WALK(chain.at, chain.bytes) == SLH_DSA_INVALID);
    chain.at[first.bytes + 1000] ^= 1;
    WANT(end.budget == 77 && end.links == 77 && key[0] == 0 && key[KEY - 1] == 0);
    WANT(WALK(chain.at, 0) == SLH_DSA_OK && end.budget == 16 && end.links == 0);
    WANT(memcmp(key, root.at, KEY) == 0);
    WANT(WALK(chain.at, first.bytes) == SLH_DSA_OK && end.budget == 3 && end.links == 1);
    WANT(WALK(chain.at, chain.bytes) == SLH_DSA_OK && end.budget == 0 && end.links == 2);
    WANT(is_file("end_key", key, KEY));
    free(root.at), free(chain.at), free(deep.at), free(first.at);
}

static int stands_at(struct file manifest, const slh_manifest_file *file, const char *name)
{
    return file->name_bytes == strlen(name) &&
           memcmp(manifest.at + file->name_at, name, strlen(name)) == 0;
}

static void manifests(void)
{
    static const char *const names[] = {"image", "lib/empty", "version"};
    static const uint64_t sizes[] = {8, 0, 10};
    struct file root = file_of("root_key"), manifest = file_of("manifest");
    const uint8_t *all = manifest.at;
    slh_manifest_file file, untouched;
    uint32_t entries = 77;

    memset(&file, 0x5a, sizeof file);
    untouched = file;
    WANT(slh_manifest_open(0, root.at, 0, all, 0, &entries) == SLH_DSA_UNKNOWN_SET);
    WANT(slh_manifest_open(SET, root.at, 0, all, 0, &entries) == SLH_DSA_LENGTH);
    WANT(slh_manifest_open(SET, root.at, KEY, all, manifest.bytes - 1, &entries) == SLH_DSA_FORM);
    manifest.at[manifest.bytes - 1] ^= 1;
    WANT(slh_manifest_open(SET, root.at, KEY, all, manifest.bytes, &entries) == SLH_DSA_INVALID);
    manifest.at[manifest.bytes - 1] ^= 1;
    WANT(entries == 77);
    WANT(slh_manifest_open(SET, root.at, KEY, all, manifest.bytes, &entries) == SLH_DSA_OK);
    WANT(entries == 3);
    WANT(slh_manifest_entry(all, manifest.bytes, 3, &file) == SLH_DSA_NO_ENTRY);
    WANT(slh_manifest_entry(all, manifest.bytes, UINT32_MAX, &file) == SLH_DSA_NO_ENTRY);
    WANT(slh_manifest_entry(all, 100, 0, &file) == SLH_DSA_FORM);
    WANT(slh_manifest_find(all, manifest.bytes, all, 0, &file) == SLH_DSA_NO_ENTRY);
    WANT(slh_manifest_find(all, manifest.bytes, (const uint8_t *)names[0], 4, &file) ==
         SLH_DSA_NO_ENTRY);
    WANT(slh_manifest_find(all, 0, all, 0, &file) == SLH_DSA_FORM);
    WANT(memcmp(&file, &untouched, sizeof file) == 0);
    for (uint32_t i = 0; i < entries; i++) {
        WANT(slh_manifest_entry(all, manifest.bytes, i, &file) == SLH_DSA_OK);
        WANT(stands_at(manifest, &file, names[i]) && file.file_bytes == sizes[i]);
        memset(&file, 0, sizeof file);
        WANT(slh_manifest_find(all, manifest.bytes, (const uint8_t *)names[i], strlen(names[i]),
                               &file) == SLH_DSA_OK);
        WANT(stands_at(manifest, &file, names[i]) && file.file_bytes == sizes[i]);
    }
    WANT(slh_manifest_entry(all, manifest.bytes, 0, &file) == SLH_DSA_OK);
    WANT(is_file("image_digest", file.digest, sizeof file.digest));
    free(root.at), free(manifest.at);
}

static void batches(void)
{
    struct file root = file_of("root_key"), message = file_of("message");
    struct file receipt = file_of("receipt");

#define ACCEPT(message_bytes, receipt_bytes) \
    slh_batch_accept(SET, root.at, KEY, message.at, (message_bytes), receipt.at, (receipt_bytes))

    WANT(slh_batch_accept(7, root.at, 0, message.at, 0, receipt.at, 0) == SLH_DSA_UNKNOWN_SET);
    WANT(slh_batch_accept(SET, root.at, 0, message.at, 0, receipt.at, 0) == SLH_DSA_LENGTH);
    WANT(ACCEPT(message.bytes, receipt.bytes - 1) == SLH_DSA_FORM);
    WANT(ACCEPT(((size_t)1 << 60) + 1, receipt.bytes) == SLH_DSA_MESSAGE_TOO_LONG);
    WANT(ACCEPT(message.bytes - 1, receipt.bytes) == SLH_DSA_INVALID);
    WANT(ACCEPT(message.bytes, receipt.bytes) == SLH_DSA_OK);
    free(root.at), free(message.at), free(receipt.at);
}

/* The tree of the batch is that of the log, so a path in it is, too. */
static void heads(void)
{
    struct file root = file_of("root_key"), message = file_of("message");
    struct file signed_head = file_of("signed_head"), path = file_of("presence");
    slh_batch_head head = {77, {1}};
    const slh_batch_head untouched = head;

#define OPEN(set, key_bytes, bytes) \
    slh_batch_open(set, root.at, key_bytes, signed_head.at, bytes, &head)
#define UNDER(message_bytes, index, path_bytes) \
    slh_batch_accept_under(&head, message.at, message_bytes, index, path.at, path_bytes)

    WANT(OPEN(7, 0, 0) == SLH_DSA_UNKNOWN_SET);
    WANT(OPEN(SET, KEY - 1, 0) == SLH_DSA_LENGTH);
    WANT(OPEN(SET, KEY, signed_head.bytes - 1) == SLH_DSA_FORM);
    signed_head.at[35] ^= 1;
    WANT(OPEN(SET, KEY, signed_head.bytes) == SLH_DSA_INVALID);
    WANT(memcmp(&head, &untouched, sizeof head) == 0);
    signed_head.at[35] ^= 1;
    WANT(OPEN(SET, KEY, signed_head.bytes) == SLH_DSA_OK && head.count == 7);
    WANT(signed_head.bytes == SLH_BATCH_HEAD_BYTES(SLH_DSA_SHA2_128F_SIGNATURE_BYTES));
    WANT(memcmp(head.root, signed_head.at + 4, sizeof head.root) == 0);
    WANT(UNDER(message.bytes, 2, path.bytes) == SLH_DSA_OK);
    WANT(UNDER(message.bytes - 1, 2, path.bytes) == SLH_DSA_INVALID);
    WANT(UNDER(message.bytes, 3, path.bytes) == SLH_DSA_INVALID);
    WANT(UNDER(((size_t)1 << 60) + 1, 2, path.bytes) == SLH_DSA_MESSAGE_TOO_LONG);
    WANT(UNDER(message.bytes, 7, path.bytes) == SLH_DSA_FORM);
    WANT(UNDER(message.bytes, 2, path.bytes - 32) == SLH_DSA_FORM);
    WANT(UNDER(message.bytes, 2, path.bytes - 1) == SLH_DSA_LENGTH);
    head.count = (1 << 20) + 1;
    WANT(UNDER(message.bytes, 2, path.bytes) == SLH_DSA_FORM);
    head.count = 0;
    WANT(UNDER(message.bytes, 0, 0) == SLH_DSA_FORM);
    free(root.at), free(message.at), free(signed_head.at), free(path.at);
}

/* What has the most bytes that the header tells is accepted, and nothing that would have more. */
static void longest(void)
{
    enum { N = SLH_DSA_SHA2_128F_N, SIGNATURE = SLH_DSA_SHA2_128F_SIGNATURE_BYTES };
    struct file root = file_of("root_key"), message = file_of("message");
    struct file chain = file_of("longest_chain"), manifest = file_of("longest_manifest");
    struct file receipt = file_of("longest_receipt");
    const size_t link_bytes = chain.bytes / SLH_CHAIN_MAX_LINKS;
    slh_chain_end end;
    uint8_t key[KEY], *more = malloc(chain.bytes + link_bytes);
    uint32_t entries = 0;

    if (more == NULL)
        abort();
    WANT(chain.bytes == SLH_CHAIN_MAX_BYTES(N, SIGNATURE));
    WANT(WALK(chain.at, chain.bytes) == SLH_DSA_OK && end.links == SLH_CHAIN_MAX_LINKS);
    memcpy(more, chain.at, chain.bytes);
    memcpy(more + chain.bytes, chain.at + chain.bytes - link_bytes, link_bytes);
    WANT(WALK(more, chain.bytes + link_bytes) == SLH_DSA_BUDGET);
    chain.at[1]++;
    WANT(WALK(chain.at, chain.bytes) == SLH_DSA_FORM);
    WANT(manifest.bytes == SLH_MANIFEST_MAX_BYTES(SIGNATURE));
    WANT(slh_manifest_open(SET, root.at, KEY, manifest.at, manifest.bytes, &entries) == SLH_DSA_OK);
    WANT(entries == SLH_MANIFEST_MAX_ENTRIES);
    WANT(receipt.bytes == SLH_BATCH_MAX_RECEIPT_BYTES(SIGNATURE));
    WANT(ACCEPT(message.bytes, receipt.bytes) == SLH_DSA_OK);
    receipt.at[7]++;
    WANT(ACCEPT(message.bytes, receipt.bytes) == SLH_DSA_FORM);
    free(root.at), free(message.at), free(chain.at), free(manifest.at), free(receipt.at);
    free(more);
}

static const char origin[] = "example.org/log";
static uint8_t scratch[SLH_LOG_SCRATCH_BYTES(SLH_DSA_SHA2_128F_SIGNATURE_BYTES)];

static slh_dsa_status open_log(const char *asked, struct file checkpoint, slh_log_head *head)
{
    struct file root = file_of("root_key");
    slh_dsa_status status = slh_log_open(
        SET, root.at, root.bytes, (const uint8_t *)asked, strlen(asked), checkpoint.at,
        checkpoint.bytes, scratch, sizeof scratch, head);

    free(root.at);
    return status;
}

/* Whether a head is the one of a file: the size, the lowest byte first, and the root. */
static int is_head(const char *name, const slh_log_head *head)
{
    uint8_t bytes[8 + sizeof head->root];

    for (int i = 0; i < 8; i++)
        bytes[i] = (uint8_t)(head->size >> 8 * i);
    memcpy(bytes + 8, head->root, sizeof head->root);
    return is_file(name, bytes, sizeof bytes);
}

static void open_logs(slh_log_head *old, slh_log_head *new)
{
    struct file first = file_of("checkpoint_3"), second = file_of("checkpoint_7");
    struct file root = file_of("root_key");
    const uint8_t *name = (const uint8_t *)origin;
    const slh_log_head untouched = *old;

    WANT(slh_log_open(0, root.at, 0, name, 0, first.at, 0, scratch, 0, old) ==
         SLH_DSA_UNKNOWN_SET);
    WANT(slh_log_open(SET, root.at, 0, name, 0, first.at, 0, scratch, sizeof scratch, old) ==
         SLH_DSA_LENGTH);
    WANT(slh_log_open(SET, root.at, KEY, name, 0, first.at, 0, scratch, sizeof scratch - 1, old) ==
         SLH_DSA_LENGTH);
    first.bytes--;
    WANT(open_log(origin, first, old) == SLH_DSA_FORM);
    WANT(open_log("\xff", first, old) == SLH_DSA_FORM);
    first.bytes++;
    WANT(open_log("example.org", first, old) == SLH_DSA_ORIGIN);
    WANT(open_log("\xff", first, old) == SLH_DSA_ORIGIN);
    root.at[0] ^= 1;
    WANT(slh_log_open(SET, root.at, KEY, name, strlen(origin), first.at, first.bytes, scratch,
                      sizeof scratch, old) == SLH_DSA_UNSIGNED);
    first.at[first.bytes - 5] ^= 1;
    WANT(open_log(origin, first, old) == SLH_DSA_INVALID);
    first.at[first.bytes - 5] ^= 1;
    WANT(memcmp(old, &untouched, sizeof *old) == 0);
    WANT(open_log(origin, first, old) == SLH_DSA_OK && is_head("head_of_3", old));
    WANT(open_log(origin, second, new) == SLH_DSA_OK && is_head("head_of_7", new));
    free(first.at), free(second.at), free(root.at);
}

static void check_logs(const slh_log_head *old, const slh_log_head *new)
{
    struct file entry = file_of("message"), path = file_of("presence"), growth = file_of("growth");
    const slh_log_head none = {0, {0}};

#define PRESENCE(index, entry_bytes, proof_bytes) \
    slh_log_check_presence(new, (index), entry.at, (entry_bytes), path.at, (proof_bytes))
#define GROWTH(old, new, proof_bytes) slh_log_check_growth((old), (new), growth.at, (proof_bytes))

    WANT(PRESENCE(2, entry.bytes, path.bytes) == SLH_DSA_OK);
    WANT(PRESENCE(3, entry.bytes, path.bytes) == SLH_DSA_INVALID);
    WANT(PRESENCE(2, entry.bytes - 1, path.bytes) == SLH_DSA_INVALID);
    WANT(PRESENCE(7, ((size_t)1 << 60) + 1, path.bytes - 32) == SLH_DSA_NO_ENTRY);
    WANT(PRESENCE(2, ((size_t)1 << 60) + 1, 0) == SLH_DSA_MESSAGE_TOO_LONG);
    WANT(PRESENCE(2, entry.bytes, path.bytes - 32) == SLH_DSA_LENGTH);
    WANT(PRESENCE(7, entry.bytes, path.bytes - 1) == SLH_DSA_LENGTH);
    WANT(GROWTH(old, new, growth.bytes) == SLH_DSA_OK && GROWTH(old, old, 0) == SLH_DSA_OK);
    WANT(GROWTH(&none, new, growth.bytes) == SLH_DSA_EMPTY);
    WANT(GROWTH(new, old, growth.bytes) == SLH_DSA_SMALLER);
    WANT(GROWTH(old, new, growth.bytes - 32) == SLH_DSA_LENGTH);
    WANT(GROWTH(&none, new, growth.bytes - 1) == SLH_DSA_LENGTH);
    growth.at[0] ^= 1;
    WANT(GROWTH(old, new, growth.bytes) == SLH_DSA_INVALID);
    free(entry.at), free(path.at), free(growth.at);
}

int main(int argc, char **argv)
{
    slh_log_head old = {77, {0}}, new = {77, {0}};

    if (argc != 2)
        return 2;
    folder = argv[1];
    chains();
    manifests();
    batches();
    heads();
    longest();
    open_logs(&old, &new);
    check_logs(&old, &new);
    puts(failures == 0 ? "as the header says" : "not as the header says");
    return failures != 0;
}
