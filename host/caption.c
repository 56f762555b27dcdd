/* caption STORE ID: recovers the store in the folder STORE and prints the caption of the still with that ID. A short whole host for
 * lambspool.h; host/lambspool.c is a longer one, which tells what is wrong in words.
 *
 *     gcc caption.c $(pkg-config --cflags --libs lambspool) -o caption */
#include "lambspool.h"

#include <inttypes.h>
#include <stdio.h>
#include <stdlib.h>

struct file {
    uint8_t *bytes;
    size_t length;
};

/* Reads to the file's end, or to one byte more than `most`, which the call then refuses by its own number. */
static struct file read_file(const char *folder, const char *name, size_t most)
{
    char path[4096];
    struct file f = {malloc(most + 1), 0};
    FILE *in = (size_t)snprintf(path, sizeof path, "%s/%s", folder, name) < sizeof path ? fopen(path, "rb") : NULL;
    if (in != NULL && f.bytes != NULL) {
        f.length = fread(f.bytes, 1, most + 1, in);
        if (!ferror(in) && fclose(in) == 0)
            return f;
    }
    perror(path);
    exit(2);
}

/* Tables for as many records as a store can have. */
static uint64_t rows[LAMBSPOOL_ROW_WORDS];
static uint32_t active[LAMBSPOOL_ACTIVE_ENTRIES];

int main(int count, char **words)
{
    struct file log, snapshot;
    lambspool_recovery r;
    lambspool_found found;
    lambspool_part caption;
    uint64_t id;
    char rest;
    if (count != 3 || sscanf(words[2], "%" SCNu64 "%c", &id, &rest) != 1) {
        fputs("usage: caption STORE ID\n", stderr);
        return 2;
    }
    /* The log first: of a store in use it is then at worst older than the snapshot, and its frames are skipped. */
    log = read_file(words[1], "wal.bin", LAMBSPOOL_MAX_LOG);
    snapshot = read_file(words[1], "snapshot.bin", LAMBSPOOL_MAX_SNAPSHOT);

    lambspool_recover(&r, snapshot.bytes, snapshot.length, log.bytes, log.length, rows, LAMBSPOOL_ROW_WORDS, active, LAMBSPOOL_ACTIVE_ENTRIES);
    if (r.number != LAMBSPOOL_ACCEPTED) {
        printf("refused by %" PRIu32 "\n", r.number);
        return 1;
    }
    found = lambspool_lookup(rows, LAMBSPOOL_ROW_WORDS, r.records, id);
    if (found.node == LAMBSPOOL_NO_NODE) {
        puts("no such still");
        return 1;
    }
    lambspool_caption(&caption, snapshot.bytes, snapshot.length, log.bytes, log.length, rows, LAMBSPOOL_ROW_WORDS, r.records, found.node, r.dimensions);
    fwrite((caption.source == LAMBSPOOL_LOG ? log.bytes : snapshot.bytes) + caption.at, 1, caption.length, stdout);
    putchar('\n');
    free(snapshot.bytes);
    free(log.bytes);
    return fflush(stdout) != 0 ? 2 : 0;
}
