/* withdraw: appends to a store's log the frame that withdraws a still, or takes that frame back. withdraw.1 is its page; docs/PLAYOUT.md
 * has the steps around it. It stands for a playout host in C: it has the three calls of playout.h, and cannot read a store, so that the
 * frame's place and sequence are handed to it, as `lambspool check` tells them. It tests what it can before a byte is changed. */
#define _DEFAULT_SOURCE
#include "playout.h"

#include <errno.h>
#include <fcntl.h>
#include <stdio.h>
#include <stdlib.h>
#include <string.h>
#include <sys/file.h>
#include <sys/stat.h>
#include <unistd.h>

enum { DONE = 0, NOTHING_CHANGED = 1, PERHAPS_CHANGED = 2 };

static const char help[] =
    "usage: withdraw STORE BYTE NUMBER ID [LOCK]\n"
    "       withdraw --undo STORE BYTE NUMBER ID [LOCK]\n"
    "       withdraw --help | --version\n"
    "\n"
    "Appends the frame that deletes ID, with sequence NUMBER, at byte BYTE of STORE/wal.bin, which must end there; with --undo, cuts\n"
    "that very frame off again, if it is the log's last. LOCK is a descriptor by which the caller has locked STORE/LOCK; without it\n"
    "the lock is taken here. The status is 0 if it is done, 1 if nothing is changed, 2 if the log may be changed in part.\n";

static const uint64_t longest_log = 1073741824;

static int stop(int status, const char *why)
{
    fprintf(stderr, "withdraw: %s\n", why);
    return status;
}

/* Decimal digits and nothing else, within 64 bits. */
static bool number(const char *word, uint64_t *n)
{
    char *end;
    errno = 0;
    *n = strtoull(word, &end, 10);
    return word[0] >= '0' && word[0] <= '9' && *end == '\0' && errno == 0;
}

/* Whether the caller has the store's lock by this descriptor: it is STORE/LOCK's, the lock cannot be shared by another, and can be
 * had by it. A caller that only opened LOCK has read the log while another could write it: its BYTE and NUMBER may be old. */
static bool had(int store, int lock)
{
    struct stat held, there;
    int other = openat(store, "LOCK", O_RDONLY | O_CLOEXEC);
    return fstat(lock, &held) == 0 && fstat(other, &there) == 0 && held.st_dev == there.st_dev && held.st_ino == there.st_ino
        && flock(other, LOCK_SH | LOCK_NB) != 0 && flock(lock, LOCK_EX | LOCK_NB) == 0;
}

static bool taken(int store)
{
    int lock = openat(store, "LOCK", O_RDWR | O_CREAT | O_CLOEXEC, 0666);
    return lock >= 0 && flock(lock, LOCK_EX | LOCK_NB) == 0;
}

static int append(int log, off_t byte, const uint8_t *frame)
{
    if (pwrite(log, frame, LAMBSPOOL_DELETE_FRAME, byte) != LAMBSPOOL_DELETE_FRAME || fsync(log) != 0 || close(log) != 0)
        return stop(PERHAPS_CHANGED, "the frame may be written in part: recover the store before anything else");
    return DONE;
}

static int undo(int log, off_t byte, const uint8_t *frame)
{
    uint8_t there[LAMBSPOOL_DELETE_FRAME];
    if (pread(log, there, sizeof there, byte) != (ssize_t)sizeof there || memcmp(there, frame, sizeof there) != 0)
        return stop(NOTHING_CHANGED, "the log's last 29 bytes are another frame");
    if (ftruncate(log, byte) != 0 || fsync(log) != 0 || close(log) != 0)
        return stop(PERHAPS_CHANGED, "the frame may be cut off or not: recover the store before anything else");
    return DONE;
}

/* The words, as numbers. */
struct asked {
    const char *store;
    uint64_t byte, sequence, id, lock;
    bool undo, locked;
};

/* Why the words cannot be taken, or NULL. */
static const char *unasked(int count, char **words, struct asked *a)
{
    a->undo = count > 1 && strcmp(words[1], "--undo") == 0;
    words += a->undo;
    count -= a->undo;
    a->locked = count == 6;
    if (count != 5 && count != 6)
        return "usage: withdraw [--undo] STORE BYTE NUMBER ID [LOCK]";
    a->store = words[1];
    if (!number(words[2], &a->byte) || !number(words[3], &a->sequence) || !number(words[4], &a->id))
        return "BYTE, NUMBER and ID are decimal numbers";
    if (a->locked && (!number(words[5], &a->lock) || a->lock > 1023))
        return "LOCK is the number of a descriptor";
    return a->byte > longest_log - LAMBSPOOL_DELETE_FRAME ? "the log would be longer than 1073741824 bytes" : NULL;
}

static int withdraw(const struct asked *a, const uint8_t *frame)
{
    struct stat now;
    int log, store = open(a->store, O_RDONLY | O_DIRECTORY | O_CLOEXEC);
    if (store < 0)
        return stop(NOTHING_CHANGED, "no such folder");
    if (a->locked ? !had(store, (int)a->lock) : !taken(store))
        return stop(NOTHING_CHANGED, a->locked ? "LOCK does not hold the store's lock" : "the store is open elsewhere");
    log = openat(store, "wal.bin", O_RDWR | O_NONBLOCK | O_CLOEXEC); /* a pipe in its place is not waited for */
    if (log < 0 || fstat(log, &now) != 0 || !S_ISREG(now.st_mode))
        return stop(NOTHING_CHANGED, "the log cannot be opened");
    if ((uint64_t)now.st_size != a->byte + (a->undo ? LAMBSPOOL_DELETE_FRAME : 0))
        return stop(NOTHING_CHANGED, a->undo ? "the log does not end 29 bytes behind BYTE: the frame is not its last"
                                             : "the log does not end at BYTE: a tail is left, or it is not the log that was recovered");
    return (a->undo ? undo : append)(log, (off_t)a->byte, frame);
}

int main(int count, char **words)
{
    struct asked a;
    uint8_t frame[LAMBSPOOL_DELETE_FRAME];
    const char *why;
    if (count == 2 && (strcmp(words[1], "--help") == 0 || strcmp(words[1], "-h") == 0))
        return fputs(help, stdout) < 0 || fflush(stdout) != 0 ? stop(NOTHING_CHANGED, "standard output cannot be written") : DONE;
    if (count == 2 && (strcmp(words[1], "--version") == 0 || strcmp(words[1], "-V") == 0))
        return puts("withdraw " PLAYOUT_VERSION) < 0 || fflush(stdout) != 0 ? stop(NOTHING_CHANGED, "standard output cannot be written") : DONE;
    why = unasked(count, words, &a);
    if (why != NULL)
        return stop(NOTHING_CHANGED, why);
    if (lambspool_delete_frame(a.sequence, a.id, frame, sizeof frame) == 0)
        return stop(NOTHING_CHANGED, "no frame has sequence 0");
    return withdraw(&a, frame);
}
