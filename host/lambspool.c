/* lambspool: what a store of any legal size holds, and snapshots of it. lambspool.1 is its page. Reading files, words and statuses are
 * this program's; what is accepted, told, listed and written is the proved calls' of lambspool.h.
 *
 * Files are read into memory, not mapped: a mapped file that another process cuts kills the reader (SIGBUS), and the proved calls
 * speak of bytes that stay as they are while a call runs, which a mapping of a store in use does not. */
#define _DEFAULT_SOURCE
#include "lambspool.h"

#include <errno.h>
#include <fcntl.h>
#include <inttypes.h>
#include <signal.h>
#include <stdarg.h>
#include <stdbool.h>
#include <stdio.h>
#include <stdlib.h>
#include <string.h>
#include <sys/stat.h>
#include <sys/syscall.h>
#include <time.h>
#include <unistd.h>

enum { ACCEPTED = 0, REFUSED = 1, FAILED = 2 };

static const char help[] =
    "usage: lambspool list FOLDER\n"
    "       lambspool check FOLDER\n"
    "       lambspool snapshot FOLDER FILE [--compacted]\n"
    "       lambspool help | --help | -h | --version | -V\n"
    "\n"
    "FOLDER holds a store: snapshot.bin, wal.bin (the log) and, for check, index.bin (the graph cache, if there is one).\n"
    "\n"
    "  list      prints the recovery's answer in one line, then a line for each node: node, ID, live or gone, caption\n"
    "  check     tells in a few sentences what the store is, and where its next frame goes\n"
    "  snapshot  writes a snapshot of the recovered store into the new file FILE, never over one; --compacted leaves out\n"
    "            the records that are gone\n"
    "\n"
    "Behind -- no word is an option. No file of the store is changed and no lock is taken. The status is 0 if the store is\n"
    "accepted, 1 if it is refused (`refused snapshot N`, `refused log N at BYTE` or `refused file 35` on standard output),\n"
    "2 for wrong usage, an error of the system, or a store that is in use (a line on standard error).\n";

/* ---- what is said */

/* One line on standard error. */
static int failed(const char *words, ...)
{
    va_list rest;
    va_start(rest, words);
    fputs("lambspool: ", stderr);
    vfprintf(stderr, words, rest);
    fputc('\n', stderr);
    va_end(rest);
    return FAILED;
}

/* The first error of standard output. Lines can be flushed one by one, so that any of them can meet it. */
static int output_error;

static int heard(bool written)
{
    if ((!written || ferror(stdout)) && output_error == 0)
        output_error = errno != 0 ? errno : EIO;
    return output_error == 0 ? ACCEPTED : FAILED;
}

static void say(const char *words, ...)
{
    va_list rest;
    va_start(rest, words);
    heard(vprintf(words, rest) >= 0);
    va_end(rest);
}

/* The status, once all that was said is written; standard output is closed by it. */
static int said_all(int status)
{
    heard(fclose(stdout) == 0);
    return output_error == 0 ? status : failed("standard output: %s", strerror(output_error));
}

/* A line that a call made. */
static int said(const uint8_t *line, lambspool_bytes written)
{
    if (written.number != LAMBSPOOL_ACCEPTED)
        return failed("a line was refused by %" PRIu32, written.number);
    return heard(fwrite(line, 1, written.length, stdout) == written.length);
}

static int refused(uint32_t source, uint32_t number, size_t at)
{
    uint8_t line[LAMBSPOOL_MAX_REFUSAL_LINE];
    int status = said(line, lambspool_refusal_line(source, number, at, line, sizeof line));
    return status == ACCEPTED ? REFUSED : status;
}

/* ---- files */

struct file {
    int descriptor;  /* open as long as the reading lasts: until then no other file gets its inode */
    struct stat was; /* when it was opened */
    uint8_t *bytes;
    size_t length;
};

/* Opens a file of the folder. Gives 0, or errno; a folder or a device in the file's place is refused, and a pipe is not waited for. */
static int open_file(int folder, const char *name, struct file *f)
{
    f->descriptor = openat(folder, name, O_RDONLY | O_CLOEXEC | O_NONBLOCK | O_NOCTTY);
    if (f->descriptor < 0 || fstat(f->descriptor, &f->was) != 0)
        return errno;
    return S_ISREG(f->was.st_mode) ? 0 : S_ISDIR(f->was.st_mode) ? EISDIR : EINVAL;
}

/* Reads an open file up to its end, or up to one byte more than `most`: then a call refuses it as too long. Gives 0, or errno. */
static int read_file(struct file *f, size_t most)
{
    size_t room = ((uintmax_t)f->was.st_size < most ? (size_t)f->was.st_size : most) + 1;
    f->bytes = malloc(room);
    while (f->bytes != NULL) {
        ssize_t n;
        if (f->length == room) { /* it has grown since */
            if (room > most)
                return 0;
            room = room > most / 2 ? most + 1 : 2 * room;
            uint8_t *more = realloc(f->bytes, room);
            if (more == NULL)
                free(f->bytes);
            f->bytes = more;
            continue;
        }
        n = read(f->descriptor, f->bytes + f->length, room - f->length);
        if (n == 0)
            return 0;
        if (n > 0)
            f->length += (size_t)n;
        else if (errno != EINTR)
            return errno;
    }
    return ENOMEM;
}

static void close_file(struct file *f)
{
    if (f->descriptor >= 0)
        close(f->descriptor);
    free(f->bytes);
    *f = (struct file){.descriptor = -1};
}

static const char *why(int error)
{
    return error == EINVAL ? "Not a file" : strerror(error);
}

/* What a file holds by now, beside what was read of it: the same bytes, more behind them, or other bytes. */
enum found { SAME, GROWN, OTHER };

static enum found read_again(const struct file *f, size_t most)
{
    static uint8_t part[1 << 17];
    if (f->length > most) /* its length alone is judged */
        return pread(f->descriptor, part, 1, (off_t)most) == 1 ? SAME : OTHER;
    for (size_t at = 0;;) {
        size_t rest = f->length - at;
        ssize_t n = pread(f->descriptor, part, sizeof part, (off_t)at);
        if (n < 0 && errno == EINTR)
            continue;
        if (n <= 0)
            return n == 0 && rest == 0 ? SAME : OTHER;
        if (memcmp(part, f->bytes + at, (size_t)n < rest ? (size_t)n : rest) != 0)
            return OTHER;
        if ((size_t)n > rest)
            return GROWN;
        at += (size_t)n;
    }
}

static bool same_time(struct timespec a, struct timespec b)
{
    return a.tv_sec == b.tv_sec && a.tv_nsec == b.tv_nsec;
}

/* The name still names the file that was opened; `untouched` asks also that nobody wrote to it, as far as size and times tell. */
static bool same_file(int folder, const char *name, const struct file *f, bool untouched)
{
    struct stat now;
    return fstatat(folder, name, &now, 0) == 0 && now.st_dev == f->was.st_dev && now.st_ino == f->was.st_ino
        && (!untouched || (now.st_size == f->was.st_size && same_time(now.st_mtim, f->was.st_mtim) && same_time(now.st_ctim, f->was.st_ctim)));
}

/* ---- a store: its files, and tables for as many records as a store can have */

struct store {
    struct file snapshot, log, cache;
    int cache_error; /* 0, or why there is no cache */
    bool grown;      /* the log, since it was read */
    uint64_t rows[LAMBSPOOL_ROW_WORDS];
    uint32_t active[LAMBSPOOL_ACTIVE_ENTRIES];
    uint64_t starts[LAMBSPOOL_START_WORDS];
    lambspool_recovery told;
};

static void close_store(struct store *s)
{
    close_file(&s->snapshot);
    close_file(&s->log);
    close_file(&s->cache);
}

/* Of no memory the system is at fault; every other error is the listing's 35. */
static int unread(const char *folder, const char *name, int error)
{
    failed("%s/%s: %s", folder, name, why(error));
    return error == ENOMEM ? FAILED : refused(LAMBSPOOL_FILE, LAMBSPOOL_FILE_UNREADABLE, 0);
}

static const char log_name[] = "wal.bin", snapshot_name[] = "snapshot.bin", cache_name[] = "index.bin";

/* One reading: both files are opened, then the log is read, then the snapshot, then the cache if it is wanted. Gives 0, or errno and
 * the file's name. */
static int read_files(int folder, bool cache, struct store *s, const char **name)
{
    int error;
    *name = log_name;
    error = open_file(folder, log_name, &s->log);
    if (error == 0) {
        *name = snapshot_name;
        error = open_file(folder, snapshot_name, &s->snapshot);
    }
    if (error == 0) {
        *name = log_name;
        error = read_file(&s->log, LAMBSPOOL_MAX_LOG);
    }
    if (error == 0) {
        *name = snapshot_name;
        error = read_file(&s->snapshot, LAMBSPOOL_MAX_SNAPSHOT);
    }
    s->cache_error = ENOENT;
    if (cache && error == 0) {
        s->cache_error = open_file(folder, cache_name, &s->cache);
        if (s->cache_error == 0)
            s->cache_error = read_file(&s->cache, LAMBSPOOL_MAX_CACHE);
    }
    return error;
}

/* Whether the files are still as they were read, the log byte for byte. If they are, or the log has but grown, they were so at one
 * moment: when the log's last byte was read, with the snapshot in its place before and after. Else the log may be one from before a
 * new snapshot, or the front of one and the rest of the next: vecnook writes a snapshot under another name, renames it into its
 * place and then empties the log. */
static enum found look_again(int folder, const struct store *s, bool cache)
{
    enum found log = read_again(&s->log, LAMBSPOOL_MAX_LOG);
    bool kept = same_file(folder, log_name, &s->log, false) && same_file(folder, snapshot_name, &s->snapshot, true);
    if (cache && s->cache_error == 0)
        kept = kept && same_file(folder, cache_name, &s->cache, true);
    else if (cache && s->cache_error == ENOENT)
        kept = kept && faccessat(folder, cache_name, F_OK, 0) != 0;
    return kept ? log : OTHER;
}

static void wait_a_little(void)
{
    struct timespec time = {0, 10000000};
    nanosleep(&time, NULL);
}

/* Recovers what a reading found, and says whether that is to be told: ACCEPTED, REFUSED, or FAILED if the store moved meanwhile. A
 * refusal, or a tail, is told if it is still there a little later: a tail that is at the log's end no more was a frame being written. */
static int judge(int folder, struct store *s, bool cache)
{
    enum found found = look_again(folder, s, cache);
    const lambspool_recovery *r = &s->told;
    if (found == OTHER)
        return FAILED;
    s->grown = found == GROWN;
    lambspool_recover(&s->told, s->snapshot.bytes, s->snapshot.length, s->log.bytes, s->log.length,
        s->rows, LAMBSPOOL_ROW_WORDS, s->active, LAMBSPOOL_ACTIVE_ENTRIES);
    if (r->number == LAMBSPOOL_ACCEPTED && r->tail == 0)
        return ACCEPTED;
    wait_a_little();
    found = read_again(&s->snapshot, LAMBSPOOL_MAX_SNAPSHOT) == SAME ? look_again(folder, s, cache) : OTHER;
    if (r->number != LAMBSPOOL_ACCEPTED)
        return found != OTHER ? REFUSED : FAILED;
    return found == SAME ? ACCEPTED : FAILED;
}

/* Reads a store and recovers it, anew if it moves. Unreadable is what cannot be read twice for the same reason. */
static int recover(const char *folder, bool cache, struct store *s)
{
    int error = 0, status = FAILED, at = open(folder, O_RDONLY | O_DIRECTORY | O_CLOEXEC);
    const char *name = NULL;
    if (at < 0)
        return failed("%s: %s", folder, strerror(errno));
    for (int reading = 0; status == FAILED && reading < 10; reading++) {
        int error_before = error;
        const char *name_before = name;
        if (reading != 0)
            wait_a_little();
        close_store(s);
        s->told = (lambspool_recovery){0};
        error = read_files(at, cache, s, &name);
        if (error == ENOMEM || (error != 0 && error == error_before && name == name_before)) {
            close(at);
            return unread(folder, name, error);
        }
        if (error == 0)
            status = judge(at, s, cache);
    }
    close(at);
    if (status == FAILED)
        return failed("%s: the store is in use: its files changed while they were read", folder);
    return status == ACCEPTED ? ACCEPTED : refused(s->told.source, s->told.number, s->told.at);
}

/* ---- list */

static int list(struct store *s)
{
    uint8_t line[LAMBSPOOL_MAX_NODE_LINE];
    const lambspool_recovery *r = &s->told;
    int status = said(line, lambspool_first_line(r->sequence, r->records, r->active, r->replayed, r->skipped, r->keep, r->tail, line, sizeof line));
    for (size_t node = 0; status == ACCEPTED && node < r->records; node++)
        status = said(line, lambspool_node_line(s->snapshot.bytes, s->snapshot.length, s->log.bytes, s->log.length,
            s->rows, LAMBSPOOL_ROW_WORDS, r->records, (uint32_t)node, r->dimensions, line, sizeof line));
    return status;
}

/* ---- check */

static const char *metric_name(uint32_t metric)
{
    switch (metric) {
    case LAMBSPOOL_SQUARED_L2: return "squared L2";
    case LAMBSPOOL_COSINE: return "cosine";
    default: return "inner product";
    }
}

/* What the refusal of a snapshot, a log or a cache means, in a sentence's rest: for every number that one of them can have with the
 * tables that are lent here. */
static const char *meaning(uint32_t number)
{
    switch (number) {
    case LAMBSPOOL_LENGTH_OUT_OF_BOUNDS: return "the file is shorter than 52 bytes, or longer than 268,435,456 (a snapshot) or 134,217,728 (a cache)";
    case LAMBSPOOL_WRONG_MAGIC: return "the file does not begin as a snapshot does";
    case LAMBSPOOL_WRONG_VERSION: return "the version is not 1 or 2";
    case LAMBSPOOL_PAST_THE_END: return "a field runs past the end";
    case LAMBSPOOL_WRONG_METRIC: return "the metric is unknown";
    case LAMBSPOOL_WRONG_DIMENSIONS: return "the number of coordinates is not 1 to 4096";
    case LAMBSPOOL_WRONG_M: return "M is not 2 to 64";
    case LAMBSPOOL_WRONG_EF: return "ef is not M to 4096";
    case LAMBSPOOL_WRONG_COUNT: return "the number of records cannot be right";
    case LAMBSPOOL_WRONG_FLAG: return "a record is neither live nor deleted";
    case LAMBSPOOL_VECTOR_PAST_THE_END: return "a record's coordinates run past the end";
    case LAMBSPOOL_NOT_FINITE: return "a coordinate is not finite";
    case LAMBSPOOL_VECTOR_ALL_ZERO: return "all coordinates of a record are zero, which the cosine metric does not allow";
    case LAMBSPOOL_CAPTION_TOO_LONG: return "a caption is longer than 16,384 bytes";
    case LAMBSPOOL_NOT_UTF8: return "a caption is not UTF-8";
    case LAMBSPOOL_BYTES_LEFT_OVER: return "bytes are left over";
    case LAMBSPOOL_WRONG_FILE_CRC: return "the file's CRC is wrong: it is damaged";
    case LAMBSPOOL_ACTIVE_TWICE: return "an ID is live twice";
    case LAMBSPOOL_LOG_TOO_LONG: return "the log is longer than 1,073,741,824 bytes";
    case LAMBSPOOL_WRONG_LENGTH_CRC: return "the CRC of the frame's length is wrong: no frame begins here, or it is damaged";
    case LAMBSPOOL_WRONG_LENGTH: return "the frame's length is not 17 to 8,388,608 bytes";
    case LAMBSPOOL_WRONG_PAYLOAD_CRC: return "the frame's CRC is wrong: it is damaged";
    case LAMBSPOOL_WRONG_SEQUENCE: return "the frame's sequence is 0, or not one more than that of the frame before";
    case LAMBSPOOL_WRONG_BATCH_COUNT: return "the number of the batch's operations cannot be right";
    case LAMBSPOOL_UNKNOWN_OPERATION: return "the frame's operation is unknown";
    case LAMBSPOOL_GAP_AFTER_SNAPSHOT: return "changes between the snapshot and this frame are missing";
    case LAMBSPOOL_STORAGE_LIMITS: return "with this frame the store has too many records, or too many bytes";
    case LAMBSPOOL_INACTIVE_DELETE: return "the frame deletes an ID that is not live";
    case LAMBSPOOL_STALE_CACHE: return "it is not one, or belongs to another snapshot";
    case LAMBSPOOL_WRONG_NODE_COUNT: return "its nodes are not as many as the snapshot's records";
    case LAMBSPOOL_WRONG_ENTRY: return "the node to begin at is not one of its nodes";
    case LAMBSPOOL_MISSING_ENTRY: return "it has nodes, and none to begin at";
    case LAMBSPOOL_WRONG_RNG_STATE: return "the state of its random numbers is not that of the seed and so many nodes";
    case LAMBSPOOL_COUNT_OVER_BYTES: return "it has more nodes than its bytes can hold";
    case LAMBSPOOL_WRONG_LEVELS: return "a node's levels are not 1 to 33";
    case LAMBSPOOL_WRONG_DEGREE: return "a node has more neighbours at a level than M allows";
    case LAMBSPOOL_WRONG_NEIGHBOUR: return "a neighbour is none of the nodes, the node itself, or there twice";
    case LAMBSPOOL_EDGE_TO_MISSING_LEVEL: return "a neighbour has not the level at which it is one";
    case LAMBSPOOL_ENTRY_BELOW_HIGHEST: return "the node to begin at is not on the highest level";
    default: return "no file has this refusal, so the program is wrong";
    }
}

/* A number and what it counts. */
static const char *counted(size_t n, const char *what)
{
    static char text[4][64];
    static unsigned next;
    char *t = text[next++ % 4];
    snprintf(t, sizeof text[0], "%zu %s%s", n, what, n == 1 ? "" : "s");
    return t;
}

static void tell_cache(const struct store *s, const lambspool_cache *c)
{
    if (s->cache_error == ENOENT)
        say("There is no graph cache.\n");
    else if (s->cache_error != 0)
        say("The graph cache cannot be read: %s.\n", why(s->cache_error));
    else if (c->number != LAMBSPOOL_ACCEPTED)
        say("The graph cache is refused by %" PRIu32 ": %s.\n", c->number, meaning(c->number));
    else
        say("The graph cache belongs to the snapshot, and has %s.\n", counted(c->nodes, "node"));
}

/* A number of up to 8 bytes, the least first. */
static uint64_t number_of(const uint8_t *bytes, size_t count)
{
    uint64_t n = 0;
    while (count > 0)
        n = n << 8 | bytes[--count];
    return n;
}

/* The log's whole frames: how many, and the first's and the last's sequence. Recovery accepted them, so each is one more than the one
 * before. */
struct frames {
    size_t count;
    uint64_t first, last;
};

static struct frames frames_of(const struct store *s)
{
    const lambspool_recovery *r = &s->told;
    struct frames f = {r->replayed + r->skipped, 0, 0};
    lambspool_frame first;
    if (f.count != 0) {
        lambspool_frame_at(&first, r->dimensions, r->m, r->ef_construction, r->seed, r->metric, s->log.bytes, s->log.length, 0, 0);
        f.first = first.sequence;
        f.last = f.first + (f.count - 1);
    }
    return f;
}

static void tell_frames(struct frames f)
{
    if (f.count == 0)
        say("The log has no whole frame.\n");
    else if (f.count == 1)
        say("The log's only frame has sequence %" PRIu64 ".\n", f.first);
    else
        say("The log's frames have sequences %" PRIu64 " to %" PRIu64 ".\n", f.first, f.last);
}

/* What the tail's sequence seems to be, in a sentence's rest; `next` is the one to expect, 0 if none is left. Of a frame it is bytes 9
 * to 16. */
static const char *tail_sequence(const uint8_t *tail, size_t length, uint64_t next)
{
    static char text[96];
    size_t there = length <= 9 ? 0 : length < 17 ? length - 9 : 8;
    uint64_t n = number_of(tail + 9, there);
    if (there == 8)
        snprintf(text, sizeof text, ", sequence %" PRIu64 "%s", n, n == next ? "" : ", which is not the next");
    else if (there != 0 && next != 0 && n == (next & (((uint64_t)1 << 8 * there) - 1)))
        snprintf(text, sizeof text, ", sequence %" PRIu64 " as far as can be seen", next);
    else if (there != 0 && next != 0)
        snprintf(text, sizeof text, ", but not of sequence %" PRIu64, next);
    return text;
}

/* What the tail's bytes seem to be. Recovery has tested the length and its CRC if they are all there, and nothing behind. */
static void tell_tail(const uint8_t *tail, size_t length, uint64_t next)
{
    static const char *const names[] = {"a frame of an unknown operation", "a put", "a delete", "a batch"};
    const char *name = length <= 8 ? "a frame" : tail[8] <= 3 ? names[tail[8]] : names[0];
    size_t whole = length < 4 ? 0 : (size_t)number_of(tail, 4) + 12;
    char id[40] = "";
    if (length < 4) {
        say("The tail is too short to tell what it is the front of.\n");
        return;
    }
    if (length < 8 && (whole < LAMBSPOOL_DELETE_FRAME || whole > LAMBSPOOL_MAX_FRAME
            || number_of(tail + 4, length - 4) != (lambspool_crc32_of(tail, 4) & (((uint64_t)1 << 8 * (length - 4)) - 1)))) {
        say("The tail does not seem to be the front of a frame.\n");
        return;
    }
    if (length >= 25 && (tail[8] == 1 || tail[8] == 2))
        snprintf(id, sizeof id, " of ID %" PRIu64, number_of(tail + 17, 8));
    say("The tail seems to be the front of %s%s%s: %zu of its %zu bytes are there.\n",
        name, id, length <= 8 ? "" : tail_sequence(tail, length, next), length, whole);
}

/* When a frame may be appended, and where. By `still_gone` a delete takes effect if it has the sequence after recovery's, at the log's
 * end with no tail left, and the log is not older than the snapshot: it has no frame, or its last one is not below the snapshot's
 * sequence (NotOlder). To an older log no frame can be appended: after its last frame only the next sequence is taken, and a frame of
 * that is skipped as already inside. What is cut or emptied is to be copied first: only its sequence says that a snapshot holds it. */
static void tell_next(const struct store *s, uint64_t snapshot, struct frames f)
{
    const lambspool_recovery *r = &s->told;
    if (s->grown)
        say("The log grew while it was read: the store is in use, and where its next frame goes is not told.\n");
    else if (r->sequence == UINT64_MAX)
        say("No frame can be appended: no sequence is left.\n");
    else if (f.count != 0 && f.last < snapshot)
        say("No frame can be appended: the log is older than the snapshot, whose sequence %" PRIu64 " says that it holds the log's frames already%s. "
            "Keep a copy of the log, then empty it; the next frame then goes to byte 0, with sequence %" PRIu64 ".\n",
            snapshot, r->tail == 0 ? "" : ", and the one that the tail is the front of, if that is the next", snapshot + 1);
    else if (r->keep > LAMBSPOOL_MAX_LOG - LAMBSPOOL_DELETE_FRAME)
        say("No frame can be appended: the log is as long as it may be.\n");
    else if (r->tail != 0)
        say("Before a frame is appended, keep a copy of the log, then cut it to %s; the frame then goes to byte %zu, with sequence %" PRIu64 ".\n",
            counted(r->keep, "byte"), r->keep, r->sequence + 1);
    else
        say("The next frame goes to byte %zu of the log, with sequence %" PRIu64 ".\n", r->keep, r->sequence + 1);
}

static int check(struct store *s)
{
    lambspool_snapshot snapshot;
    lambspool_cache cache = {0};
    const lambspool_recovery *r = &s->told;
    const struct frames f = frames_of(s);
    /* the rows of the recovery are told no more, so their tables are lent again */
    lambspool_read_snapshot(&snapshot, s->snapshot.bytes, s->snapshot.length, s->rows, LAMBSPOOL_ROW_WORDS, s->active, LAMBSPOOL_ACTIVE_ENTRIES);
    if (s->cache_error == 0)
        lambspool_read_cache(&cache, s->cache.bytes, s->cache.length, snapshot.dimensions, snapshot.m, snapshot.ef_construction,
            snapshot.seed, snapshot.metric, snapshot.crc, snapshot.sequence, snapshot.records, s->starts, LAMBSPOOL_START_WORDS);

    say("The store is accepted: %s, %zu live, sequence %" PRIu64 ".\n", counted(r->records, "record"), r->active, r->sequence);
    say("The snapshot gave %s, %zu live, sequence %" PRIu64 "; its CRC is %08" PRIx32 ".\n",
        counted(snapshot.records, "record"), snapshot.active, snapshot.sequence, snapshot.crc);
    say("The log gave %s, which added %s; %s skipped as already inside.\n", counted(r->replayed, "frame"),
        counted(r->records - snapshot.records, "record"), counted(r->skipped, "frame"));
    tell_frames(f);
    if (r->tail == 0)
        say("The log has %s and no tail.\n", counted(r->keep, "byte"));
    else {
        say("The log is read up to byte %zu; behind it is a tail of %s, no whole frame, which is not read.\n", r->keep, counted(r->tail, "byte"));
        tell_tail(s->log.bytes + r->keep, r->tail, (f.count != 0 ? f.last : snapshot.sequence) + 1);
    }
    say("The settings are %s, the %s metric, M %zu, ef %zu, seed %" PRIu64 ".\n",
        counted(r->dimensions, "coordinate"), metric_name(r->metric), r->m, r->ef_construction, r->seed);
    tell_cache(s, &cache);
    tell_next(s, snapshot.sequence, f);
    return ACCEPTED;
}

/* ---- snapshot */

/* The file under its temporary name. The handler takes it away, so the name is made before it is there. */
static struct {
    int folder;
    char name[64];
    volatile sig_atomic_t there;
} temporary;

static int take_away(void)
{
    int error = temporary.there && unlinkat(temporary.folder, temporary.name, 0) != 0 ? errno : 0;
    temporary.there = 0;
    return error;
}

static void ended(int number)
{
    take_away();
    raise(number); /* its default action, which SA_RESETHAND has set, once this returns */
}

/* The signals by which a program is asked to end. One that is ignored (nohup) stays so. */
static void take_away_at_the_end(sigset_t *ends)
{
    static const int numbers[] = {SIGHUP, SIGINT, SIGQUIT, SIGTERM};
    struct sigaction before, action = {.sa_handler = ended, .sa_flags = (int)SA_RESETHAND};
    sigemptyset(ends);
    for (size_t i = 0; i < sizeof numbers / sizeof numbers[0]; i++)
        sigaddset(ends, numbers[i]);
    action.sa_mask = *ends;
    for (size_t i = 0; i < sizeof numbers / sizeof numbers[0]; i++)
        if (sigaction(numbers[i], NULL, &before) == 0 && before.sa_handler != SIG_IGN)
            sigaction(numbers[i], &action, NULL);
}

/* Makes the file under a temporary name that no file has; no signal ends the program between the file's making and its being known. */
static int make_temporary(int folder)
{
    int file = -1;
    sigset_t ends, before;
    temporary.folder = folder;
    take_away_at_the_end(&ends);
    sigprocmask(SIG_BLOCK, &ends, &before);
    for (unsigned n = 0; file < 0 && n < 1000; n++) {
        snprintf(temporary.name, sizeof temporary.name, "lambspool-%ld-%u.tmp", (long)getpid(), n);
        file = openat(folder, temporary.name, O_WRONLY | O_CREAT | O_EXCL | O_CLOEXEC, 0600);
        if (file < 0 && errno != EEXIST)
            break;
    }
    temporary.there = file >= 0;
    sigprocmask(SIG_SETMASK, &before, NULL);
    return file;
}

static int write_all(int file, const uint8_t *bytes, size_t length)
{
    for (size_t at = 0; at < length;) {
        ssize_t n = write(file, bytes + at, length - at);
        if (n >= 0)
            at += (size_t)n;
        else if (errno != EINTR)
            return errno;
    }
    return 0;
}

/* A file system that has no such thing as was asked for. */
static bool not_there(int error)
{
    return error == EPERM || error == ENOSYS || error == ENOTSUP || error == EOPNOTSUPP;
}

/* Gives the temporary file its name, by a link, which never replaces; where there are none, by a rename that does not. */
static const char *put_in_place(const char *name)
{
    int error;
    if (linkat(temporary.folder, temporary.name, temporary.folder, name, 0) == 0)
        return NULL;
    error = errno;
    if (!not_there(error))
        return strerror(error);
#ifdef SYS_renameat2
    if (syscall(SYS_renameat2, temporary.folder, temporary.name, temporary.folder, name, 1u /* RENAME_NOREPLACE */) == 0) {
        temporary.there = 0;
        return NULL;
    }
    error = errno;
    if (!not_there(error) && error != EINVAL)
        return strerror(error);
#endif
    return "the file system has neither links nor a rename that never replaces";
}

/* Writes a file in an open folder, under a temporary name until it is whole and synced. */
static const char *write_in(int folder, const char *name, mode_t mode, const uint8_t *bytes, size_t length)
{
    int error, file;
    struct stat there;
    if (name[0] == '\0' || fstatat(folder, name, &there, AT_SYMLINK_NOFOLLOW) == 0)
        return strerror(name[0] == '\0' ? EISDIR : EEXIST);
    file = make_temporary(folder);
    if (file < 0)
        return strerror(errno);
    error = write_all(file, bytes, length);
    if (error == 0 && fchmod(file, mode) != 0 && !not_there(errno))
        error = errno;
    if (error == 0 && fsync(file) != 0)
        error = errno;
    if (close(file) != 0 && error == 0)
        error = errno;
    return error == 0 ? put_in_place(name) : strerror(error);
}

/* The new file, then its folder, synced; the folder is opened first, since else it could not be. Once the file has its name it stays. */
static int write_new(const char *path, mode_t mode, const uint8_t *bytes, size_t length)
{
    const char *slash = strrchr(path, '/'), *wrong = NULL;
    char *parent = slash == NULL ? strdup(".") : strndup(path, slash == path ? 1 : (size_t)(slash - path));
    int left, status = ACCEPTED, folder = parent == NULL ? -1 : open(parent, O_RDONLY | O_DIRECTORY | O_CLOEXEC);
    if (folder < 0)
        status = failed("%s: %s; no snapshot is written", parent == NULL ? path : parent, strerror(parent == NULL ? ENOMEM : errno));
    else
        wrong = write_in(folder, slash == NULL ? path : slash + 1, mode, bytes, length);
    if (wrong != NULL)
        status = failed("%s: %s; no snapshot is written", path, wrong);
    left = take_away();
    if (status == ACCEPTED && fsync(folder) != 0 && errno != EINVAL) /* some file systems have no sync of a folder */
        status = failed("%s: %s; the snapshot is there, but its folder is not synced", path, strerror(errno));
    if (left != 0)
        status = failed("%s/%s: %s; it is left there", parent, temporary.name, strerror(left));
    if (folder >= 0)
        close(folder);
    free(parent);
    return status;
}

static int snapshot(struct store *s, const char *name, bool compacted)
{
    const lambspool_recovery *r = &s->told;
    lambspool_bytes written;
    size_t room = r->size + LAMBSPOOL_SNAPSHOT_AROUND;
    uint8_t *out = malloc(room);
    int status;
    if (out == NULL)
        return failed("no memory for a snapshot of %zu bytes", room);
    written = (compacted ? lambspool_write_compacted_snapshot : lambspool_write_snapshot)(r->dimensions, r->m, r->ef_construction,
        r->seed, r->metric, r->sequence, s->rows, LAMBSPOOL_ROW_WORDS, r->records, s->snapshot.bytes, s->snapshot.length,
        s->log.bytes, s->log.length, out, room);
    if (written.number != LAMBSPOOL_ACCEPTED)
        status = refused(LAMBSPOOL_SNAPSHOT, written.number, 0);
    else
        status = write_new(name, s->snapshot.was.st_mode & 0777, out, written.length);
    free(out);
    if (status == ACCEPTED)
        say("%s: %s, %s, sequence %" PRIu64 "\n", name, counted(written.length, "byte"),
            counted(compacted ? r->active : r->records, "record"), r->sequence);
    return status;
}

/* ---- words */

static int usage(const char *what)
{
    fprintf(stderr, "lambspool: %s\n%.*s", what, (int)(strstr(help, "\n\n") - help + 1), help);
    return FAILED;
}

/* The command, once its words are in order. */
static int run(const char *command, const char *folder, const char *file, bool compacted)
{
    bool checks = strcmp(command, "check") == 0;
    int status;
    struct store *s = calloc(1, sizeof *s);
    if (s == NULL)
        return failed("no memory for the tables");
    s->snapshot.descriptor = s->log.descriptor = s->cache.descriptor = -1;
    status = recover(folder, checks, s);
    if (status == ACCEPTED)
        status = file != NULL ? snapshot(s, file, compacted) : checks ? check(s) : list(s);
    else if (status == REFUSED && checks && s->told.number != LAMBSPOOL_ACCEPTED)
        say("The %s is refused: %s.\n", s->told.source == LAMBSPOOL_LOG ? "log" : "snapshot", meaning(s->told.number));
    close_store(s);
    free(s);
    return status;
}

/* Descriptors 0 to 2 that are closed would be given to the first files that are opened. */
static bool three_open(void)
{
    for (int d = 0; d < 3; d++)
        if (fcntl(d, F_GETFD) < 0 && open("/dev/null", d == 0 ? O_WRONLY : O_RDONLY) != d)
            return false;
    return true;
}

static bool is(const char *word, const char *one, const char *other)
{
    return strcmp(word, one) == 0 || strcmp(word, other) == 0;
}

int main(int count, char **words)
{
    const char *named[3] = {NULL, NULL, NULL};
    int names = 0;
    bool compacted = false, options = true, is_snapshot;

    if (!three_open())
        return failed("/dev/null: %s", strerror(errno));
    signal(SIGXFSZ, SIG_IGN); /* a file that may not grow is an error of the writing */
    for (int i = 1; i < count; i++) {
        if (options && strcmp(words[i], "--") == 0)
            options = false;
        else if (options && (is(words[i], "--help", "-h") || (names == 0 && strcmp(words[i], "help") == 0))) {
            say("%s", help);
            return said_all(ACCEPTED);
        } else if (options && is(words[i], "--version", "-V")) {
            say("lambspool %s\n", LAMBSPOOL_VERSION);
            return said_all(ACCEPTED);
        } else if (options && strcmp(words[i], "--compacted") == 0)
            compacted = true;
        else if (options && words[i][0] == '-')
            return usage("no such option (a folder whose name begins with - comes behind --)");
        else if (names == 3)
            return usage("too many words");
        else
            named[names++] = words[i];
    }
    if (names == 0)
        return usage("a command and a folder are needed");
    is_snapshot = strcmp(named[0], "snapshot") == 0;
    if (!is_snapshot && strcmp(named[0], "list") != 0 && strcmp(named[0], "check") != 0)
        return usage("no such command");
    if (names != (is_snapshot ? 3 : 2))
        return usage(is_snapshot ? "snapshot needs a folder and a new file" : "one folder is needed");
    if (compacted && !is_snapshot)
        return usage("--compacted is for snapshot");
    return said_all(run(named[0], named[1], named[2], compacted));
}
