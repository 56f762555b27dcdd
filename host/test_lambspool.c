/* Calls the functions of lambspool.h and says what was wrong: a line for each check, and last 'N passed, M failed'. Every slice that is
 * handed over stands between two pages that fault, once at the front and once at the back, so that a read or a write outside is the end
 * of the program. That the answers are right of every store is proved; this tests what stands between C and the proof: the order and
 * the sizes of parameters and results, the memory around what is lent, the stack, and threads. */
#define _DEFAULT_SOURCE
#include "lambspool.h"

#include <pthread.h>
#include <stdbool.h>
#include <stdio.h>
#include <string.h>
#include <sys/mman.h>

static int passed, failed;

static void check(const char *name, bool good)
{
    if (good)
        passed++;
    else
        failed++;
    printf("%s %s\n", good ? "ok" : "FAILED", name);
}

/* ---- memory between two pages that fault */
enum { PAGE = 65536, SPAN = 2 * PAGE, FENCES = 6 };

static uint8_t *spans[FENCES];

static bool fence(void)
{
    for (int i = 0; i < FENCES; i++) {
        uint8_t *all = mmap(NULL, SPAN + 2 * PAGE, PROT_READ | PROT_WRITE, MAP_PRIVATE | MAP_ANONYMOUS, -1, 0);
        if (all == MAP_FAILED || mprotect(all, PAGE, PROT_NONE) != 0 || mprotect(all + PAGE + SPAN, PAGE, PROT_NONE) != 0)
            return false;
        spans[i] = all + PAGE;
    }
    return true;
}

static bool behind;

/* n bytes of fence i: right before the page behind, or right after the page before; of no bytes the page's own edge */
static void *at(int i, size_t n)
{
    return behind ? spans[i] + SPAN - n : spans[i];
}

static void *copied(int i, const void *bytes, size_t n)
{
    return n == 0 ? at(i, 0) : memcpy(at(i, n), bytes, n);
}

static void *filled(int i, size_t n)
{
    return memset(at(i, n), 0xa5, n);
}

static bool all(const void *memory, size_t n, uint8_t value)
{
    const uint8_t *s = memory;
    for (size_t i = 0; i < n; i++)
        if (s[i] != value)
            return false;
    return true;
}

/* ---- document 01's example, built by the encoder */
static const char head[52] = "VECTORS1\2\0\0\0\1\0\0\0\20\0\0\0\310\0\0\0\0\0\0\0\52\0\0\0\0\0\0\0";

static uint8_t snapshot[4096], store_log[4096];
static size_t snapshot_length, log_length, ends[8]; /* the log's frames end here */

static void word(uint8_t *s, uint32_t n)
{
    for (int i = 0; i < 4; i++)
        s[i] = (uint8_t)(n >> (8 * i));
}

static size_t closed(uint8_t *s, size_t n)
{
    word(s + n, lambspool_crc32_of(s, n));
    return n + 4;
}

static lambspool_bytes encoded(bool batch, uint64_t sequence, const uint64_t *operations, size_t words, const uint32_t *coordinates, size_t count,
    const char *captions, uint8_t *out, size_t room)
{
    return (batch ? lambspool_encode_batch : lambspool_encode_frame)(1, 16, 200, 42, LAMBSPOOL_SQUARED_L2, sequence,
        copied(0, operations, 8 * words), words, copied(1, coordinates, 4 * count), count, copied(2, captions, strlen(captions)), strlen(captions), out, room);
}

static void example(void)
{
    static const uint32_t one[3] = {0x3f800000, 0x3f800000, 0x3f800000};
    const uint64_t hi[2] = {7, LAMBSPOOL_PUT(2, 0)}, ho[2] = {7, LAMBSPOOL_PUT(2, 2)};
    const uint64_t more[6] = {8, LAMBSPOOL_PUT(2, 0), 9, LAMBSPOOL_PUT(0, 4), 8, LAMBSPOOL_DELETE};
    const uint64_t gone[2] = {9, LAMBSPOOL_DELETE};
    static const size_t lengths[4] = {39, 39, 70, LAMBSPOOL_DELETE_FRAME};
    bool good = true;
    memcpy(snapshot, head, 52);
    snapshot_length = closed(snapshot, 52);
    check("the snapshot's CRC is document 01's", lambspool_crc32_of(snapshot, 52) == 354460059);
    log_length = 0;
    for (int i = 0; i < 4; i++) {
        const uint64_t *operations = i == 0 ? hi : i == 1 ? ho : i == 2 ? more : gone;
        size_t words = i == 2 ? 6 : 2, coordinates = i == 2 ? 2 : i == 3 ? 0 : 1;
        for (size_t room = 0; room <= lengths[i] + 9; room++) {
            uint8_t *out = filled(3, room);
            lambspool_bytes b = encoded(i == 2, (uint64_t)i + 1, operations, words, one, coordinates, "HiHo", out, room);
            if (room < lengths[i])
                good = good && b.number == LAMBSPOOL_OUTPUT_TOO_SHORT && b.length == 0 && all(out, room, 0xa5);
            else
                good = good && b.number == 0 && b.length == lengths[i] && all(out + b.length, room - b.length, 0xa5);
            if (room == lengths[i])
                memcpy(store_log + log_length, out, room);
        }
        log_length += lengths[i];
        ends[i + 1] = log_length;
    }
    check("frames and a batch, with every room", good);
    good = encoded(false, 0, hi, 2, one, 1, "Hi", filled(3, 39), 39).number == LAMBSPOOL_WRONG_SEQUENCE
        && encoded(false, 1, hi, 1, one, 1, "Hi", filled(3, 39), 39).number == LAMBSPOOL_REQUEST_MALFORMED
        && encoded(true, 1, hi, 0, one, 0, "", filled(3, 39), 39).number == LAMBSPOOL_WRONG_BATCH_COUNT
        && encoded(false, 1, hi, 2, one, 1, "H\xff", filled(3, 39), 39).number == LAMBSPOOL_NOT_UTF8
        && lambspool_encode_frame(1, 16, 200, 42, 3, 1, NULL, 0, NULL, 0, NULL, 0, NULL, 0).number == LAMBSPOOL_WRONG_METRIC
        && lambspool_encode_frame(0, 16, 200, 42, 0, 1, NULL, 0, NULL, 0, NULL, 0, NULL, 0).number == LAMBSPOOL_WRONG_DIMENSIONS
        && lambspool_encode_batch(1, 1, 200, 42, 0, 1, NULL, 0, NULL, 0, NULL, 0, NULL, 0).number == LAMBSPOOL_WRONG_M
        && lambspool_encode_batch(1, 16, 15, 42, 0, 1, NULL, 0, NULL, 0, NULL, 0, NULL, 0).number == LAMBSPOOL_WRONG_EF;
    check("what is asked of an encoder wrongly", good);
}

/* A length or an offset that has no place in a put's word is refused; another put is never made of it. */
static void puts_that_do_not_fit(void)
{
    static const uint32_t one[1] = {0x3f800000};
    static const char captions[] = "HiHoHiHoHiHo";
    const uint8_t eight = 8;
    const size_t two = 2, beyond = ((size_t)1 << 48) + 2;
    const int least = -32760;
    int asked = 0;
    const struct {
        uint64_t word;
        uint32_t number;
    } cases[] = {
        {LAMBSPOOL_PUT(eight, two), 0},
        {LAMBSPOOL_PUT(eight, 4), 0},
        {LAMBSPOOL_PUT(eight, 5), LAMBSPOOL_REQUEST_MALFORMED},
        {LAMBSPOOL_PUT(eight, beyond), LAMBSPOOL_REQUEST_MALFORMED},
        {LAMBSPOOL_PUT(eight, SIZE_MAX), LAMBSPOOL_REQUEST_MALFORMED},
        {LAMBSPOOL_PUT(eight, -1), LAMBSPOOL_REQUEST_MALFORMED},
        {LAMBSPOOL_PUT(0, beyond - 2), LAMBSPOOL_REQUEST_MALFORMED},
        {LAMBSPOOL_PUT(least, two), LAMBSPOOL_CAPTION_TOO_LONG},
        {LAMBSPOOL_PUT(-1, -1), LAMBSPOOL_CAPTION_TOO_LONG},
        {LAMBSPOOL_PUT(32776, two), LAMBSPOOL_CAPTION_TOO_LONG},
        {LAMBSPOOL_PUT(beyond, two), LAMBSPOOL_CAPTION_TOO_LONG},
        {LAMBSPOOL_PUT(LAMBSPOOL_MAX_CAPTION + 1, two), LAMBSPOOL_CAPTION_TOO_LONG},
    };
    bool good = true;
    for (size_t i = 0; i < sizeof cases / sizeof cases[0]; i++) {
        const uint64_t put[2] = {7, cases[i].word};
        lambspool_bytes b = encoded(false, 1, put, 2, one, 1, captions, filled(3, 64), 64);
        good = good && b.number == cases[i].number && b.length == (b.number == 0 ? 45u : 0);
    }
    check("puts that have no place in a word are refused", good);
    good = LAMBSPOOL_PUT(asked++, 0) == (uint64_t)1 << 63 && LAMBSPOOL_PUT(2, asked++) == ((uint64_t)1 << 63 | (uint64_t)2 << 48 | 1) && asked == 2;
    check("a put's length and offset are evaluated once", good);
}

/* ---- recovery */
struct lent {
    uint8_t *snapshot, *log;
    uint64_t *rows;
    uint32_t *active;
    size_t snapshot_length, log_length, row_words, entries;
};

static lambspool_recovery recovered(struct lent *l, size_t cut, size_t rows)
{
    lambspool_recovery r;
    l->snapshot_length = snapshot_length;
    l->log_length = cut;
    l->row_words = 2 * rows;
    l->entries = rows;
    l->snapshot = copied(0, snapshot, snapshot_length);
    l->log = copied(1, store_log, cut);
    l->rows = filled(2, 8 * l->row_words);
    l->active = filled(3, 4 * l->entries);
    memset(&r, 0xa5, sizeof r);
    if (lambspool_recover(&r, l->snapshot, snapshot_length, l->log, cut, l->rows, l->row_words, l->active, l->entries) != &r)
        check("the result's address comes back", false);
    return r;
}

static bool zeros(const struct lent *l)
{
    return all(l->rows, 8 * l->row_words, 0) && all(l->active, 4 * l->entries, 0);
}

static void recoveries(void)
{
    static const size_t records[5] = {0, 1, 2, 4, 4}, active[5] = {0, 1, 1, 2, 1};
    struct lent l;
    bool good = true, few = true;
    memcpy(store_log + log_length, "abc", 3);
    for (size_t cut = 0; cut <= log_length + 3; cut++) {
        lambspool_recovery r = recovered(&l, cut, 8);
        size_t n = 0;
        while (n < 4 && ends[n + 1] <= cut)
            n++;
        good = good && r.number == 0 && r.source == 0 && r.at == 0 && r.crc == 354460059 && r.metric == 0 && r.dimensions == 1 && r.m == 16
            && r.ef_construction == 200 && r.seed == 42 && r.sequence == n && r.records == records[n] && r.active == active[n] && r.replayed == n
            && r.skipped == 0 && r.keep == ends[n] && r.tail == cut - ends[n] && all(l.rows + 2 * records[n], 8 * (16 - 2 * records[n]), 0)
            && all(l.active + active[n], 4 * (8 - active[n]), 0);
    }
    check("recovery at every cut of the log", good);
    {
        lambspool_recovery r = recovered(&l, ends[2] + 3, 4);
        check("document 01's rows and active nodes", r.number == 0 && r.tail == 3 && l.rows[0] == 7 && l.rows[1] == UINT64_C(13835058055282163737)
            && l.rows[2] == 7 && l.rows[3] == UINT64_C(4611967493404098624) && l.active[0] == 1 && r.size == 36
            && LAMBSPOOL_ROW_DELETED(l.rows[1]) && !LAMBSPOOL_ROW_DELETED(l.rows[3]) && LAMBSPOOL_ROW_SOURCE(l.rows[3]) == LAMBSPOOL_LOG
            && LAMBSPOOL_ROW_CAPTION_LENGTH(l.rows[3]) == 2 && LAMBSPOOL_ROW_OFFSET(l.rows[3]) == 39 + 25);
    }
    for (size_t rows = 0; rows < 4; rows++) {
        lambspool_recovery r = recovered(&l, log_length, rows);
        few = few && r.number == LAMBSPOOL_TOO_FEW_ROWS && r.source == LAMBSPOOL_LOG && r.at == ends[rows < 2 ? rows : 2] && zeros(&l) && r.records == 0 && r.dimensions == 0;
    }
    check("too few rows lent: 19, and zeros", few);
}

static void wrong_bytes(void)
{
    struct lent l;
    bool good = true;
    for (size_t i = 0; i < log_length; i++) {
        lambspool_recovery r;
        store_log[i] ^= 0x55;
        r = recovered(&l, log_length, 8);
        store_log[i] ^= 0x55;
        good = good && (r.number == 0 ? r.tail != 0 : r.source == LAMBSPOOL_LOG && zeros(&l) && (r.at == 0 || r.at == ends[1] || r.at == ends[2] || r.at == ends[3]));
    }
    check("every byte of the log wrong: refused at a frame, and zeros", good);
    good = true;
    for (size_t i = 0; i < snapshot_length; i++) {
        lambspool_recovery r;
        snapshot[i] ^= 0x55;
        r = recovered(&l, log_length, 8);
        snapshot[i] ^= 0x55;
        good = good && r.number != 0 && r.source == LAMBSPOOL_SNAPSHOT && r.at == 0 && zeros(&l);
    }
    check("every byte of the snapshot wrong: refused, and zeros", good);
    {
        lambspool_recovery r;
        lambspool_recover(&r, NULL, 0, NULL, 0, NULL, 0, NULL, 0);
        check("nulls: refused by 1", r.number == LAMBSPOOL_LENGTH_OUT_OF_BOUNDS && r.source == LAMBSPOOL_SNAPSHOT);
    }
}

/* ---- a log, frame by frame */
static lambspool_frame framed(const uint8_t *log, size_t n, uint64_t previous, size_t from)
{
    lambspool_frame f;
    memset(&f, 0xa5, sizeof f);
    if (lambspool_frame_at(&f, 1, 16, 200, 42, LAMBSPOOL_SQUARED_L2, copied(0, log, n), n, previous, from) != &f)
        check("the frame's address comes back", false);
    return f;
}

static lambspool_operation operated(const uint8_t *log, size_t n, uint32_t kind, size_t end, size_t from)
{
    lambspool_operation o;
    memset(&o, 0xa5, sizeof o);
    if (lambspool_operation_at(&o, 1, 16, 200, 42, LAMBSPOOL_SQUARED_L2, copied(0, log, n), n, kind, end, from) != &o)
        check("the operation's address comes back", false);
    return o;
}

static bool no_frame(lambspool_frame f, uint32_t number)
{
    return f.number == number && f.kind == LAMBSPOOL_NO_FRAME && f.sequence == 0 && f.operations == 0 && f.at == 0 && f.first == 0 && f.end == 0 && f.next == 0;
}

static bool no_operation(lambspool_operation o, uint32_t number)
{
    return o.number == number && o.tag == 0 && o.id == 0 && o.vector == 0 && o.caption == 0 && o.caption_length == 0 && o.next == 0;
}

/* what the example's log has: a put of one frame is one, and so is each operation of the batch */
static const struct { uint64_t id; uint32_t tag; const char *caption; } put_in[6] = {
    {7, LAMBSPOOL_TAG_PUT, "Hi"}, {7, LAMBSPOOL_TAG_PUT, "Ho"}, {8, LAMBSPOOL_TAG_PUT, "Hi"}, {9, LAMBSPOOL_TAG_PUT, ""}, {8, LAMBSPOOL_TAG_DELETE, NULL}, {9, LAMBSPOOL_TAG_DELETE, NULL}};

/* the operations of a frame, from the k-th of the log on */
static bool walked(const uint8_t *log, size_t n, lambspool_frame f, size_t k)
{
    size_t from = f.first;
    for (size_t i = 0; i < f.operations; i++, k++) {
        lambspool_operation o = operated(log, n, f.kind, f.end, from);
        size_t place = from + (f.kind == LAMBSPOOL_SINGLE ? 9 : 1);
        if (o.number != 0 || o.tag != put_in[k].tag || o.tag != log[from] || o.id != put_in[k].id)
            return false;
        if (o.tag == LAMBSPOOL_TAG_DELETE) {
            if (o.vector != 0 || o.caption != 0 || o.caption_length != 0 || o.next != place + 8)
                return false;
        } else if (o.vector != place + 8 || memcmp(log + o.vector, "\0\0\200\77", 4) != 0 || o.caption != o.vector + 8 || o.caption_length != strlen(put_in[k].caption)
            || memcmp(log + o.caption, put_in[k].caption, o.caption_length) != 0 || o.next != o.caption + o.caption_length)
            return false;
        from = o.next;
    }
    return from == f.end;
}

static void walks(void)
{
    static const size_t operations[4] = {1, 1, 3, 1};
    bool good = true;
    memcpy(store_log + log_length, "abc", 3);
    for (size_t cut = 0; cut <= log_length + 3; cut++) {
        size_t i = 0, k = 0;
        lambspool_frame f = framed(store_log, cut, 0, 0);
        for (; f.kind != LAMBSPOOL_NO_FRAME && i < 4; i++) {
            good = good && f.number == 0 && f.kind == (i == 2 ? LAMBSPOOL_BATCH : LAMBSPOOL_SINGLE) && f.sequence == i + 1 && f.operations == operations[i] && f.at == ends[i]
                && f.first == ends[i] + (i == 2 ? 21 : 8) && f.end == ends[i + 1] - 4 && f.next == ends[i + 1] && walked(store_log, cut, f, k);
            k += f.operations;
            f = framed(store_log, cut, f.sequence, f.next);
        }
        good = good && no_frame(f, 0) && ends[i] <= cut && (i == 4 || cut < ends[i + 1]);
    }
    check("a log walked, at every cut", good);
    good = no_frame(framed(store_log, log_length, 4, log_length + 1), 0) && no_frame(framed(store_log, log_length, 4, SIZE_MAX), 0)
        && no_frame(framed(NULL, 0, 0, 0), 0) && no_frame(framed(store_log, log_length, 2, ends[1]), LAMBSPOOL_WRONG_SEQUENCE);
    for (size_t i = 0; i < ends[1]; i++) {
        static const uint32_t numbers[2] = {LAMBSPOOL_WRONG_LENGTH_CRC, LAMBSPOOL_WRONG_PAYLOAD_CRC};
        store_log[i] ^= 0x55;
        good = good && no_frame(framed(store_log, log_length, 0, 0), numbers[8 <= i]) && framed(store_log, log_length, 0, ends[1]).sequence == 2;
        store_log[i] ^= 0x55;
    }
    check("no frame: past the end, out of order, every byte wrong", good);
}

/* any place and any end: the call stays inside, and what it tells lies before the end */
static void any_places(void)
{
    bool good = true;
    static const size_t far[4] = {SIZE_MAX, SIZE_MAX - 8, SIZE_MAX - 1, (size_t)1 << 63};
    for (uint32_t kind = LAMBSPOOL_SINGLE; kind <= LAMBSPOOL_BATCH; kind++)
        for (size_t end = 0; end <= log_length + 1; end++) {
            for (size_t from = 0; from <= log_length + 1; from++) {
                lambspool_operation o = operated(store_log, log_length, kind, end, from);
                if (o.number != 0)
                    good = good && no_operation(o, o.number);
                else
                    good = good && end <= log_length && from < o.next && o.next <= end && (o.tag == LAMBSPOOL_TAG_DELETE || o.next == o.caption + o.caption_length);
            }
            for (int i = 0; i < 4; i++)
                good = good && no_operation(operated(store_log, log_length, kind, end, far[i]), LAMBSPOOL_PAST_THE_END)
                    && no_operation(operated(store_log, log_length, kind, far[i], end), LAMBSPOOL_PAST_THE_END);
        }
    check("an operation at any place, with any end", good);
}

/* frames made by hand, so that every refusal of what is decoded is reached */
static size_t made_frame(uint8_t *log, const void *payload, size_t n)
{
    word(log, (uint32_t)n);
    word(log + 4, lambspool_crc32_of(log, 4));
    memcpy(log + 8, payload, n);
    word(log + 8 + n, lambspool_crc32_of(log + 8, n));
    return n + 12;
}

static void wrong_frames(void)
{
    static const struct { uint32_t number; size_t n; const char *payload; uint32_t metric; } wrong[] = {
        {LAMBSPOOL_WRONG_LENGTH, 16, "\2\1\0\0\0\0\0\0\0\7\0\0\0\0\0\0", 0},
        {LAMBSPOOL_WRONG_SEQUENCE, 17, "\2\0\0\0\0\0\0\0\0\7\0\0\0\0\0\0\0", 0},
        {LAMBSPOOL_WRONG_BATCH_COUNT, 22, "\3\1\0\0\0\0\0\0\0\0\0\0\0\2\7\0\0\0\0\0\0\0", 0},
        {LAMBSPOOL_WRONG_BATCH_COUNT, 22, "\3\1\0\0\0\0\0\0\0\2\0\0\0\2\7\0\0\0\0\0\0\0", 0},
        {LAMBSPOOL_UNKNOWN_OPERATION, 17, "\4\1\0\0\0\0\0\0\0\7\0\0\0\0\0\0\0", 0},
        {LAMBSPOOL_UNKNOWN_OPERATION, 22, "\3\1\0\0\0\0\0\0\0\1\0\0\0\0\7\0\0\0\0\0\0\0", 0},
        {LAMBSPOOL_PAST_THE_END, 17, "\1\1\0\0\0\0\0\0\0\7\0\0\0\0\0\0\0", 0},
        {LAMBSPOOL_PAST_THE_END, 25, "\1\1\0\0\0\0\0\0\0\7\0\0\0\0\0\0\0\0\0\200\77\1\0\0\0", 0},
        {LAMBSPOOL_NOT_FINITE, 25, "\1\1\0\0\0\0\0\0\0\7\0\0\0\0\0\0\0\0\0\200\177\0\0\0\0", 0},
        {LAMBSPOOL_VECTOR_ALL_ZERO, 25, "\1\1\0\0\0\0\0\0\0\7\0\0\0\0\0\0\0\0\0\0\200\0\0\0\0", LAMBSPOOL_COSINE},
        {LAMBSPOOL_CAPTION_TOO_LONG, 25, "\1\1\0\0\0\0\0\0\0\7\0\0\0\0\0\0\0\0\0\200\77\1\100\0\0", 0},
        {LAMBSPOOL_NOT_UTF8, 26, "\1\1\0\0\0\0\0\0\0\7\0\0\0\0\0\0\0\0\0\200\77\1\0\0\0\377", 0},
        {LAMBSPOOL_BYTES_LEFT_OVER, 18, "\2\1\0\0\0\0\0\0\0\7\0\0\0\0\0\0\0\0", 0},
    };
    bool good = true;
    uint8_t log[64];
    for (size_t i = 0; i < sizeof wrong / sizeof wrong[0]; i++) {
        size_t n = made_frame(log, wrong[i].payload, wrong[i].n);
        lambspool_frame f;
        lambspool_operation o;
        uint32_t kind = log[8] == 3 ? LAMBSPOOL_BATCH : LAMBSPOOL_SINGLE, number = wrong[i].number;
        lambspool_frame_at(&f, 1, 16, 200, 42, wrong[i].metric, copied(0, log, n), n, 0, 0);
        good = good && no_frame(f, number);
        if (number == LAMBSPOOL_WRONG_LENGTH || number == LAMBSPOOL_WRONG_SEQUENCE || number == LAMBSPOOL_WRONG_BATCH_COUNT || number == LAMBSPOOL_BYTES_LEFT_OVER)
            continue; /* a frame's own: an operation has none of these */
        lambspool_operation_at(&o, 1, 16, 200, 42, wrong[i].metric, copied(0, log, n), n, kind, n - 4, kind == LAMBSPOOL_BATCH ? 21 : 8);
        good = good && no_operation(o, number);
    }
    check("frames and operations wrong in each way that is told", good);
}

static void wrong_walks(void)
{
    static const uint32_t kinds[4] = {LAMBSPOOL_NO_FRAME, 3, 256 + LAMBSPOOL_SINGLE, UINT32_MAX};
    static const struct { uint32_t number; size_t d, m, ef; uint32_t metric; } wrong[5] = {{5, 0, 1, 0, 3}, {6, 0, 1, 0, 0}, {6, 4097, 1, 0, 0}, {7, 1, 1, 0, 0}, {8, 1, 16, 15, 0}};
    bool good = true;
    uint8_t *log = copied(0, store_log, log_length);
    for (int i = 0; i < 5; i++) {
        lambspool_frame f;
        lambspool_operation o;
        lambspool_frame_at(&f, wrong[i].d, wrong[i].m, wrong[i].ef, 42, wrong[i].metric, log, log_length, 9, 3);
        good = good && no_frame(f, wrong[i].number);
        for (uint32_t kind = 0; kind < 4; kind++) {
            lambspool_operation_at(&o, wrong[i].d, wrong[i].m, wrong[i].ef, 42, wrong[i].metric, log, log_length, kind, SIZE_MAX, 0);
            good = good && no_operation(o, wrong[i].number);
        }
    }
    for (int i = 0; i < 4; i++)
        good = good && no_operation(operated(store_log, log_length, kinds[i], SIZE_MAX, SIZE_MAX), LAMBSPOOL_REQUEST_MALFORMED);
    good = good && no_operation(operated(store_log, log_length, LAMBSPOOL_SINGLE, log_length + 1, ends[3] + 8), LAMBSPOOL_PAST_THE_END)
        && operated(store_log, log_length, LAMBSPOOL_SINGLE, log_length, ends[3] + 8).number == 0;
    check("settings that are wrong, a kind that is none: 5 to 8, then 33, then 4", good);
}

/* ---- what can be looked at, and what is written of it */
static void looks(void)
{
    struct lent l;
    lambspool_recovery r = recovered(&l, ends[3] + 3, 4); /* 0: 7 gone, 1: 7 live Ho, 2: 8 gone, 3: 9 live */
    lambspool_part p;
    bool good = r.number == 0 && lambspool_lookup(l.rows, l.row_words, r.records, 7).node == 1 && lambspool_lookup(l.rows, l.row_words, r.records, 9).node == 3;
    good = good && lambspool_lookup(l.rows, l.row_words, r.records, 8).node == LAMBSPOOL_NO_NODE && lambspool_lookup(l.rows, l.row_words, r.records, 8).number == 0;
    good = good && lambspool_lookup(l.rows, l.row_words, 5, 7).number == LAMBSPOOL_NO_SUCH_NODE && lambspool_lookup(l.rows, l.row_words, 5, 7).node == LAMBSPOOL_NO_NODE;
    good = good && lambspool_lookup(NULL, 0, 0, 7).node == LAMBSPOOL_NO_NODE;
    check("lookup", good);
    r = recovered(&l, ends[3] + 3, 8);
    good = lambspool_lookup(l.rows, l.row_words, r.records, 0).node == LAMBSPOOL_NO_NODE && lambspool_lookup(l.rows, l.row_words, r.records + 1, 0).node == r.records;
    check("a count above the records passes zeros for ID 0, as the header says", good);
    r = recovered(&l, ends[3] + 3, 4);

    good = lambspool_caption(&p, l.snapshot, l.snapshot_length, l.log, l.log_length, l.rows, l.row_words, r.records, 1, 1) == &p && p.number == 0
        && p.source == LAMBSPOOL_LOG && p.length == 2 && memcmp(l.log + p.at, "Ho", 2) == 0;
    lambspool_vector(&p, l.snapshot, l.snapshot_length, l.log, l.log_length, l.rows, l.row_words, r.records, 1, 1);
    good = good && p.number == 0 && p.source == LAMBSPOOL_LOG && p.length == 4 && memcmp(l.log + p.at, "\0\0\200\77", 4) == 0;
    lambspool_caption(&p, l.snapshot, l.snapshot_length, l.log, l.log_length, l.rows, l.row_words, r.records, 0, 1);
    good = good && p.number == 0 && p.length == 0;
    lambspool_caption(&p, l.snapshot, l.snapshot_length, l.log, l.log_length, l.rows, l.row_words, r.records, 4, 1);
    good = good && p.number == LAMBSPOOL_NO_SUCH_NODE && p.source == 0 && p.at == 0 && p.length == 0;
    lambspool_vector(&p, l.snapshot, l.snapshot_length, l.log, l.log_length, l.rows, l.row_words, r.records, 1, 0);
    good = good && p.number == LAMBSPOOL_WRONG_DIMENSIONS;
    lambspool_vector(&p, l.snapshot, l.snapshot_length, l.log, 40, l.rows, l.row_words, r.records, 1, 1);
    good = good && p.number == LAMBSPOOL_ROW_DOES_NOT_FIT;
    check("captions and vectors in place", good);
}

static void lines_of_nodes(void)
{
    struct lent l;
    lambspool_recovery r = recovered(&l, ends[3] + 3, 4);
    static const char *lines[4] = {"0 7 gone\n", "1 7 live Ho\n", "2 8 gone\n", "3 9 live \n"};
    bool good = true;
    for (uint32_t node = 0; node < 4; node++)
        for (size_t room = 0, n = strlen(lines[node]); room < n + 3; room++) {
            uint8_t *out = filled(4, room);
            lambspool_bytes b = lambspool_node_line(l.snapshot, l.snapshot_length, l.log, l.log_length, l.rows, l.row_words, r.records, node, 1, out, room);
            if (room < n)
                good = good && b.number == LAMBSPOOL_OUTPUT_TOO_SHORT && b.length == 0 && all(out, room, 0xa5);
            else
                good = good && b.number == 0 && b.length == n && memcmp(out, lines[node], n) == 0 && all(out + n, room - n, 0xa5);
        }
    good = good && lambspool_node_line(l.snapshot, l.snapshot_length, l.log, l.log_length, l.rows, l.row_words, r.records, 4, 1, filled(4, 9), 9).number == LAMBSPOOL_NO_SUCH_NODE;
    check("lines of nodes, with every room", good);
}

static void written_again(void)
{
    struct lent l;
    lambspool_recovery r = recovered(&l, ends[3] + 3, 4);
    bool good = true;
    for (int compacted = 0; compacted < 2; compacted++) {
        size_t n = LAMBSPOOL_SNAPSHOT_AROUND + (compacted ? 19 + 17 : r.size);
        for (size_t room = 0; room < n + 3; room++) {
            uint8_t *out = filled(4, room);
            lambspool_bytes b = (compacted ? lambspool_write_compacted_snapshot : lambspool_write_snapshot)(r.dimensions, r.m, r.ef_construction, r.seed, r.metric,
                r.sequence, l.rows, l.row_words, r.records, l.snapshot, l.snapshot_length, l.log, l.log_length, out, room);
            if (room < n)
                good = good && b.number == LAMBSPOOL_OUTPUT_TOO_SHORT && b.length == 0 && all(out, room, 0xa5);
            else
                good = good && b.number == 0 && b.length == n && all(out + n, room - n, 0xa5);
            if (room == n) {
                lambspool_snapshot s;
                uint64_t *rows = filled(5, 64);
                uint32_t active[4];
                good = good && lambspool_read_snapshot(&s, out, n, rows, 8, active, 4) == &s && s.number == 0 && s.sequence == 3 && s.active == 2 && s.metric == 0
                    && s.dimensions == 1 && s.m == 16 && s.ef_construction == 200 && s.seed == 42 && s.records == (compacted ? 2u : 4u) && s.size == n - LAMBSPOOL_SNAPSHOT_AROUND
                    && s.crc == lambspool_crc32_of(out, n - 4) && rows[compacted ? 0 : 2] == 7 && active[0] == (compacted ? 0u : 1u) && active[2] == 0;
            }
        }
    }
    good = good && lambspool_write_snapshot(1, 16, 200, 42, 3, 1, NULL, 0, 0, NULL, 0, NULL, 0, NULL, 0).number == LAMBSPOOL_WRONG_METRIC
        && lambspool_write_snapshot(1, 16, 200, 42, 0, 1, NULL, 0, 1, NULL, 0, NULL, 0, NULL, 0).number == LAMBSPOOL_NO_SUCH_NODE;
    check("snapshots written, with every room, and read again", good);
}

/* The header's warning: a sequence that is too high has the next recovery skip frames whose changes are not inside. */
static void wrong_sequence(void)
{
    struct lent l;
    lambspool_recovery r = recovered(&l, ends[1], 4); /* 7 live Hi, sequence 1 */
    uint8_t out[LAMBSPOOL_SNAPSHOT_AROUND + 19];
    bool good = true;
    for (uint64_t sequence = 1; sequence < 5; sequence++) {
        uint64_t rows[16];
        uint32_t active[8];
        lambspool_recovery again;
        lambspool_bytes b = lambspool_write_snapshot(r.dimensions, r.m, r.ef_construction, r.seed, r.metric, sequence, l.rows, l.row_words, r.records,
            l.snapshot, l.snapshot_length, l.log, l.log_length, out, sizeof out);
        lambspool_recover(&again, out, b.length, store_log, log_length, rows, 16, active, 8);
        good = good && b.number == 0 && b.length == sizeof out;
        if (sequence == 1)
            good = good && again.number == 0 && again.records == 4 && again.skipped == 1 && again.replayed == 3;
        else /* what frame 2 puts is missing; frame 4 deletes what frame 3 puts */
            good = good && (sequence == 3 ? again.number == LAMBSPOOL_INACTIVE_DELETE
                : again.number == 0 && again.skipped == sequence && again.records == (sequence == 2 ? 3u : 1u));
    }
    check("a wrong sequence is not refused: frames are skipped, as the header says", good);
}

static void lines(void)
{
    static const char first[] = "seq 2 records 3 active 1 replayed 4 skipped 5 keep 78 tail 6\n";
    static const char longest[] = "seq 18446744073709551615 records 18446744073709551615 active 18446744073709551615 replayed 18446744073709551615"
        " skipped 18446744073709551615 keep 18446744073709551615 tail 18446744073709551615\n";
    static const char *refusals[3] = {"refused snapshot 17\n", "refused log 21 at 39\n", "refused file 35\n"};
    static const uint32_t numbers[3] = {17, 21, 35};
    bool good = true;
    for (size_t room = 0; room < 80; room++) {
        uint8_t *out = filled(4, room);
        lambspool_bytes b = lambspool_first_line(2, 3, 1, 4, 5, 78, 6, out, room);
        if (room < sizeof first - 1)
            good = good && b.number == LAMBSPOOL_OUTPUT_TOO_SHORT && all(out, room, 0xa5);
        else
            good = good && b.number == 0 && b.length == sizeof first - 1 && memcmp(out, first, b.length) == 0 && all(out + b.length, room - b.length, 0xa5);
        for (uint32_t source = 0; source < 4; source++) {
            const char *want = refusals[source > 2 ? 2 : source];
            out = filled(4, room);
            b = lambspool_refusal_line(source, numbers[source > 2 ? 2 : source], 39, out, room);
            if (room < strlen(want))
                good = good && b.number == LAMBSPOOL_OUTPUT_TOO_SHORT && all(out, room, 0xa5);
            else
                good = good && b.number == 0 && b.length == strlen(want) && memcmp(out, want, b.length) == 0 && all(out + b.length, room - b.length, 0xa5);
        }
    }
    check("first line and refusals, with every room", good);
    {
        uint8_t *out = filled(4, LAMBSPOOL_MAX_FIRST_LINE);
        lambspool_bytes b = lambspool_first_line(UINT64_MAX, SIZE_MAX, SIZE_MAX, SIZE_MAX, SIZE_MAX, SIZE_MAX, SIZE_MAX, out, LAMBSPOOL_MAX_FIRST_LINE);
        good = b.number == 0 && b.length == sizeof longest - 1 && b.length == LAMBSPOOL_MAX_FIRST_LINE && memcmp(out, longest, b.length) == 0;
        out = filled(4, LAMBSPOOL_MAX_REFUSAL_LINE);
        good = good && lambspool_refusal_line(LAMBSPOOL_LOG, UINT32_MAX, SIZE_MAX, out, LAMBSPOOL_MAX_REFUSAL_LINE).number == 0;
        check("the longest lines have the room that the header says", good);
    }
}

/* ---- the graph cache of a snapshot with three records: node 0 has two levels */
static const uint64_t cache_rng = 42 + 3 * UINT64_C(0x9e3779b97f4a7c15);
static uint8_t cache[256] = "VECGRAPH\1";

static size_t made_cache(void)
{
    static const uint8_t links[] = {2, 2, 0, 0, 0, 1, 0, 0, 0, 2, 0, 0, 0, 0, 0, 0, 0, /* 0: 1, 2; none above */
        1, 1, 0, 0, 0, 0, 0, 0, 0, 1, 0, 0, 0, 0};                                     /* 1: 0; 2: none */
    word(cache + 12, 77);
    word(cache + 16, 5);
    word(cache + 24, 3);
    word(cache + 40, (uint32_t)cache_rng);
    word(cache + 44, (uint32_t)(cache_rng >> 32));
    memcpy(cache + 48, links, sizeof links);
    return closed(cache, 48 + sizeof links);
}

static void caches(void)
{
    size_t n = made_cache();
    bool good = true;
    for (size_t words = 0; words < 6; words++) {
        uint8_t *bytes = copied(0, cache, n);
        uint64_t *starts = filled(1, 8 * words);
        lambspool_cache c;
        good = good && lambspool_read_cache(&c, bytes, n, 1, 16, 200, 42, 0, 77, 5, 3, starts, words) == &c;
        if (words < 3)
            good = good && c.number == LAMBSPOOL_TOO_FEW_STARTS && c.nodes == 0 && c.entry == LAMBSPOOL_NO_NODE && c.rng_state == 0 && all(starts, 8 * words, 0);
        else {
            lambspool_neighbours_part p;
            good = good && c.number == 0 && c.nodes == 3 && c.entry == 0 && c.rng_state == cache_rng && starts[0] == 48 && starts[1] == 65 && starts[2] == 74 && all(starts + 3, 8 * (words - 3), 0);
            good = good && lambspool_neighbours(&p, bytes, n, starts, words, 3, 0, 0) == &p && p.number == 0 && p.at == 53 && p.length == 8;
            lambspool_neighbours(&p, bytes, n, starts, words, 3, 0, 1);
            good = good && p.number == 0 && p.length == 0;
            lambspool_neighbours(&p, bytes, n, starts, words, 3, 2, 1);
            good = good && p.number == LAMBSPOOL_NO_SUCH_NODE && p.at == 0 && p.length == 0;
            lambspool_neighbours(&p, bytes, n, starts, words, 3, 3, 0);
            good = good && p.number == LAMBSPOOL_NO_SUCH_NODE;
            lambspool_neighbours(&p, bytes, 50, starts, words, 3, 0, 0);
            good = good && p.number == LAMBSPOOL_ROW_DOES_NOT_FIT;
        }
    }
    check("a cache read, and neighbours in place", good);
}

static void wrong_caches(void)
{
    size_t n = made_cache();
    bool good = true;
    for (size_t i = 0; i < n; i++) {
        lambspool_cache c;
        uint64_t *starts = filled(1, 24);
        cache[i] ^= 0x55;
        lambspool_read_cache(&c, copied(0, cache, n), n, 1, 16, 200, 42, 0, 77, 5, 3, starts, 3);
        cache[i] ^= 0x55;
        good = good && c.number != 0 && c.entry == LAMBSPOOL_NO_NODE && c.nodes == 0 && all(starts, 24, 0);
    }
    for (size_t cut = 0; cut < n; cut++) {
        lambspool_cache c;
        lambspool_read_cache(&c, copied(0, cache, cut), cut, 1, 16, 200, 42, 0, 77, 5, 3, filled(1, 24), 3);
        good = good && c.number != 0;
    }
    {
        lambspool_cache c;
        uint64_t *starts = filled(1, 24);
        lambspool_read_cache(&c, copied(0, cache, n), n, 1, 16, 200, 42, 9, 77, 5, 3, starts, 3);
        good = good && c.number == LAMBSPOOL_WRONG_METRIC && all(starts, 24, 0);
        lambspool_read_cache(&c, copied(0, cache, n), n, 1, 16, 200, 42, 0, 78, 5, 3, starts, 3);
        good = good && c.number == LAMBSPOOL_STALE_CACHE;
    }
    check("every byte of a cache wrong, every cut: refused, and zeros", good);
}

static void crcs(void)
{
    static uint8_t bytes[20000];
    bool good = lambspool_crc32_of("123456789", 9) == 0xcbf43926 && lambspool_crc32_of(NULL, 0) == 0 && lambspool_crc32_finish(lambspool_crc32_start()) == 0;
    uint32_t seed = 1;
    for (size_t i = 0; i < sizeof bytes; i++)
        bytes[i] = (uint8_t)((seed = seed * 1664525 + 1013904223) >> 24);
    for (size_t piece = 1; piece < 9000; piece += piece / 2 + 1) {
        uint32_t crc = lambspool_crc32_start();
        for (size_t i = 0; i < sizeof bytes; i += piece) {
            size_t n = sizeof bytes - i < piece ? sizeof bytes - i : piece;
            crc = lambspool_crc32_update(crc, copied(0, bytes + i, n), n);
        }
        good = good && lambspool_crc32_finish(crc) == lambspool_crc32_of(bytes, sizeof bytes);
    }
    check("the CRC in pieces", good);
}

/* ---- long bytes, whose CRC takes the most stack */
static void longs(void)
{
    static const uint32_t one[1] = {0x3f800000};
    static char caption[LAMBSPOOL_MAX_CAPTION];
    const uint64_t put[2] = {7, LAMBSPOOL_PUT(LAMBSPOOL_MAX_CAPTION, 0)}, more[2] = {7, LAMBSPOOL_PUT(LAMBSPOOL_MAX_CAPTION + 100000, 0)};
    size_t n = 37 + LAMBSPOOL_MAX_CAPTION, room = LAMBSPOOL_SNAPSHOT_AROUND + 17 + LAMBSPOOL_MAX_CAPTION;
    uint64_t *rows = filled(2, 32);
    uint32_t *active = filled(3, 8);
    uint8_t *bytes = copied(0, snapshot, snapshot_length), *out, *line;
    lambspool_recovery r;
    lambspool_snapshot s;
    lambspool_bytes b;
    memset(caption, 'x', sizeof caption);
    out = filled(1, n);
    b = lambspool_encode_frame(1, 16, 200, 42, 0, 1, put, 2, one, 1, copied(4, caption, sizeof caption), sizeof caption, out, n);
    check("a frame with the longest caption", b.number == 0 && b.length == n);
    check("one that is longer", lambspool_encode_frame(1, 16, 200, 42, 0, 1, more, 2, one, 1, caption, sizeof caption, at(5, 0), 0).number == LAMBSPOOL_CAPTION_TOO_LONG);
    lambspool_recover(&r, bytes, snapshot_length, out, n, rows, 4, active, 2);
    check("it is recovered", r.number == 0 && r.records == 1 && r.keep == n && r.size == 17 + LAMBSPOOL_MAX_CAPTION);
    line = filled(4, LAMBSPOOL_MAX_NODE_LINE);
    b = lambspool_node_line(bytes, snapshot_length, out, n, rows, 4, 1, 0, 1, line, LAMBSPOOL_MAX_NODE_LINE);
    check("its line", b.number == 0 && b.length == 10 + LAMBSPOOL_MAX_CAPTION && memcmp(line, "0 7 live x", 10) == 0);
    line = filled(5, room);
    b = lambspool_write_snapshot(1, 16, 200, 42, 0, 1, rows, 4, 1, bytes, snapshot_length, out, n, line, room);
    lambspool_read_snapshot(&s, line, room, rows, 4, active, 2);
    check("a snapshot of it, written and read", b.number == 0 && b.length == room && s.number == 0 && s.records == 1 && s.size == r.size);
}

static void every_call(void)
{
    for (int back = 0; back < 2; back++) {
        behind = back;
        crcs();
        example();
        puts_that_do_not_fit();
        recoveries();
        wrong_bytes();
        walks();
        any_places();
        wrong_frames();
        wrong_walks();
        looks();
        lines_of_nodes();
        written_again();
        wrong_sequence();
        lines();
        caches();
        wrong_caches();
        longs();
    }
}

/* ---- threads, and the stack that the header says */
static void *apart(void *own)
{
    uint64_t rows[16];
    uint32_t active[8];
    lambspool_recovery r;
    uintptr_t good = 1;
    for (int i = 0; i < 2000; i++) {
        lambspool_recover(&r, snapshot, snapshot_length, store_log, log_length, rows, 16, active, 8);
        good &= r.number == 0 && r.records == 4 && r.active == 1 && active[0] == 1 && rows[2] == 7;
    }
    return good ? own : NULL;
}

static void *on_little(void *nothing)
{
    every_call();
    return nothing;
}

int main(int count, char **words)
{
    (void)words;
    check("fenced memory", fence());
    if (failed == 0) {
        pthread_t threads[4];
        int own[4];
        bool good = true;
        every_call();
        for (int i = 0; i < 4; i++)
            good = pthread_create(&threads[i], NULL, apart, &own[i]) == 0 && good;
        for (int i = 0; good && i < 4; i++) {
            void *gave;
            good = pthread_join(threads[i], &gave) == 0 && gave == &own[i];
        }
        check("four threads at once", good);
        if (count == 1) { /* with any word: not under a sanitizer, which takes stack of its own */
            pthread_attr_t attributes;
            pthread_t thread;
            good = pthread_attr_init(&attributes) == 0 && pthread_attr_setguardsize(&attributes, PAGE) == 0
                && pthread_attr_setstacksize(&attributes, 65536 + 8192) == 0 && pthread_create(&thread, &attributes, on_little, NULL) == 0 && pthread_join(thread, NULL) == 0;
            check("every call on a stack of 64 KiB, and 8 for this program", good);
        }
    }
    printf("%d passed, %d failed\n", passed, failed);
    return failed != 0;
}
