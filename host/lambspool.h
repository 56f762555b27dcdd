/* lambspool.h: stores of any legal size, from C and C++, version 0.2.0
 *
 * A port of parts of vecnook, Copyright (c) 2026 Gayoung; MIT licence, whose text is in the repository's NOTICE.
 *
 * A store is a snapshot and a log, and beside them a graph cache that can be missing. These calls recover a store, read a snapshot or
 * a cache, look at what was read, walk a log, and write snapshots and frames of the log. Each is proved to do what its definition says
 * (crates/lambspool; docs/BELIEVE.md tells which definitions those are). Link liblambspool.a and nothing else:
 *
 *     gcc host.c -I DIR DIR/liblambspool.a -o host           (tools/archive DIR leaves both files in DIR)
 *     gcc host.c $(pkg-config --cflags --libs lambspool) -o host                     (after make -C host install)
 *
 * The host reads and writes files and holds the lock; no call here knows of files. docs/PLAYOUT.md has what that asks of a host.
 * host/caption.c is a short whole host: it recovers a store and prints the caption of an ID. host/lambspool.c is a longer one,
 * which lists, checks and writes stores. The playout host's three calls are in playout.h; both can be linked into one program.
 *
 * What every call asks
 *   Any numbers and any bytes may be handed in. Of a pointer a call asks what C asks of memory that is handed over: it can be read, or
 *   where it is not const written, for as many entries as the number behind it says; it is aligned as its type asks (bytes: not at
 *   all); no one else changes it until the call is back; and what is lent to be written overlaps nothing else that is handed in. A
 *   mapped file that another process may cut or write is no such memory: read it into memory of your own. With a count of 0 the
 *   pointer may be null.
 *
 * What every call gives
 *   `number` is 0 if nothing is refused, and else one of the numbers below. What a refused call leaves is said at each call.
 *   A result of more than 16 bytes is written to `*result`, whose address is given back; `*result` need not be set before. Every field
 *   of it is set, of a refused call too; what the bytes between two fields (padding) hold then is not said.
 *
 * What no call does
 *   No call keeps a pointer, allocates, blocks, sets errno, or has state: any number of calls may run at once in threads, each with
 *   tables of its own.
 *
 * How long a call takes
 *   Time grows with the bytes handed in and with the rows lent; for the longest files that is a second or two. Of a log it grows with
 *   the operations too, since each looks for its ID among the live ones, in a tree of up to 64 levels. A log of 1 GiB has room for
 *   119 million deletes in batches: with 95,000 live records and random IDs, none of them live, its recovery took 20 seconds of a
 *   processor, and two minutes with IDs that were chosen to make the tree deep.
 *
 * Stack
 *   Leave 64 KiB. tests/the_program runs every call on no more. */
#ifndef LAMBSPOOL_H
#define LAMBSPOOL_H

#include <stddef.h>
#include <stdint.h>

#ifdef __cplusplus
extern "C" {
#endif

/* The library takes sizes of 8 bytes: where size_t has others, this does not compile. */
typedef char lambspool_size_t_has_8_bytes[sizeof(size_t) == 8 ? 1 : -1];

#define LAMBSPOOL_VERSION "0.2.0"
#define LAMBSPOOL_VERSION_NUMBER 0x000200 /* major, minor, patch: 16, 8 and 8 bits */

/* ---- bounds */

#define LAMBSPOOL_MAX_SNAPSHOT 268435456 /* bytes of a snapshot, at least 52 */
#define LAMBSPOOL_MAX_LOG 1073741824     /* bytes of a log */
#define LAMBSPOOL_MAX_CACHE 134217728    /* bytes of a graph cache, at least 52 */
#define LAMBSPOOL_MAX_RECORDS 100000     /* records of a store, live and deleted */
#define LAMBSPOOL_MAX_DIMENSIONS 4096    /* coordinates of a vector, at least 1 */
#define LAMBSPOOL_MAX_CAPTION 16384      /* bytes of a caption */
#define LAMBSPOOL_MAX_FRAME 8388620      /* bytes of a frame: a payload of 17 to 8,388,608 and 12 around it */
#define LAMBSPOOL_MAX_OPERATIONS 1024    /* operations of a batch, at least 1 */

/* Bytes beside what a caller counts itself. */
#define LAMBSPOOL_SNAPSHOT_AROUND 56 /* of a full snapshot around its records: it has 56 + `size` bytes */
#define LAMBSPOOL_DELETE_FRAME 29    /* of a frame of one delete; in playout.h too */

/* Tables that suffice for every legal store: 1,600,000 bytes of rows, 400,000 of active nodes, 800,000 of starts. */
#define LAMBSPOOL_ROW_WORDS (2 * LAMBSPOOL_MAX_RECORDS)
#define LAMBSPOOL_ACTIVE_ENTRIES LAMBSPOOL_MAX_RECORDS
#define LAMBSPOOL_START_WORDS LAMBSPOOL_MAX_RECORDS

/* Room that suffices for every line of a listing. */
#define LAMBSPOOL_MAX_FIRST_LINE 193
#define LAMBSPOOL_MAX_REFUSAL_LINE 64
#define LAMBSPOOL_MAX_NODE_LINE (LAMBSPOOL_MAX_CAPTION + 48)

/* ---- numbers of refusal */

enum lambspool_number {
    LAMBSPOOL_ACCEPTED = 0,
    LAMBSPOOL_LENGTH_OUT_OF_BOUNDS = 1,  /* a snapshot or a cache is too short or too long */
    LAMBSPOOL_WRONG_MAGIC = 2,           /* it does not begin as a snapshot */
    LAMBSPOOL_WRONG_VERSION = 3,         /* of a snapshot: not 1 or 2 */
    LAMBSPOOL_PAST_THE_END = 4,          /* a field runs past the body or the payload */
    LAMBSPOOL_WRONG_METRIC = 5,          /* not 0, 1 or 2 */
    LAMBSPOOL_WRONG_DIMENSIONS = 6,      /* not 1 to 4096 */
    LAMBSPOOL_WRONG_M = 7,               /* not 2 to 64 */
    LAMBSPOOL_WRONG_EF = 8,              /* not M to 4096 */
    LAMBSPOOL_WRONG_COUNT = 9,           /* of records: over 100,000, more than can follow, or in version 1 over the sequence */
    LAMBSPOOL_WRONG_FLAG = 10,           /* of a record: not 0 or 1 */
    LAMBSPOOL_VECTOR_PAST_THE_END = 11,  /* of a snapshot's record */
    LAMBSPOOL_NOT_FINITE = 12,           /* a coordinate */
    LAMBSPOOL_VECTOR_ALL_ZERO = 13,      /* with the cosine metric */
    LAMBSPOOL_CAPTION_TOO_LONG = 14,     /* over 16,384 bytes */
    LAMBSPOOL_NOT_UTF8 = 15,             /* a caption */
    LAMBSPOOL_BYTES_LEFT_OVER = 16,      /* behind the last field */
    LAMBSPOOL_WRONG_FILE_CRC = 17,       /* of a snapshot or a cache */
    LAMBSPOOL_ACTIVE_TWICE = 18,         /* an ID is live twice in a snapshot */
    LAMBSPOOL_TOO_FEW_ROWS = 19,         /* lent: see lambspool_recover */
    LAMBSPOOL_LOG_TOO_LONG = 20,         /* over 1,073,741,824 bytes */
    LAMBSPOOL_WRONG_LENGTH_CRC = 21,     /* of a frame */
    LAMBSPOOL_WRONG_LENGTH = 22,         /* of a payload: not 17 to 8,388,608 */
    LAMBSPOOL_WRONG_PAYLOAD_CRC = 23,    /* of a frame */
    LAMBSPOOL_WRONG_SEQUENCE = 24,       /* of a frame: 0, of the first one too, or not one more than the frame before; to an encoder: 0 */
    LAMBSPOOL_WRONG_BATCH_COUNT = 25,    /* not 1 to 1024, or more than can follow */
    LAMBSPOOL_UNKNOWN_OPERATION = 26,    /* of a frame */
    LAMBSPOOL_GAP_AFTER_SNAPSHOT = 27,   /* the first frame to replay is not the snapshot's next */
    LAMBSPOOL_STORAGE_LIMITS = 28,       /* a put finds 100,000 records, or passes a snapshot's bytes */
    LAMBSPOOL_INACTIVE_DELETE = 29,      /* a frame of one delete whose ID is not live */
    LAMBSPOOL_NO_SUCH_NODE = 30,         /* a node or a count is not within the table lent, or a level not within a node */
    LAMBSPOOL_ROW_DOES_NOT_FIT = 31,     /* a row's part, or a cache's byte, is not inside the bytes handed in; to a writer also: a deleted row with
                                            a caption length, or a length over 16,384 */
    LAMBSPOOL_OUTPUT_TOO_SHORT = 32,     /* the room lent */
    LAMBSPOOL_REQUEST_MALFORMED = 33,    /* operations handed to an encoder, or a kind of frame that is none */
    LAMBSPOOL_TOO_LARGE = 34,            /* the snapshot to be written */
    LAMBSPOOL_FILE_UNREADABLE = 35,      /* given by no call here: the listing's own, for a host that cannot open or read a file */
    /* of a cache, to 51 */
    LAMBSPOOL_STALE_CACHE = 40,          /* its header is not this snapshot's: magic, version (not 1), the snapshot's CRC, or its sequence */
    LAMBSPOOL_WRONG_NODE_COUNT = 41,     /* not `count`, or over 100,000 */
    LAMBSPOOL_WRONG_ENTRY = 42,          /* the entry is not below the count */
    LAMBSPOOL_MISSING_ENTRY = 43,        /* no entry, though there are nodes */
    LAMBSPOOL_WRONG_RNG_STATE = 44,      /* not the seed + count * 0x9e3779b97f4a7c15, modulo 2^64 */
    LAMBSPOOL_COUNT_OVER_BYTES = 45,     /* more nodes than can follow: 5 bytes are the least of a node */
    LAMBSPOOL_WRONG_LEVELS = 46,         /* of a node: not 1 to 33 */
    LAMBSPOOL_WRONG_DEGREE = 47,         /* neighbours of a node: over 2 M at level 0, or over M above */
    LAMBSPOOL_WRONG_NEIGHBOUR = 48,      /* not below the count, the node itself, or twice in its list */
    LAMBSPOOL_EDGE_TO_MISSING_LEVEL = 49, /* a neighbour at a level that it does not have */
    LAMBSPOOL_ENTRY_BELOW_HIGHEST = 50,  /* a node has more levels than the entry */
    LAMBSPOOL_TOO_FEW_STARTS = 51        /* lent: see lambspool_read_cache */
};

/* No node: lookup found none or refused, a cache has no entry or was refused. */
#define LAMBSPOOL_NO_NODE UINT32_MAX

/* Where something lies, or what was refused. LAMBSPOOL_FILE is for lambspool_refusal_line alone. */
#define LAMBSPOOL_SNAPSHOT 0
#define LAMBSPOOL_LOG 1
#define LAMBSPOOL_FILE 2

/* Metrics. */
#define LAMBSPOOL_SQUARED_L2 0
#define LAMBSPOOL_COSINE 1
#define LAMBSPOOL_INNER_PRODUCT 2

/* A node is a place in the record table, from 0 on in the order of the snapshot and then of the log; an ID is the application's
 * number. Neither is ever taken for the other. */

/* ---- rows and operations: two words each */

/* A row is the ID, then a packed word. */
#define LAMBSPOOL_ROW_DELETED(word) ((int)((uint64_t)(word) >> 63))
#define LAMBSPOOL_ROW_SOURCE(word) ((uint32_t)((uint64_t)(word) >> 62 & 1)) /* LAMBSPOOL_SNAPSHOT or LAMBSPOOL_LOG */
#define LAMBSPOOL_ROW_CAPTION_LENGTH(word) ((size_t)((uint64_t)(word) >> 47 & 0x7fff))
#define LAMBSPOOL_ROW_OFFSET(word) ((size_t)((uint64_t)(word) & 0x7fffffffffff)) /* of the first coordinate byte in the source */

/* An operation is the ID, then a packed word: LAMBSPOOL_PUT says where a put's caption lies in the captions handed in; a delete has
 * LAMBSPOOL_DELETE. A length or an offset that has no place in the word, a negative one too, becomes the largest that has, which is
 * refused by 14 or by 33 as it would be itself. Each is evaluated once; in C it is no constant, so not for a static initializer. */
static inline uint64_t lambspool_put(uint64_t caption_length, uint64_t caption_offset)
{
    const uint64_t longest = 0x7fff, last = 0xffffffffffff;
    return (uint64_t)1 << 63 | (caption_length < longest ? caption_length : longest) << 48 | (caption_offset < last ? caption_offset : last);
}
#define LAMBSPOOL_PUT(caption_length, caption_offset) lambspool_put((uint64_t)(caption_length), (uint64_t)(caption_offset))
#define LAMBSPOOL_DELETE ((uint64_t)0)

/* ---- the CRC-32 of IEEE 802.3 */

uint32_t lambspool_crc32_start(void);
uint32_t lambspool_crc32_update(uint32_t crc, const void *bytes, size_t length);
uint32_t lambspool_crc32_finish(uint32_t crc);
/* In pieces, so that a file need not be in memory at once: start, then an update for each piece in order, then finish gives what
 * lambspool_crc32_of gives of the whole. Between start and finish the number is a register, not a CRC. */

uint32_t lambspool_crc32_of(const void *bytes, size_t length);
/* As zlib's crc32(0, ..); of no bytes it is 0. */

/* ---- reading */

typedef struct lambspool_snapshot {
    uint32_t number;
    uint32_t crc;             /* the snapshot's own, its last 4 bytes */
    uint32_t metric;
    size_t dimensions;
    size_t m;
    size_t ef_construction;
    uint64_t seed;
    uint64_t sequence;        /* of the last change that is inside */
    size_t records;           /* live and deleted: nodes 0 to records - 1 */
    size_t active;            /* live */
    size_t size;              /* bytes of the records, were they written; a full snapshot has LAMBSPOOL_SNAPSHOT_AROUND more */
} lambspool_snapshot;

lambspool_snapshot *lambspool_read_snapshot(lambspool_snapshot *result, const void *bytes, size_t length,
    uint64_t *rows, size_t row_words, uint32_t *active, size_t active_entries);
/* Reads a snapshot of version 1 or 2.
 *
 * Rows lent are the least of row_words / 2, active_entries and 100,000; a snapshot with more records is refused by 19.
 *
 * Accepted: rows holds a row a record in node order, active the live nodes by rising ID, and both zeros behind.
 * Refused, by 1 to 19: both tables are all zeros, and so is every field but number. */

typedef struct lambspool_recovery {
    uint32_t number;
    uint32_t source;          /* refused: LAMBSPOOL_SNAPSHOT or LAMBSPOOL_LOG */
    uint32_t crc;             /* the snapshot's */
    uint32_t metric;
    size_t at;                /* refused in the log: the first byte of the frame that was refused; by 20, 0 */
    size_t dimensions;
    size_t m;
    size_t ef_construction;
    uint64_t seed;
    uint64_t sequence;        /* of the last change: the snapshot's if no frame was replayed */
    size_t records;
    size_t active;
    size_t replayed;          /* frames of the log that were taken */
    size_t skipped;           /* frames at or below the snapshot's sequence: already inside, so not taken again */
    size_t keep;              /* the byte behind the last whole frame */
    size_t tail;              /* bytes from there to the log's end: no whole frame, not read */
    size_t size;
} lambspool_recovery;

lambspool_recovery *lambspool_recover(lambspool_recovery *result, const void *snapshot, size_t snapshot_length,
    const void *log, size_t log_length, uint64_t *rows, size_t row_words, uint32_t *active, size_t active_entries);
/* Reads a snapshot and takes the log's frames in order; nothing is repaired. Tables as for lambspool_read_snapshot: a row for each
 * record of the snapshot and for each put that was taken. With LAMBSPOOL_ROW_WORDS and LAMBSPOOL_ACTIVE_ENTRIES lent no legal store
 * is refused by 19.
 *
 * Accepted: source and at are 0. Refused: both tables are all zeros, and every field but number, source and at. The log's length (20)
 * is tested first, then the snapshot (1 to 19), then the log (4, 12 to 16, 19, 21 to 29). */

/* ---- a log, frame by frame: what was in it, whether or not a recovery takes it */

/* Kinds of frames. LAMBSPOOL_NO_FRAME: too little is left for a whole frame. */
#define LAMBSPOOL_NO_FRAME 0
#define LAMBSPOOL_SINGLE 1
#define LAMBSPOOL_BATCH 2

/* Tags of operations. */
#define LAMBSPOOL_TAG_PUT 1
#define LAMBSPOOL_TAG_DELETE 2

typedef struct lambspool_frame {
    uint32_t number;
    uint32_t kind;            /* LAMBSPOOL_SINGLE or LAMBSPOOL_BATCH; LAMBSPOOL_NO_FRAME where there is none, or it was refused */
    uint64_t sequence;
    size_t operations;        /* how many: of a single frame 1, of a batch 1 to 1024 */
    size_t at;                /* the frame's first byte */
    size_t first;             /* the tag of its first operation: for lambspool_operation_at */
    size_t end;               /* the byte behind its last operation: for lambspool_operation_at */
    size_t next;              /* the byte behind the frame, where the next one begins: 4 more than end */
} lambspool_frame;

lambspool_frame *lambspool_frame_at(lambspool_frame *result, size_t dimensions, size_t m, size_t ef_construction, uint64_t seed,
    uint32_t metric, const void *log, size_t log_length, uint64_t previous, size_t at);
/* Reads the frame whose first byte is `at`, its CRCs and all its operations. Settings are those of the snapshot beside the log. To
 * walk a log, begin at byte 0 with `previous` 0; go on at the `next` of each frame, with its sequence as `previous`.
 *
 * Test number, then kind: where both are 0, the log ends at `at` or before it, or fewer bytes are left than the frame has. That is a tail and no
 * refusal. Refused by 5 to 8, then 21, 22, 23, 24, 25, as operations are read 4, 26, 12 to 15, then 16. In both cases every other
 * field is 0. A frame that is found here a recovery can still refuse, by 19, 27, 28 or 29. */

typedef struct lambspool_operation {
    uint32_t number;
    uint32_t tag;             /* LAMBSPOOL_TAG_PUT or LAMBSPOOL_TAG_DELETE; refused: 0 */
    uint64_t id;
    size_t vector;            /* a put: the first byte of its coordinates in the log, 4 bytes each; else 0 */
    size_t caption;           /* a put: the first byte of its caption in the log; else 0 */
    size_t caption_length;    /* bytes, with no zero behind; a delete: 0 */
    size_t next;              /* the tag of the next operation; behind the last one, the frame's end */
} lambspool_operation;

lambspool_operation *lambspool_operation_at(lambspool_operation *result, size_t dimensions, size_t m, size_t ef_construction,
    uint64_t seed, uint32_t metric, const void *log, size_t log_length, uint32_t kind, size_t end, size_t at);
/* Reads one operation of a frame that lambspool_frame_at found: kind and end are that frame's; `at` is its `first`, then the `next`
 * of the operation before, as many times as the frame has operations and no more. So called it refuses nothing, and the last `next`
 * is `end`.
 *
 * `end` is not the frame's `next` and not the log's length: with those, a CRC or another frame could be taken for an operation. With
 * any numbers the call stays inside the log. Refused by 5 to 8, 33 if kind is neither LAMBSPOOL_SINGLE nor LAMBSPOOL_BATCH, 4 if
 * `end` is past the log's end, then 4, 26, 12 to 15: every other field is 0. */

/* ---- looking at what was read: the tables, and the very bytes that were handed to the reading */

typedef struct lambspool_found {
    uint32_t number;
    uint32_t node;
} lambspool_found;

lambspool_found lambspool_lookup(const uint64_t *rows, size_t row_words, size_t count, uint64_t id);
/* The lowest live node of an ID below `count`; LAMBSPOOL_NO_NODE if there is none. Refused by 30 if `count` is over row_words / 2 or
 * over 100,000, as the views and the writers are.
 *
 * `count` is the `records` that the reading told, here and for the views, the writers and the lines of nodes. With a larger one that
 * is not refused, the zeros behind the records pass for live records with ID 0: a lookup of 0 finds the first of them. */

typedef struct lambspool_part {
    uint32_t number;
    uint32_t source;          /* LAMBSPOOL_SNAPSHOT or LAMBSPOOL_LOG */
    size_t at;                /* the part's first byte in that source */
    size_t length;
} lambspool_part;

lambspool_part *lambspool_caption(lambspool_part *result, const void *snapshot, size_t snapshot_length,
    const void *log, size_t log_length, const uint64_t *rows, size_t row_words, size_t count, uint32_t node, size_t dimensions);
lambspool_part *lambspool_vector(lambspool_part *result, const void *snapshot, size_t snapshot_length,
    const void *log, size_t log_length, const uint64_t *rows, size_t row_words, size_t count, uint32_t node, size_t dimensions);
/* Where the caption of a node lies, or its coordinates: 4 bytes each, f32 little-endian. A deleted node has the empty caption.
 * Refused by 6, 30 (no such node, or no `count` rows) or 31: the empty part at the snapshot's start. */

/* ---- the graph cache */

typedef struct lambspool_cache {
    uint32_t number;
    uint32_t entry;           /* a node, or LAMBSPOOL_NO_NODE */
    size_t nodes;
    uint64_t rng_state;
} lambspool_cache;

lambspool_cache *lambspool_read_cache(lambspool_cache *result, const void *bytes, size_t length,
    size_t dimensions, size_t m, size_t ef_construction, uint64_t seed, uint32_t metric,
    uint32_t snapshot_crc, uint64_t sequence, size_t count, uint64_t *starts, size_t start_words);
/* Reads the cache that belongs to a snapshot. Settings, CRC, sequence and count are those that lambspool_read_snapshot told of that
 * snapshot; a recovery's sequence and records are later, if a frame was replayed.
 *
 * Accepted: starts holds the byte at which each node begins, and zeros behind. Refused, by 1, 4 to 8, 16, 17 or 40 to 51: starts is
 * all zeros, entry LAMBSPOOL_NO_NODE, every other field 0. */

typedef struct lambspool_neighbours_part {
    uint32_t number;
    size_t at;
    size_t length;            /* bytes: 4 for each neighbour, a node as u32 little-endian */
} lambspool_neighbours_part;

lambspool_neighbours_part *lambspool_neighbours(lambspool_neighbours_part *result, const void *cache, size_t length,
    const uint64_t *starts, size_t start_words, size_t count, uint32_t node, size_t level);
/* Where the neighbours of a node at a level lie in the cache, with the starts that its reading left. Refused by 30 (no such node or
 * level, or no `count` starts) or 31: the empty part at the cache's start. */

/* ---- writing */

typedef struct lambspool_bytes {
    uint32_t number;
    size_t length;            /* written to the front of `out`; refused: 0 */
} lambspool_bytes;
/* No call writes behind the last byte of what it gives, and a refused one changes no byte of `out`. */

lambspool_bytes lambspool_write_snapshot(size_t dimensions, size_t m, size_t ef_construction, uint64_t seed, uint32_t metric,
    uint64_t sequence, const uint64_t *rows, size_t row_words, size_t count, const void *snapshot, size_t snapshot_length,
    const void *log, size_t log_length, void *out, size_t room);
lambspool_bytes lambspool_write_compacted_snapshot(size_t dimensions, size_t m, size_t ef_construction, uint64_t seed,
    uint32_t metric, uint64_t sequence, const uint64_t *rows, size_t row_words, size_t count, const void *snapshot,
    size_t snapshot_length, const void *log, size_t log_length, void *out, size_t room);
/* Writes a snapshot of version 2 of what a reading left: all its records, or the live ones alone, which then get new nodes. Settings,
 * sequence and count are those that the reading told, `snapshot` and `log` the bytes that it was handed (no log: 0 bytes). A room of
 * LAMBSPOOL_SNAPSHOT_AROUND + size always suffices. Captions and coordinates are copied and not tested again.
 *
 * No call can tell that `sequence` is wrong. With a higher one the next recovery skips frames whose changes are not inside, without a
 * sign: they are lost. With a lower one it takes changes twice, or refuses the log.
 *
 * Beside the whole log, a full snapshot written so recovers to the same records. Refused by 5 to 8, 30, 31, 34, 32, in this order. */

lambspool_bytes lambspool_encode_frame(size_t dimensions, size_t m, size_t ef_construction, uint64_t seed, uint32_t metric,
    uint64_t sequence, const uint64_t *operations, size_t operation_words, const uint32_t *coordinates, size_t coordinate_count,
    const void *captions, size_t captions_length, void *out, size_t room);
lambspool_bytes lambspool_encode_batch(size_t dimensions, size_t m, size_t ef_construction, uint64_t seed, uint32_t metric,
    uint64_t sequence, const uint64_t *operations, size_t operation_words, const uint32_t *coordinates, size_t coordinate_count,
    const void *captions, size_t captions_length, void *out, size_t room);
/* Writes one frame of the log: of exactly one operation, or of a batch of 1 to 1024 that is taken whole or not at all. `operations`
 * has two words each; `coordinates` the bits of the f32 coordinates, `dimensions` for each put, in the order of the puts. `sequence`
 * is one more than that of the log's last frame, or of an empty log than the snapshot's; docs/PLAYOUT.md says when a frame may be appended.
 * No call here can tell that it is wrong: the next recovery refuses the log, by 24 or 27, or where it is not above the snapshot's
 * sequence skips the frame without a sign.
 *
 * Refused by 5 to 8, 24 (sequence 0), 25, 33, then for each operation 14, 33, 12, 13, 15; then 22, 32. */

/* ---- the lines of a listing, each with its newline */

lambspool_bytes lambspool_first_line(uint64_t sequence, size_t records, size_t active, size_t replayed, size_t skipped,
    size_t keep, size_t tail, void *out, size_t room);
/* Of an accepted recovery: "seq 2 records 2 active 1 replayed 2 skipped 0 keep 78 tail 3". Refused by 32. */

lambspool_bytes lambspool_refusal_line(uint32_t source, uint32_t number, size_t at, void *out, size_t room);
/* "refused snapshot 17", "refused log 21 at 39", or "refused file 35" if source is neither LAMBSPOOL_SNAPSHOT nor LAMBSPOOL_LOG; the
 * numbers are written as they are handed in. Refused by 32. */

lambspool_bytes lambspool_node_line(const void *snapshot, size_t snapshot_length, const void *log, size_t log_length,
    const uint64_t *rows, size_t row_words, size_t count, uint32_t node, size_t dimensions, void *out, size_t room);
/* "1 7 live Ho" or "0 7 gone": node, ID, state, and the caption of a live node as it is stored, whatever it holds. Refused as
 * lambspool_caption is, then by 32. */

#ifdef __cplusplus
}
#endif

#endif
