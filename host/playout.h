/* playout.h: the three calls of Lambspool for a playout host, version 0.2.0
 *
 * A port of parts of vecnook, Copyright (c) 2026 Gayoung; MIT licence, whose text is in the repository's NOTICE.
 *
 * The CRC of bytes, whether bytes are UTF-8, and a log frame that deletes a still, for C and C++. Link libplayout.a and nothing else:
 *
 *     gcc host.c -I DIR DIR/libplayout.a -o host             (tools/archive DIR leaves both files in DIR)
 *     gcc host.c $(pkg-config --cflags --libs playout) -o host                       (after make -C host install)
 *
 * docs/PLAYOUT.md says when the frame may be appended; host/withdraw.c is a whole program that does it. To read and write whole stores
 * take lambspool.h; both libraries can be linked into one program.
 *
 * Every call takes any numbers and any bytes. Of a pointer it asks what C asks of memory that is handed over: `bytes` can be read for
 * `length` bytes, `out` can be written for `room` bytes, and no one else changes them until the call is back. No alignment is asked.
 * With length or room 0 the pointer may be null; nothing is read or written through it. No call keeps a pointer, allocates, blocks,
 * sets errno, or has state: any number may run at once in threads, and in a signal handler.
 * The CRC makes what it needs on the stack: leave 64 KiB, on which tests run the same CRC. */
#ifndef PLAYOUT_H
#define PLAYOUT_H

#include <stdbool.h>
#include <stddef.h>
#include <stdint.h>

#ifdef __cplusplus
extern "C" {
#endif

/* The library takes sizes of 8 bytes: where size_t has others, this does not compile. */
typedef char playout_size_t_has_8_bytes[sizeof(size_t) == 8 ? 1 : -1];

#define PLAYOUT_VERSION "0.2.0"

/* How many bytes a delete frame has; in lambspool.h too. */
#define LAMBSPOOL_DELETE_FRAME 29

/* The CRC-32 of IEEE 802.3 of `length` bytes, as zlib's crc32(0, ..) gives it; of no bytes it is 0. */
uint32_t lambspool_crc32(const void *bytes, size_t length);

/* Whether `length` bytes are UTF-8 by RFC 3629: no surrogates, nothing over U+10FFFF, no longer form than needed; no bytes are. */
bool lambspool_is_utf8(const void *bytes, size_t length);

/* Writes the log frame that deletes `id` under `sequence` to out's first 29 bytes and gives 29. If `sequence` is 0 or `room` below 29
 * it gives 0 and changes no byte. Bytes behind the 29th are never touched. docs/PLAYOUT.md says when the frame may be appended, and with
 * which sequence: with a wrong one the next recovery refuses the log, or skips the frame without a sign. */
size_t lambspool_delete_frame(uint64_t sequence, uint64_t id, void *out, size_t room);

#ifdef __cplusplus
}
#endif

#endif
