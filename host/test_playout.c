/* Calls the three functions of playout.h and says what was wrong: a line for each check, and last 'N passed, M failed'.
 * It includes nothing but the header, so that it also compiles where there is no C library for x86-64; hence the declarations. */
#include "playout.h"

int printf(const char *, ...);
void *mmap(void *, size_t, int, int, int, long);
int mprotect(void *, size_t, int);
void *memcpy(void *, const void *, size_t);
void *memset(void *, int, size_t);

static int passed, failed;

static void check(const char *name, bool good)
{
    if (good)
        passed++;
    else
        failed++;
    printf("%s %s\n", good ? "ok" : "FAILED", name);
}

/* ---- memory between two pages that fault, so that a read or a write outside is the end of the program */
enum { PAGE = 65536, SPAN = 2 * PAGE };

static uint8_t *span;

static bool fence(void)
{
    uint8_t *all = mmap(0, SPAN + 2 * PAGE, 3, 0x22, -1, 0);
    if (all == (uint8_t *)-1)
        return false;
    span = all + PAGE;
    return mprotect(all, PAGE, 0) == 0 && mprotect(span + SPAN, PAGE, 0) == 0;
}

/* a place for n bytes at the fence: right before the page behind, or right after the page before */
static uint8_t *at_fence(size_t n, bool behind)
{
    return behind ? span + SPAN - n : span;
}

/* ---- CRC-32 */
static uint32_t bit_by_bit(const uint8_t *s, size_t n)
{
    uint32_t c = 0xffffffff;
    for (size_t i = 0; i < n; i++) {
        c ^= s[i];
        for (int k = 0; k < 8; k++)
            c = (c >> 1) ^ (c & 1 ? 0xedb88320 : 0);
    }
    return ~c;
}

struct crc_case {
    const char *text;
    size_t length;
    uint32_t crc;
};

static const struct crc_case known[] = {
    {"", 0, 0},
    {"a", 1, 0xe8b7be43},
    {"abc", 3, 0x352441c2},
    {"123456789", 9, 0xcbf43926},
    {"message digest", 14, 0x20159d7f},
    {"abcdefghijklmnopqrstuvwxyz", 26, 0x4c2750bd},
    {"The quick brown fox jumps over the lazy dog", 43, 0x414fa339},
    {"ABCDEFGHIJKLMNOPQRSTUVWXYZabcdefghijklmnopqrstuvwxyz0123456789", 62, 0x1fc2e6d2},
    {"12345678901234567890123456789012345678901234567890123456789012345678901234567890", 80, 0x7ca94a72},
};

static void known_crcs(void)
{
    bool good = true;
    for (size_t i = 0; i < sizeof known / sizeof known[0]; i++)
        for (int behind = 0; behind < 2; behind++) {
            uint8_t *p = at_fence(known[i].length, behind);
            memcpy(p, known[i].text, known[i].length);
            good = good && lambspool_crc32(p, known[i].length) == known[i].crc;
        }
    check("crc32: published vectors", good);

    uint8_t *p = at_fence(32, true);
    memset(p, 0, 32);
    good = lambspool_crc32(p, 32) == 0x190a55ad;
    memset(p, 0xff, 32);
    good = good && lambspool_crc32(p, 32) == 0xff6cab0b;
    for (int i = 0; i < 32; i++)
        p[i] = i;
    good = good && lambspool_crc32(p, 32) == 0x91267e8a;
    check("crc32: 32 bytes of zeros, of ones, rising", good);
}

static void crcs_bit_by_bit(void)
{
    uint32_t seed = 1;
    bool good = true;
    for (int i = 0; i < SPAN; i++) {
        seed = seed * 1664525 + 1013904223;
        span[i] = seed >> 24;
    }
    for (size_t n = 0; n <= 1100; n++)
        for (int behind = 0; behind < 2; behind++)
            good = good && lambspool_crc32(at_fence(n, behind), n) == bit_by_bit(at_fence(n, behind), n);
    check("crc32: every length up to 1,100 at either fence, as bit by bit", good);
    good = true;
    for (size_t shift = 0; shift < 16; shift++)
        good = good && lambspool_crc32(span + shift, SPAN - shift) == bit_by_bit(span + shift, SPAN - shift);
    check("crc32: 131,072 bytes at every alignment", good);
}

/* ---- UTF-8 */
struct utf8_case {
    const char *text;
    size_t length;
    bool good;
};

static bool is_utf8(const void *s, size_t n)
{
    uint8_t *p = at_fence(n, true);
    memcpy(p, s, n);
    bool one = lambspool_is_utf8(p, n);
    p = at_fence(n, false);
    memcpy(p, s, n);
    bool two = lambspool_is_utf8(p, n);
    if (one != two)
        check("utf8: the same at either fence", false);
    return one;
}

static size_t utf8_of(uint32_t u, uint8_t *s)
{
    if (u < 0x80) {
        s[0] = u;
        return 1;
    }
    if (u < 0x800) {
        s[0] = 0xc0 | u >> 6;
        s[1] = 0x80 | (u & 63);
        return 2;
    }
    if (u < 0x10000) {
        s[0] = 0xe0 | u >> 12;
        s[1] = 0x80 | (u >> 6 & 63);
        s[2] = 0x80 | (u & 63);
        return 3;
    }
    s[0] = 0xf0 | u >> 18;
    s[1] = 0x80 | (u >> 12 & 63);
    s[2] = 0x80 | (u >> 6 & 63);
    s[3] = 0x80 | (u & 63);
    return 4;
}

static const struct utf8_case cases[] = {
    /* RFC 3629, section 7 */
    {"\x41\xe2\x89\xa2\xce\x91\x2e", 7, true},
    {"\xed\x95\x9c\xea\xb5\xad\xec\x96\xb4", 9, true},
    {"\xe6\x97\xa5\xe6\x9c\xac\xe8\xaa\x9e", 9, true},
    {"\xef\xbb\xbf\xf0\xa3\x8e\xb4", 7, true},
    /* sections 3, 4 and 10: what is never UTF-8 */
    {"\xc0\x80", 2, false},
    {"\xc1\xbf", 2, false},
    {"\x2f\xc0\xae\x2e\x2f", 5, false},
    {"\xe0\x9f\xbf", 3, false},
    {"\xed\xa1\x8c\xed\xbe\xb4", 6, false},
    {"\xed\xa0\x80", 3, false},
    {"\xed\xbf\xbf", 3, false},
    {"\xf0\x8f\xbf\xbf", 4, false},
    {"\xf4\x90\x80\x80", 4, false},
    {"\xf5\x80\x80\x80", 4, false},
    {"\xf8\x88\x80\x80\x80", 5, false},
    {"\xfe", 1, false},
    {"\xff", 1, false},
    /* the edges of section 4's ranges */
    {"", 0, true},
    {"\x00", 1, true},
    {"\x7f", 1, true},
    {"\x80", 1, false},
    {"\xbf", 1, false},
    {"\xc2\x80", 2, true},
    {"\xdf\xbf", 2, true},
    {"\xe0\xa0\x80", 3, true},
    {"\xed\x9f\xbf", 3, true},
    {"\xee\x80\x80", 3, true},
    {"\xef\xbf\xbf", 3, true},
    {"\xf0\x90\x80\x80", 4, true},
    {"\xf4\x8f\xbf\xbf", 4, true},
};

static void utf8_examples(void)
{
    bool good = true;
    for (size_t i = 0; i < sizeof cases / sizeof cases[0]; i++)
        good = good && is_utf8(cases[i].text, cases[i].length) == cases[i].good;
    check("utf8: RFC 3629's examples, its exclusions, the edges of its ranges", good);
}

static void utf8_characters(void)
{
    uint8_t s[8];
    bool good = true;
    for (uint32_t u = 0; u <= 0x10ffff; u++) {
        size_t n = utf8_of(u, s);
        good = good && lambspool_is_utf8(s, n) == (u < 0xd800 || u > 0xdfff);
    }
    check("utf8: every code point, the surrogates refused", good);

    good = true;
    for (uint32_t u = 0x80; u <= 0x10ffff; u += 0x3f) {
        if (u >= 0xd800 && u <= 0xdfff)
            continue;
        size_t n = utf8_of(u, s);
        for (size_t cut = 1; cut < n; cut++)
            good = good && !is_utf8(s, cut) && !is_utf8(s + cut, n - cut);
    }
    check("utf8: characters cut short at either end", good);
}

static void utf8_bytes(void)
{
    uint8_t s[2];
    bool good = true;
    for (int a = 0; a < 256; a++)
        for (int b = 0; b < 256; b++) {
            s[0] = a;
            s[1] = b;
            bool want = (a < 0x80 && b < 0x80) || (a >= 0xc2 && a <= 0xdf && b >= 0x80 && b <= 0xbf);
            good = good && is_utf8(s, 2) == want;
        }
    check("utf8: every pair of bytes", good);

    uint8_t long_text[200];
    good = true;
    for (size_t at = 0; at < sizeof long_text; at++) {
        memset(long_text, 'x', sizeof long_text);
        good = good && is_utf8(long_text, sizeof long_text);
        long_text[at] = 0xff;
        good = good && !is_utf8(long_text, sizeof long_text);
    }
    check("utf8: one bad byte anywhere in 200", good);
}

/* ---- the delete frame */
static void number(uint8_t *s, uint64_t v, int n)
{
    for (int i = 0; i < n; i++)
        s[i] = v >> (8 * i);
}

static void frame_of(uint8_t *s, uint64_t sequence, uint64_t id)
{
    number(s, 17, 4);
    number(s + 4, bit_by_bit(s, 4), 4);
    s[8] = 2;
    number(s + 9, sequence, 8);
    number(s + 17, id, 8);
    number(s + 25, bit_by_bit(s + 8, 17), 4);
}

/* one call with `room` bytes lent between guards of 64 bytes */
static bool framed(uint64_t sequence, uint64_t id, size_t room, uint8_t fill)
{
    uint8_t memory[64 + 128 + 64], want[64 + 128 + 64];
    memset(memory, fill, sizeof memory);
    memset(want, fill, sizeof want);
    size_t give = sequence != 0 && room >= 29 ? 29 : 0;
    if (give)
        frame_of(want + 64, sequence, id);
    bool good = lambspool_delete_frame(sequence, id, memory + 64, room) == give;
    for (size_t i = 0; i < sizeof memory; i++)
        good = good && memory[i] == want[i];
    return good;
}

static void deletes(void)
{
    static const uint64_t numbers[] = {1, 2, 7, 255, 256, 0x0102030405060708, 0x8000000000000000, 0xfffffffffffffffe, 0xffffffffffffffff};
    enum { NUMBERS = sizeof numbers / sizeof numbers[0] };
    bool good = true;
    for (size_t room = 0; room < 29; room++)
        for (int i = 0; i < NUMBERS; i++)
            good = good && framed(numbers[i], numbers[NUMBERS - 1 - i], room, 0xa5) && framed(numbers[i], 0, room, 0);
    check("delete_frame: rooms of 0 to 28, nothing written, guards whole", good);

    good = true;
    for (int i = 0; i < NUMBERS; i++)
        for (int j = 0; j < NUMBERS; j++)
            good = good && framed(numbers[i], numbers[j], 29, 0xa5) && framed(numbers[i], numbers[j], 29, 0);
    check("delete_frame: a room of 29, every byte, guards whole", good);

    good = true;
    for (size_t room = 30; room <= 128; room++)
        good = good && framed(3, 7, room, 0x5a);
    check("delete_frame: larger rooms, nothing behind the 29th byte", good);

    good = true;
    for (size_t room = 0; room <= 64; room++)
        good = good && framed(0, 7, room, 0x5a);
    check("delete_frame: sequence 0, nothing written", good);

    uint8_t want[29];
    frame_of(want, 3, 7);
    good = true;
    for (int behind = 0; behind < 2; behind++) {
        uint8_t *p = at_fence(29, behind);
        good = good && lambspool_delete_frame(3, 7, p, 29) == 29;
        for (int i = 0; i < 29; i++)
            good = good && p[i] == want[i];
        for (size_t room = 0; room < 29; room++)
            good = good && lambspool_delete_frame(3, 7, at_fence(room, behind), room) == 0;
    }
    check("delete_frame: every short room and 29 at either fence", good);
    check("delete_frame: its CRCs by lambspool_crc32", lambspool_crc32(want, 4) == bit_by_bit(want, 4) && lambspool_crc32(want + 8, 17) == bit_by_bit(want + 8, 17));
}

static void nulls(void)
{
    check("null, length 0: crc32 is 0", lambspool_crc32(0, 0) == 0);
    check("null, length 0: is UTF-8", lambspool_is_utf8(0, 0));
    check("null, room 0: delete_frame gives 0", lambspool_delete_frame(1, 7, 0, 0) == 0 && lambspool_delete_frame(0, 7, 0, 0) == 0);
}

int main(void)
{
    check("fenced memory", fence());
    if (failed == 0) {
        known_crcs();
        crcs_bit_by_bit();
        utf8_examples();
        utf8_characters();
        utf8_bytes();
        deletes();
        nulls();
    }
    printf("%d passed, %d failed\n", passed, failed);
    return failed != 0;
}
