/*
 * write.c - calls gsym_write of include/gsym_write.h on rows made by hand and compares all that comes back: the bytes
 * of whole files, at every room from none to more than enough, every refusal with each of its fields, rows that don't
 * come out, and counts, places and lengths at their limit, over mappings that take no memory. What is read is lent
 * read-only and ends at a page that can't be read; what is written ends at a page that can't be written, and begins behind one.
 * The program's malloc and free are counted, and made to fail: link with -Wl,--wrap=malloc,--wrap=free. How much stack
 * a call takes is measured on a stack that was painted before. A wrong answer is printed, and the exit status is then
 * 1.
 */
#ifndef _DEFAULT_SOURCE
#define _DEFAULT_SOURCE
#endif
#include <pthread.h>
#include <stdio.h>
#include <stdlib.h>
#include <string.h>
#include <sys/mman.h>
#include <unistd.h>

#include "gsym_write.h"

static int failed;
static long checks;

#define CHECK(what) check((what), #what, __LINE__)

static void check(int holds, const char *what, int line)
{
    checks++;
    if (!holds) {
        failed++;
        if (failed < 30)
            printf("write.c:%d: not so: %s\n", line, what);
    }
}

/* ---- memory: how often it was taken and given back, how much, and which time it fails, counted from 1 */

#ifdef __cplusplus
extern "C" {
#endif
void *__real_malloc(size_t size);
void __real_free(void *at);
void *__wrap_malloc(size_t size);
void __wrap_free(void *at);

static long taken, given, fails_at;
static size_t sizes[8];

void *__wrap_malloc(size_t size)
{
    if (taken < 8)
        sizes[taken] = size;
    return ++taken == fails_at ? 0 : __real_malloc(size);
}

void __wrap_free(void *at)
{
    given += at != 0;
    __real_free(at);
}
#ifdef __cplusplus
}
#endif

/* ---- memory that ends where nothing can be touched */

enum { ROOM = 4096, PARTS = 6 };

static uint8_t *part[PARTS];

static void allow(int k, int access)
{
    if (mprotect(part[k], ROOM, access) != 0) {
        printf("write.c: mprotect failed\n");
        exit(2);
    }
}

static void make_parts(void)
{
    size_t page = (size_t)sysconf(_SC_PAGESIZE);
    for (int k = 0; k < PARTS; k++) {
        uint8_t *at = (uint8_t *)mmap(0, ROOM + 2 * page, PROT_NONE, MAP_PRIVATE | MAP_ANONYMOUS, -1, 0);
        if (page != ROOM || at == (uint8_t *)MAP_FAILED) {
            printf("write.c: no memory between pages\n");
            exit(2);
        }
        part[k] = at + page;
        allow(k, PROT_READ | PROT_WRITE);
    }
}

/* so many bytes, read-only, up to the end of a part, or from its start on */
static const void *lend(int k, const void *bytes, size_t len, int at_end)
{
    uint8_t *at = part[k] + (at_end ? ROOM - len : 0);
    allow(k, PROT_READ | PROT_WRITE);
    memset(part[k], 0x5a, ROOM);
    if (len > 0)
        memcpy(at, bytes, len);
    allow(k, PROT_READ);
    return at;
}

static uint8_t pattern(size_t i) { return (uint8_t)(i * 7 + 13); }

/* ---- what is given */

typedef struct given_rows {
    gsym_entry entries[8];
    gsym_item items[8];
    uint8_t bytes[64];
    gsym_file files[8];
    uint8_t strings[64];
    size_t entry_count, item_count, bytes_len, file_count, strings_len;
} given_rows;

/* writes to so much room, and judges what is behind what was written, what stays at a refusal, and the memory */
static gsym_written write_to(const given_rows *g, size_t room, int at_end, const uint8_t *want, size_t want_len)
{
    const gsym_entry *entries =
        (const gsym_entry *)lend(0, g->entries, g->entry_count * sizeof *entries, at_end);
    const gsym_item *items = (const gsym_item *)lend(1, g->items, g->item_count * sizeof *items, at_end);
    const uint8_t *bytes = (const uint8_t *)lend(2, g->bytes, g->bytes_len, at_end);
    const gsym_file *files = (const gsym_file *)lend(3, g->files, g->file_count * sizeof *files, at_end);
    const uint8_t *strings = (const uint8_t *)lend(4, g->strings, g->strings_len, at_end);
    uint8_t *out = part[5] + (at_end ? ROOM - room : 0);
    for (size_t i = 0; i < ROOM; i++)
        part[5][i] = pattern(i);
    taken = given = 0;
    gsym_written w = gsym_write(entries, g->entry_count, items, g->item_count, bytes, g->bytes_len, files,
                                g->file_count, strings, g->strings_len, out, room);
    CHECK(taken - (fails_at > 0 && taken >= fails_at) == given);
    size_t start = (size_t)(out - part[5]), len = w.number == 0 ? (size_t)w.len : 0;
    CHECK(len <= room && (w.number != 0 || (len == want_len && memcmp(out, want, len) == 0)));
    int kept = 1;
    for (size_t i = 0; i < ROOM; i++)
        if (i < start || i >= start + len)
            kept = kept && part[5][i] == pattern(i);
    CHECK(kept);
    return w;
}

static int is(gsym_written w, uint32_t number, uint64_t index, uint32_t of_file, uint64_t len)
{
    return w.number == number && w.index == index && w.of_file == of_file && w.len == len;
}

/* the file is written to every room that is enough, and refused with 32 by every other */
static void at_every_room(const given_rows *g, const uint8_t *want, size_t want_len)
{
    for (int at_end = 0; at_end < 2; at_end++)
        for (size_t room = 0; room <= want_len + 9; room++) {
            gsym_written w = write_to(g, room, at_end, want, want_len);
            CHECK(is(w, room < want_len ? 32u : 0u, 0, 0, want_len));
        }
    CHECK(is(write_to(g, ROOM, 1, want, want_len), 0, 0, 0, want_len));
}

/* it is refused so at any room, and writes nothing */
static void refused(const given_rows *g, uint32_t number, uint64_t index, uint32_t of_file)
{
    for (size_t room = 0; room <= ROOM; room += ROOM / 4)
        CHECK(is(write_to(g, room, 1, 0, 0), number, index, of_file, 0));
    CHECK(is(write_to(g, ROOM / 2, 0, 0, 0), number, index, of_file, 0));
}

/* ---- files that are written out: docs/RULES.md, "Writing a file" */

static const uint8_t no_entries[61] = {0x4d, 0x59, 0x53, 0x47, 1, 0, 1, 0, [20] = 0x3c, [24] = 1, [48] = 1};
static const uint8_t nothing[52] = {0x4d, 0x59, 0x53, 0x47, 1, 0, 1, 0, [20] = 0x34};

/* three entries, two of one name, from 0x1000 on, and two files: made by a program of its own from RULES */
static const uint8_t three_bytes[] = {
    0x4d, 0x59, 0x53, 0x47, 0x01, 0x00, 0x01, 0x00, 0x00, 0x10, 0x00, 0x00, 0x00, 0x00, 0x00, 0x00, 0x03, 0x00, 0x00,
    0x00, 0x54, 0x00, 0x00, 0x00, 0x12, 0x00, 0x00, 0x00, 0x00, 0x00, 0x00, 0x00, 0x00, 0x00, 0x00, 0x00, 0x00, 0x00,
    0x00, 0x00, 0x00, 0x00, 0x00, 0x00, 0x00, 0x00, 0x00, 0x00, 0x00, 0x20, 0x30, 0x00, 0x68, 0x00, 0x00, 0x00, 0x8c,
    0x00, 0x00, 0x00, 0x9c, 0x00, 0x00, 0x00, 0x02, 0x00, 0x00, 0x00, 0x00, 0x00, 0x00, 0x00, 0x00, 0x00, 0x00, 0x00,
    0x0a, 0x00, 0x00, 0x00, 0x0e, 0x00, 0x00, 0x00, 0x00, 0x73, 0x79, 0x6e, 0x63, 0x00, 0x61, 0x62, 0x00, 0x00, 0x64,
    0x69, 0x72, 0x00, 0x66, 0x2e, 0x63, 0x00, 0x00, 0x00, 0x20, 0x00, 0x00, 0x00, 0x01, 0x00, 0x00, 0x00, 0x01, 0x00,
    0x00, 0x00, 0x0a, 0x00, 0x00, 0x00, 0x00, 0x00, 0x05, 0x01, 0x01, 0x02, 0x00, 0x02, 0x04, 0x00, 0x00, 0x00, 0x00,
    0x00, 0x00, 0x00, 0x00, 0x00, 0x00, 0x00, 0x00, 0x00, 0x00, 0x00, 0x01, 0x00, 0x00, 0x00, 0x00, 0x00, 0x00, 0x00,
    0x00, 0x00, 0x00, 0x00, 0x04, 0x00, 0x00, 0x00, 0x06, 0x00, 0x00, 0x00, 0x09, 0x00, 0x00, 0x00, 0x03, 0x00, 0x00,
    0x00, 0x01, 0x02, 0x03, 0x01, 0x00, 0x00, 0x00, 0x0a, 0x00, 0x00, 0x00, 0x00, 0x00, 0x05, 0x01, 0x01, 0x02, 0x00,
    0x02, 0x04, 0x00, 0x00, 0x00, 0x00, 0x00, 0x00, 0x00, 0x00, 0x00};

static given_rows three(void)
{
    static const uint8_t lines[] = {0, 0, 5, 1, 1, 2, 0, 2, 4, 0}, other[] = {1, 2, 3};
    static const char strings[] = "\0sync\0ab\0\0dir\0f.c";
    given_rows g;
    memset(&g, 0, sizeof g);
    g.entries[0].addr = 0x1000, g.entries[0].items = 1, g.entries[0].size = 0x20, g.entries[0].name = 1;
    g.entries[1].addr = 0x1020, g.entries[1].name = 1;
    g.entries[2].addr = 0x1030, g.entries[2].items = 2, g.entries[2].size = 4, g.entries[2].name = 6;
    g.entry_count = 3;
    g.items[0].len = 10, g.items[0].kind = 1, g.items[1].len = 3, g.items[1].kind = 9;
    g.items[2] = g.items[0];
    g.item_count = 3;
    memcpy(g.bytes, lines, 10), memcpy(g.bytes + 10, other, 3), memcpy(g.bytes + 13, lines, 10);
    g.bytes_len = 23;
    g.files[1].directory = 10, g.files[1].filename = 14;
    g.file_count = 2;
    memcpy(g.strings, strings, sizeof strings);
    g.strings_len = sizeof strings;
    return g;
}

/* ---- refusals */

static void check_refusals(void)
{
    given_rows g = three();
    g.entries[1].addr = 0x1000;
    refused(&g, GSYM_WRITE_NOT_RISING, 1, 0);
    g.entries[1].addr = 0xfff;
    refused(&g, GSYM_WRITE_NOT_RISING, 1, 0);
    g = three(), g.entries[2].addr = 0x1020;
    refused(&g, GSYM_WRITE_NOT_RISING, 2, 0);
    g.entries[0].addr = UINT64_MAX;
    refused(&g, GSYM_WRITE_NOT_RISING, 1, 0);

    g = three(), g.entries[2].addr = UINT64_MAX - 3, g.entries[2].size = 4;
    refused(&g, GSYM_WRITE_SUM_TOO_LARGE, 2, 0);
    g.entries[2].size = UINT32_MAX;
    refused(&g, GSYM_WRITE_SUM_TOO_LARGE, 2, 0);
    g.entries[2].size = 3;
    CHECK(write_to(&g, 0, 1, 0, 0).number == GSYM_WRITE_TOO_LITTLE_ROOM);
    g.entries[2].addr = UINT64_MAX, g.entries[2].size = 0;
    CHECK(write_to(&g, 0, 1, 0, 0).number == GSYM_WRITE_TOO_LITTLE_ROOM);
    g.entries[1].addr = UINT64_MAX - 1, g.entries[1].size = 2, g.entries[2].size = 1;
    refused(&g, GSYM_WRITE_SUM_TOO_LARGE, 1, 0);

    /* a name outside the strings, one that no zero byte follows, and one that is not UTF-8 */
    g = three(), g.entries[1].name = 18;
    refused(&g, GSYM_WRITE_UNREAD_STRING, 1, 0);
    g.entries[1].name = UINT32_MAX;
    refused(&g, GSYM_WRITE_UNREAD_STRING, 1, 0);
    g = three(), g.strings[17] = 'x', g.entries[2].name = 14;
    refused(&g, GSYM_WRITE_UNREAD_STRING, 2, 0);
    g = three(), g.strings[7] = 0xff;
    refused(&g, GSYM_WRITE_UNREAD_STRING, 2, 0);
    g.strings_len = 0;
    refused(&g, GSYM_WRITE_UNREAD_STRING, 0, 0);
    /* a directory and a file name that don't read; any bytes do */
    g = three(), g.files[1].directory = 18;
    refused(&g, GSYM_WRITE_UNREAD_STRING, 1, 1);
    g = three(), g.files[0].filename = 18;
    refused(&g, GSYM_WRITE_UNREAD_STRING, 0, 1);
    g.entries[2].name = 18;
    refused(&g, GSYM_WRITE_UNREAD_STRING, 2, 0);
    g = three(), g.strings[10] = 0xff, g.strings[14] = 0x80;
    CHECK(write_to(&g, 0, 1, 0, 0).number == GSYM_WRITE_TOO_LITTLE_ROOM);
    g.strings[17] = 'x';
    refused(&g, GSYM_WRITE_UNREAD_STRING, 1, 1);

    g = three(), g.items[2].kind = 0;
    refused(&g, GSYM_WRITE_END_ITEM, 2, 0);
    g.items[1].kind = 0;
    refused(&g, GSYM_WRITE_END_ITEM, 2, 0);
    g.items[0].kind = 0;
    refused(&g, GSYM_WRITE_END_ITEM, 0, 0);
    g.files[0].filename = 18;
    refused(&g, GSYM_WRITE_UNREAD_STRING, 0, 1);

    /* rows that don't come out, before all else: with each entry wrong too */
    g = three(), g.entries[0].items = 0;
    refused(&g, GSYM_WRITE_UNEVEN_ROWS, 0, 0);
    g.entries[0].items = 2;
    refused(&g, GSYM_WRITE_UNEVEN_ROWS, 0, 0);
    g.entries[0].items = UINT64_MAX, g.entries[1].items = 2; /* a sum that would wrap to what is there */
    refused(&g, GSYM_WRITE_UNEVEN_ROWS, 0, 0);
    g.entries[0].items = (uint64_t)1 << 63, g.entries[1].items = (uint64_t)1 << 63, g.entries[2].items = 3;
    refused(&g, GSYM_WRITE_UNEVEN_ROWS, 0, 0);
    g = three(), g.entries[1].addr = 0, g.entries[0].name = 99, g.bytes_len = 24;
    refused(&g, GSYM_WRITE_UNEVEN_ROWS, 0, 0);
    g.bytes_len = 22;
    refused(&g, GSYM_WRITE_UNEVEN_ROWS, 0, 0);
    g = three(), g.items[2].len = 9;
    refused(&g, GSYM_WRITE_UNEVEN_ROWS, 0, 0);
    g.items[2].len = 11;
    refused(&g, GSYM_WRITE_UNEVEN_ROWS, 0, 0);
    g.items[0].len = UINT64_MAX, g.items[1].len = 1, g.items[2].len = 23;
    refused(&g, GSYM_WRITE_UNEVEN_ROWS, 0, 0);
    g = three(), g.entry_count = 2;
    refused(&g, GSYM_WRITE_UNEVEN_ROWS, 0, 0);
    g = three(), g.item_count = 2;
    refused(&g, GSYM_WRITE_UNEVEN_ROWS, 0, 0);
    g = three(), g.entry_count = 0;
    refused(&g, GSYM_WRITE_UNEVEN_ROWS, 0, 0);
    g = three(), g.entry_count = g.item_count = 0;
    refused(&g, GSYM_WRITE_UNEVEN_ROWS, 0, 0);

    /* an entry at 2^64-1: RULES */
    memset(&g, 0, sizeof g), g.entry_count = 1, g.entries[0].addr = UINT64_MAX, g.strings_len = 5;
    g.entries[0].size = 1, g.entries[0].name = 5;
    refused(&g, GSYM_WRITE_SUM_TOO_LARGE, 0, 0);
    g.entries[0].size = 0;
    refused(&g, GSYM_WRITE_UNREAD_STRING, 0, 0);
}

/* the offset size: one more than has room in a byte, in two and in four */
static void check_widths(void)
{
    static const struct {
        uint64_t far;
        uint8_t width;
    } widths[] = {{1, 1},      {255, 1},        {256, 2},        {65535, 2},
                  {65536, 4},  {UINT32_MAX, 4}, {1ull << 32, 8}, {UINT64_MAX - 5, 8}};
    static uint8_t out[256];
    for (size_t i = 0; i < sizeof widths / sizeof widths[0]; i++) {
        gsym_entry e[2] = {{5, 0, 0, 0}, {5 + widths[i].far, 0, 0, 0}};
        uint8_t zero = 0;
        gsym_written w = gsym_write(e, 2, 0, 0, 0, 0, 0, 0, &zero, 1, out, sizeof out);
        CHECK(w.number == 0 && out[6] == widths[i].width && out[8] == 5 && out[48] == 0);
        CHECK(memcmp(out + 48 + widths[i].width, &widths[i].far, widths[i].width) == 0);
    }
}

/* ---- memory */

static void check_memory(void)
{
    given_rows g = three();
    CHECK(is(write_to(&g, ROOM, 1, three_bytes, sizeof three_bytes), 0, 0, 0, sizeof three_bytes));
    CHECK(taken == 3 && given == 3);
    CHECK(sizes[0] + sizes[1] + sizes[2] == 3 * 24 + 2 * 8 + 3 * 32);
    for (fails_at = 1; fails_at <= 3; fails_at++) {
        refused(&g, GSYM_WRITE_NO_MEMORY, 0, 0);
        CHECK(taken == fails_at && given == fails_at - 1);
    }
    /* what doesn't come out is told before memory is taken, and what refuses the file only behind it */
    fails_at = 1;
    g.entries[0].items = 9;
    refused(&g, GSYM_WRITE_UNEVEN_ROWS, 0, 0);
    CHECK(taken == 0 && given == 0);
    g = three(), g.entries[1].addr = 0;
    refused(&g, GSYM_WRITE_NO_MEMORY, 0, 0);
    memset(&g, 0, sizeof g);
    CHECK(is(write_to(&g, sizeof nothing, 1, nothing, sizeof nothing), 0, 0, 0, sizeof nothing) && taken == 0);
    fails_at = 0;
}

/* ---- counts, places and lengths at their limit, over pages of zeros that take no memory */

static const uint8_t *zeros(size_t len)
{
    void *at = mmap(0, len, PROT_READ, MAP_PRIVATE | MAP_ANONYMOUS | MAP_NORESERVE, -1, 0);
    if (at == MAP_FAILED) {
        printf("write.c: no mapping of 4 GiB\n");
        exit(2);
    }
    return (const uint8_t *)at;
}

/* two entries at 1 and 2, whose names are empty, with one item of so many bytes each */
static gsym_written write_far(const uint8_t *many, uint64_t first, uint64_t second, size_t strings_len)
{
    gsym_entry e[2] = {{1, 1, 0, 0}, {2, 1, 0, 0}};
    gsym_item i[2] = {{first, 7}, {second, 7}};
    taken = given = 0;
    gsym_written w = gsym_write(e, 2, i, 2, many, first + second, 0, 0, many, strings_len, 0, 0);
    CHECK(taken == given);
    return w;
}

static void check_far(void)
{
    const uint64_t limit = (uint64_t)1 << 32;
    const uint8_t *many = zeros(2 * limit + 4096);
    /* strings of 2^32-1 bytes and of one more; with no entry no place stands behind them */
    CHECK(is(gsym_write(0, 0, 0, 0, 0, 0, 0, 0, many, limit - 1, 0, 0), 32, 0, 0, 52 + limit - 1));
    CHECK(is(gsym_write(0, 0, 0, 0, 0, 0, 0, 0, many, limit, 0, 0), 31, 0, 0, 0));
    CHECK(is(gsym_write(0, 0, 0, 0, 0, 0, 0, 0, many, limit + 7, 0, 0), 31, 0, 0, 0));
    /* the tables of two entries end at 52, their data offsets at 60, the file count at 64: where the strings begin. The
     * data of an entry have 24 bytes and the item's; behind the last one a place may be any */
    CHECK(is(write_far(many, 4, 4, 4), 32, 0, 0, 68 + 28 + 28));
    CHECK(is(write_far(many, 4, limit - 1, 4), 32, 0, 0, 68 + 28 + 24 + limit - 1));
    CHECK(is(write_far(many, 4, limit, 4), 31, 0, 0, 0));
    CHECK(is(write_far(many, limit, 4, 4), 31, 0, 0, 0));
    /* the place of the second entry's data is 2^32-4, and then, from one byte more on, 2^32 */
    CHECK(is(write_far(many, limit - 4 - 68 - 24, 4, 4), 32, 0, 0, limit - 4 + 28));
    CHECK(is(write_far(many, limit - 4 - 68 - 24 - 3, 4, 4), 32, 0, 0, limit - 4 + 28));
    CHECK(is(write_far(many, limit - 4 - 68 - 24 - 3, limit - 1, 4), 32, 0, 0, limit - 4 + 24 + limit - 1));
    CHECK(is(write_far(many, limit - 4 - 68 - 24 + 1, 4, 4), 31, 0, 0, 0));
    CHECK(is(write_far(many, limit - 1, 4, 4), 31, 0, 0, 0));
    /* the place of the first entry's data, likewise by the strings: 64 and their length */
    gsym_entry e = {1, 0, 0, 0};
    CHECK(is(gsym_write(&e, 1, 0, 0, 0, 0, 0, 0, many, limit - 4 - 60, 0, 0), 32, 0, 0, limit - 4 + 16));
    CHECK(is(gsym_write(&e, 1, 0, 0, 0, 0, 0, 0, many, limit - 4 - 60 + 1, 0, 0), 31, 0, 0, 0));
    /* what is judged before is told before */
    CHECK(is(gsym_write(&e, 1, 0, 0, 0, 0, 0, 0, many + limit, 0, 0, 0), 29, 0, 0, 0));
    e.name = UINT32_MAX;
    CHECK(is(gsym_write(&e, 1, 0, 0, 0, 0, 0, 0, many, limit, 0, 0), 31, 0, 0, 0));
    CHECK(is(gsym_write(&e, 1, 0, 0, 0, 0, 0, 0, many, limit - 1, 0, 0), 29, 0, 0, 0));
    munmap((void *)(uintptr_t)many, 2 * limit + 4096);
}

/* ---- stack: of a call that writes three entries, without what malloc and free take of it */

enum { STACK = 1 << 20, PAINT = 0xa5, SAID = GSYM_WRITE_STACK - 8192 };

static uint8_t *top;

static void call_once(void)
{
    given_rows g = three();
    static uint8_t out[512];
    gsym_written w = gsym_write(g.entries, g.entry_count, g.items, g.item_count, g.bytes, g.bytes_len, g.files,
                                g.file_count, g.strings, g.strings_len, out, sizeof out);
    CHECK(is(w, 0, 0, 0, sizeof three_bytes));
}

static void *run(void *unused)
{
    uint8_t here = 0;
    top = &here;
    call_once();
    return unused;
}

static size_t stack_of_call(void)
{
    pthread_attr_t attributes;
    pthread_t thread;
    size_t low = 0;
    uint8_t *stack = (uint8_t *)mmap(0, STACK, PROT_READ | PROT_WRITE, MAP_PRIVATE | MAP_ANONYMOUS, -1, 0);
    if (stack == (uint8_t *)MAP_FAILED)
        return 0;
    memset(stack, PAINT, STACK);
    call_once(); /* what is bound at a first call is bound now */
    if (pthread_attr_init(&attributes) != 0 || pthread_attr_setstack(&attributes, stack, STACK) != 0 ||
        pthread_create(&thread, &attributes, run, 0) != 0 || pthread_join(thread, 0) != 0)
        return 0;
    while (stack[low] == PAINT)
        low++;
    pthread_attr_destroy(&attributes);
    size_t used = (size_t)(top - (stack + low));
    munmap(stack, STACK);
    return used;
}

int main(void)
{
    make_parts();
    given_rows g;
    memset(&g, 0, sizeof g);
    at_every_room(&g, nothing, sizeof nothing);
    g.file_count = 1, g.strings_len = 1;
    at_every_room(&g, no_entries, sizeof no_entries);
    g = three();
    at_every_room(&g, three_bytes, sizeof three_bytes);
    CHECK(is(gsym_write(0, 0, 0, 0, 0, 0, 0, 0, 0, 0, 0, 0), 32, 0, 0, 52));
    check_refusals();
    check_widths();
    check_memory();
    check_far();
    for (uint32_t n = 0; n < 40; n++) {
        int named = n == 0 || n == 21 || n == 22 || (n >= 29 && n <= 34);
        CHECK((gsym_write_name(n) != 0) == named);
    }
    CHECK(gsym_write_name(UINT32_MAX) == 0);
    size_t stack = stack_of_call();
#ifndef __SANITIZE_ADDRESS__
    CHECK(stack > 0 && stack < SAID);
#endif
    if (failed > 0)
        printf("write.c: %d of %ld checks failed\n", failed, checks);
    else
        printf("%ld checks of a writer, which takes %zu bytes of stack\n", checks, stack);
    return failed > 0;
}
