/*
 * face.c - calls every function of include/gsym.h on bytes made by hand and compares all that comes back. The file is
 * lent read-only and ends at a page that can't be read; a list ends at a page that can't be written. A wrong answer
 * is printed, and the exit status is then 1.
 */
#ifndef _DEFAULT_SOURCE
#define _DEFAULT_SOURCE
#endif
#include <stdio.h>
#include <stdlib.h>
#include <sys/mman.h>
#include <unistd.h>

#include "gsym.h"
#include "made.h"

static int failed;
static long checks;

#define CHECK(what) check((what), #what, __LINE__)

static void check(int holds, const char *what, int line)
{
    checks++;
    if (!holds) {
        failed++;
        if (failed < 30)
            printf("face.c:%d: not so: %s\n", line, what);
    }
}

/* ---- memory that ends where nothing can be touched */

enum { ROOM = 65536 };

static uint8_t *guarded(void)
{
    size_t page = (size_t)sysconf(_SC_PAGESIZE);
    uint8_t *at = (uint8_t *)mmap(0, ROOM + page, PROT_READ | PROT_WRITE, MAP_PRIVATE | MAP_ANONYMOUS, -1, 0);
    if (at == (uint8_t *)MAP_FAILED || mprotect(at + ROOM, page, PROT_NONE) != 0) {
        printf("face.c: no memory\n");
        exit(2);
    }
    return at;
}

static void allow(uint8_t *at, int access)
{
    if (mprotect(at, ROOM, access) != 0) {
        printf("face.c: mprotect failed\n");
        exit(2);
    }
}

static uint8_t *file_room, *list_room, *before;

/* the bytes, read-only, `gap` bytes before the end */
static const uint8_t *lend(const uint8_t *bytes, size_t len, size_t gap)
{
    uint8_t *at = file_room + ROOM - gap - len;
    allow(file_room, PROT_READ | PROT_WRITE);
    memset(file_room, 0x5a, ROOM);
    if (len > 0)
        memcpy(at, bytes, len);
    allow(file_room, PROT_READ);
    return at;
}

/* a list of so many bytes, up to the end, filled with a pattern that is kept */
static void *lend_list(size_t len)
{
    for (size_t i = 0; i < ROOM; i++)
        list_room[i] = (uint8_t)(i * 7 + 13);
    memcpy(before, list_room, ROOM);
    return list_room + ROOM - len;
}

/* whether all is as it was but for `len` bytes from `at` on */
static int rest_kept(const void *at, size_t len)
{
    size_t start = (size_t)((const uint8_t *)at - list_room);
    return memcmp(list_room, before, start) == 0 &&
           memcmp(list_room + start + len, before + start + len, ROOM - start - len) == 0;
}

/* ---- answers */

static int is_text(gsym_text t, const uint8_t *file, size_t file_len, const char *text)
{
    gsym_part part = gsym_text_at(file, file_len, t);
    return part.len == t.len && t.len == strlen(text) && memcmp(part.at, text, t.len) == 0;
}

static int is_none(gsym_text t) { return t.place == 0 && t.len == 0; }

static int is_refusal(gsym_answer a, uint32_t number)
{
    return a.number == number && a.has_code == 0 && a.addr == 0 && a.size == 0 && a.line == 0 && is_none(a.name) &&
           is_none(a.dir) && is_none(a.file) && a.count == 0;
}

static int same(gsym_answer a, gsym_answer b)
{
    return a.number == b.number && a.has_code == b.has_code && a.addr == b.addr && a.size == b.size &&
           a.line == b.line && a.name.place == b.name.place && a.name.len == b.name.len && a.dir.place == b.dir.place &&
           a.dir.len == b.dir.len && a.file.place == b.file.place && a.file.len == b.file.len && a.count == b.count;
}

/* a lookup; the file's bytes and what is past the count stay */
static gsym_answer look(const made *m, uint64_t addr, uint32_t options, size_t list_len, gsym_frame **list)
{
    const uint8_t *file = lend(m->at, m->len, 0);
    gsym_frame *frames = (gsym_frame *)lend_list(list_len * sizeof(gsym_frame));
    gsym_answer a = gsym_lookup(file, m->len, addr, options, frames, list_len);
    CHECK(memcmp(file, m->at, m->len) == 0);
    CHECK(a.count <= list_len);
    CHECK(rest_kept(frames, (size_t)a.count * sizeof(gsym_frame)));
    if (list)
        *list = frames;
    return a;
}

static gsym_listed list_block(const made *m, uint64_t symbol, uint64_t addr, size_t list_len, gsym_inline_frame **list)
{
    const uint8_t *block = lend(m->at, m->len, 0);
    gsym_inline_frame *frames = (gsym_inline_frame *)lend_list(list_len * sizeof(gsym_inline_frame));
    gsym_listed a = gsym_block_frames(block, m->len, symbol, addr, frames, list_len);
    CHECK(memcmp(block, m->at, m->len) == 0);
    CHECK(a.count <= list_len);
    CHECK(rest_kept(frames, (size_t)a.count * sizeof(gsym_inline_frame)));
    if (list)
        *list = frames;
    return a;
}

static const uint32_t ALL = GSYM_CODE_INFO | GSYM_INLINING;
static const size_t lengths[] = {0, 1, 2, 3, 64, 65, 1000};
enum { LENGTHS = sizeof lengths / sizeof lengths[0] };
static made sample, block, other;

/* ---- what the sample says of main at 0x1005 */

static int is_main(gsym_answer a, const char *name, int has_code, uint32_t line, uint64_t count)
{
    const uint8_t *f = sample.at;
    size_t n = sample.len;
    return a.number == GSYM_FOUND && a.addr == 0x1000 && a.size == 256 && is_text(a.name, f, n, name) &&
           a.count == count && a.line == line &&
           (has_code ? a.has_code == 1 && is_text(a.dir, f, n, "/src") && is_text(a.file, f, n, "a.c")
                     : a.has_code == 0 && is_none(a.dir) && is_none(a.file));
}

static int are_records(const gsym_frame *r)
{
    const uint8_t *f = sample.at;
    size_t n = sample.len;
    return is_text(r[0].name, f, n, "mid") && is_text(r[0].dir, f, n, "/inc\xff") && is_text(r[0].file, f, n, "b.h") &&
           r[0].line == 40 && is_text(r[1].name, f, n, "leaf") && is_text(r[1].dir, f, n, "/src") &&
           is_text(r[1].file, f, n, "a.c") && r[1].line == 12;
}

static void lookups(void)
{
    gsym_frame *r;
    gsym_answer a;
    for (int k = 0; k < LENGTHS; k++) {
        size_t n = lengths[k];
        a = look(&sample, 0x1005, ALL, n, &r);
        if (n < 3) {
            CHECK(is_refusal(a, GSYM_TOO_MANY_FRAMES));
            CHECK(rest_kept(r, 0));
        } else {
            CHECK(is_main(a, "outer", 1, 30, 2));
            CHECK(are_records(r));
        }
        CHECK(is_main(look(&sample, 0x1005, GSYM_CODE_INFO, n, &r), "main", 1, 12, 0));
        CHECK(is_main(look(&sample, 0x1005, 0, n, &r), "main", 0, 0, 0));
        CHECK(is_main(look(&sample, 0x1005, GSYM_INLINING, n, &r), "main", 0, 0, 0));
    }
    /* one later frame, none, and no frame */
    a = look(&sample, 0x1009, ALL, 64, &r);
    CHECK(is_main(a, "outer", 1, 30, 1));
    CHECK(is_text(r[0].name, sample.at, sample.len, "mid") && r[0].line == 12);
    CHECK(is_main(look(&sample, 0x1002, ALL, 64, &r), "outer", 1, 10, 0));
    CHECK(is_main(look(&sample, 0x1020, ALL, 64, &r), "main", 1, 20, 0));
    /* the other symbols */
    a = look(&sample, 0x110f, ALL, 64, &r);
    CHECK(a.number == 0 && a.addr == 0x1100 && a.size == 16 && a.has_code == 0 && a.count == 0);
    CHECK(is_text(a.name, sample.at, sample.len, "plain"));
    a = look(&sample, UINT64_MAX, ALL, 64, &r);
    CHECK(a.number == 0 && a.addr == 0x1200 && a.size == 0 && is_text(a.name, sample.at, sample.len, "last"));
    /* other bits are ignored */
    for (uint32_t low = 0; low < 4; low++) {
        a = look(&sample, 0x1005, low, 64, 0);
        for (int bit = 2; bit < 32; bit++)
            CHECK(same(look(&sample, 0x1005, low | 1u << bit, 64, 0), a));
        CHECK(same(look(&sample, 0x1005, low | ~3u, 64, 0), a));
    }
}

/* any start, and the end of the bytes one short of everything */
static void starts_and_cuts(const places *p)
{
    gsym_frame frames[64];
    gsym_answer a;
    for (size_t gap = 0; gap < 8; gap++) {
        const uint8_t *file = lend(sample.at, sample.len, gap);
        a = gsym_lookup(file, sample.len, 0x1005, ALL, frames, 64);
        CHECK(is_main(a, "outer", 1, 30, 2) && are_records(frames));
    }
    for (size_t n = 0; n < sample.len; n++) {
        other = sample;
        other.len = n;
        a = look(&other, 0x1005, ALL, 64, 0);
        if (n < p->tables_end)
            CHECK(is_refusal(a, GSYM_TOO_FEW_BYTES));
        else if (n < p->info + 8)
            CHECK(is_refusal(a, GSYM_UNREAD_INFO));
        else if (n < p->inline_item)
            CHECK(is_main(a, "main", 0, 0, 0));
        else if (n < p->items_end)
            CHECK(is_main(a, "main", 1, 12, 0));
        else
            CHECK(is_main(a, "outer", 1, 30, 2));
        other.at[0] ^= 1;
        CHECK(is_refusal(look(&other, 0x1005, ALL, 64, 0), n < 4 ? GSYM_TOO_FEW_BYTES : GSYM_WRONG_MAGIC));
        other.at[0] ^= 1;
        other.at[4] = 2;
        CHECK(is_refusal(look(&other, 0x1005, ALL, 64, 0), n < 6 ? GSYM_TOO_FEW_BYTES : GSYM_WRONG_VERSION));
    }
    /* no bytes at all */
    CHECK(is_refusal(gsym_lookup(0, 0, 0, ALL, 0, 0), GSYM_TOO_FEW_BYTES));
    CHECK(is_refusal(gsym_lookup(0, 0, 0x1005, 0, frames, 64), GSYM_TOO_FEW_BYTES));
    const uint8_t *file = lend(sample.at, sample.len, 0);
    CHECK(is_refusal(gsym_lookup(file, sample.len, 0x1005, ALL, 0, 0), GSYM_TOO_MANY_FRAMES));
    CHECK(is_main(gsym_lookup(file, sample.len, 0x1005, GSYM_CODE_INFO, 0, 0), "main", 1, 12, 0));
    CHECK(is_main(gsym_lookup(file, sample.len, 0x1020, ALL, 0, 0), "main", 1, 20, 0));
}

/* a lookup in the sample with some bytes changed */
static gsym_answer changed(size_t place, uint64_t value, int bytes, uint64_t addr, uint32_t options)
{
    other = sample;
    put_over(&other, place, value, bytes);
    return look(&other, addr, options, 1000, 0);
}

/* a lookup in the sample's file with another inline block */
static gsym_answer with_block(const made *b, uint64_t addr)
{
    put_file(&other, made_lines, sizeof made_lines, b->at, b->len);
    return look(&other, addr, ALL, 1000, 0);
}

static void refusals(const places *p)
{
    static const uint8_t torn[1] = {0x80};
    CHECK(is_refusal(look(&sample, 0xfff, ALL, 64, 0), GSYM_UNKNOWN_ADDRESS));
    CHECK(is_refusal(look(&sample, 0x1110, 0, 64, 0), GSYM_UNKNOWN_ADDRESS));
    CHECK(is_refusal(changed(6, 3, 1, 0x1005, ALL), GSYM_UNKNOWN_ADDRESS));
    CHECK(is_refusal(changed(24, sizeof made_strings + 1000, 4, 0x1005, ALL), GSYM_TOO_FEW_BYTES));
    CHECK(is_refusal(changed(0, 0x4d595347, 4, 0x1005, ALL), GSYM_WRONG_MAGIC));
    CHECK(is_refusal(changed(4, 0, 2, 0x1005, ALL), GSYM_WRONG_VERSION));
    CHECK(is_refusal(changed(p->offsets, UINT32_MAX, 4, 0x1005, 0), GSYM_UNREAD_INFO));
    CHECK(is_refusal(changed(p->info + 4, S_PAST, 4, 0x1005, 0), GSYM_UNREAD_NAME));
    CHECK(is_refusal(changed(p->info + 4, S_BAD, 4, 0x1005, 0), GSYM_UNREAD_NAME));
    CHECK(is_refusal(changed(p->files - 4, 1, 4, 0x1005, GSYM_CODE_INFO), GSYM_UNKNOWN_FILE));
    CHECK(is_refusal(changed(p->files + 8, S_PAST, 4, 0x1005, GSYM_CODE_INFO), GSYM_UNREAD_PATH));
    CHECK(is_refusal(changed(p->files + 12, S_PAST, 4, 0x1005, GSYM_CODE_INFO), GSYM_UNREAD_PATH));
    /* a later frame's file, and its name; the position alone is not concerned */
    CHECK(is_refusal(changed(p->files - 4, 2, 4, 0x1005, ALL), GSYM_UNKNOWN_FILE));
    CHECK(changed(p->files - 4, 2, 4, 0x1005, GSYM_CODE_INFO).number == GSYM_FOUND);
    CHECK(is_refusal(changed(p->files + 20, S_PAST, 4, 0x1005, ALL), GSYM_UNREAD_PATH));
    put_file(&other, torn, 1, torn, 1);
    CHECK(is_refusal(look(&other, 0x1005, GSYM_CODE_INFO, 64, 0), GSYM_UNREAD_LINE_HEADER));
    CHECK(look(&other, 0x1005, 0, 64, 0).number == GSYM_FOUND);
    put_file(&other, made_lines, sizeof made_lines, torn, 1);
    CHECK(is_refusal(look(&other, 0x1005, ALL, 64, 0), GSYM_UNREAD_INLINE));
    CHECK(look(&other, 0x1005, GSYM_CODE_INFO, 64, 0).number == GSYM_FOUND);
}

/* refusals 10 to 14, alone and in a lookup; 15 has a part of its own below */
static void block_refusals(void)
{
    block.len = 0;
    CHECK(list_block(&block, 0x1000, 0x1005, 1000, 0).number == GSYM_UNREAD_INLINE);
    CHECK(gsym_block_frames(0, 0, 0x1000, 0x1005, 0, 0).number == GSYM_UNREAD_INLINE);

    put_node(&block, 0, UINT64_MAX, 0, S_OUTER, 1, 1);
    CHECK(list_block(&block, 0x1000, 0x1005, 1000, 0).number == GSYM_INLINE_SUM_TOO_LARGE);
    CHECK(is_refusal(with_block(&block, 0x1005), GSYM_INLINE_SUM_TOO_LARGE));

    block.len = 0;
    put_node(&block, 0, 32, 0, S_OUTER, (uint64_t)UINT32_MAX + 1, 1);
    CHECK(list_block(&block, 0x1000, 0x1005, 1000, 0).number == GSYM_CALL_FILE_TOO_LARGE);
    CHECK(is_refusal(with_block(&block, 0x1005), GSYM_CALL_FILE_TOO_LARGE));

    for (int open = 1; open <= 65; open += 32) {
        block.len = 0;
        put_levels(&block, 65, open, S_MID);
        CHECK(list_block(&block, 0x1000, 0x1005, 1000, 0).number == GSYM_TOO_DEEP);
        CHECK(is_refusal(with_block(&block, 0x1005), GSYM_TOO_DEEP));
    }

    /* 64 siblings below an unnamed root fill the room, 65 don't fit */
    for (int more = 0; more < 2; more++) {
        block.len = 0;
        put_node(&block, 0, 32, 1, 0, 0, 0);
        for (int i = 0; i < 64 + more; i++)
            put_node(&block, 0, 32, 0, S_MID, 1, (uint64_t)i);
        put_uleb(&block, 0);
        gsym_listed l = list_block(&block, 0x1000, 0x1005, 1000, 0);
        CHECK(more ? l.number == GSYM_TOO_MANY_FRAMES && l.count == 0 : l.number == 0 && l.count == 64);
        gsym_answer a = with_block(&block, 0x1005);
        CHECK(more ? is_refusal(a, GSYM_TOO_MANY_FRAMES) : a.number == 0 && a.count == 63);
    }
}

/* 1 to 65 frames in lists of 0 to 66 records: the records are all there, or 14 and the list as it was */
static void every_room(void)
{
    for (size_t n = 1; n <= 65; n++) {
        block.len = 0;
        put_node(&block, 0, 32, 1, 0, 0, 0);
        for (size_t i = 0; i < n; i++)
            put_node(&block, 0, 32, 0, S_MID, 1, 100 + i);
        put_uleb(&block, 0);
        put_file(&other, made_lines, sizeof made_lines, block.at, block.len);
        for (size_t len = 0; len <= 66; len++) {
            gsym_frame *r;
            gsym_answer a = look(&other, 0x1005, ALL, len, &r);
            if (n > len || n > 64) {
                CHECK(is_refusal(a, GSYM_TOO_MANY_FRAMES));
                CHECK(rest_kept(r, 0));
                continue;
            }
            CHECK(a.number == GSYM_FOUND && a.count == n - 1 && a.line == (n > 1 ? 101 : 12));
            for (size_t k = 0; k + 1 < n; k++)
                CHECK(r[k].line == (k + 2 < n ? 102 + k : 12));
        }
    }
}

/* T9 to T12, every cut of T9, and 64 levels */
static void blocks(void)
{
    static const uint8_t t9[] = {1, 0, 0x20, 1, 1, 0, 0, 0, 0, 0, 1, 4, 8, 0, 5, 0, 0, 0, 1, 10, 0};
    gsym_inline_frame *r;
    gsym_listed l;
    for (int k = 0; k < LENGTHS; k++) {
        size_t n = lengths[k];
        block.len = 0;
        put_bytes(&block, t9, sizeof t9);
        l = list_block(&block, 0x1000, 0x1005, n, &r);
        if (n < 2)
            CHECK(l.number == GSYM_TOO_MANY_FRAMES && l.count == 0 && rest_kept(r, 0));
        else
            CHECK(l.number == 0 && l.count == 2 && r[0].name == 1 && r[0].call_file == 0 && r[0].call_line == 0 &&
                  r[1].name == 5 && r[1].call_file == 1 && r[1].call_line == 10);
        l = list_block(&block, 0x1000, 0x100c, n, &r);
        if (n < 1)
            CHECK(l.number == GSYM_TOO_MANY_FRAMES && l.count == 0);
        else
            CHECK(l.number == 0 && l.count == 1 && r[0].name == 1 && r[0].call_file == 0 && r[0].call_line == 0);
        block.at[4] = 0;
        l = list_block(&block, 0x1000, 0x1005, n, &r);
        if (n < 1)
            CHECK(l.number == GSYM_TOO_MANY_FRAMES && l.count == 0);
        else
            CHECK(l.number == 0 && l.count == 1 && r[0].name == 5 && r[0].call_file == 1 && r[0].call_line == 10);
        block.len = 1;
        block.at[0] = 0;
        l = list_block(&block, 0x1000, 0x1005, n, &r);
        CHECK(l.number == 0 && l.count == 0);

        block.len = 0;
        put_levels(&block, 64, 64, S_MID);
        l = list_block(&block, 0x1000, 0x1005, n, &r);
        if (n < 64)
            CHECK(l.number == GSYM_TOO_MANY_FRAMES && l.count == 0);
        else
            CHECK(l.number == 0 && l.count == 64 && r[0].call_line == 1 && r[63].name == S_MID &&
                  r[63].call_line == 64);
    }
    for (size_t n = 0; n < sizeof t9; n++) {
        block.len = 0;
        put_bytes(&block, t9, n);
        l = list_block(&block, 0x1000, 0x1005, 64, 0);
        CHECK(l.number == GSYM_UNREAD_INLINE && l.count == 0);
    }
    block.len = 0;
    put_levels(&block, 64, 64, S_MID);
    CHECK(with_block(&block, 0x1005).count == 63);
    block.len = 0;
    put_bytes(&block, t9, sizeof t9);
    for (size_t gap = 0; gap < 8; gap++) {
        gsym_inline_frame two[2];
        l = gsym_block_frames(lend(block.at, block.len, gap), block.len, 0x1000, 0x1005, two, 2);
        CHECK(l.number == 0 && l.count == 2 && two[1].name == 5);
    }
}

/* ---- the check of a whole file */

/* the bytes are lent read-only, up to a page that can't be touched and from other starts, and stay */
static gsym_finding check_bytes(const uint8_t *bytes, size_t len)
{
    gsym_finding first = {0, 0};
    for (size_t gap = 0; gap < 8; gap++) {
        const uint8_t *file = lend(bytes, len, gap);
        gsym_finding f = gsym_check(file, len);
        CHECK(len == 0 || memcmp(file, bytes, len) == 0);
        if (gap == 0)
            first = f;
        CHECK(f.number == first.number && f.entry == first.entry);
    }
    return first;
}

static int finds(const made *m, uint32_t number, uint32_t entry)
{
    gsym_finding f = check_bytes(m->at, m->len);
    return f.number == number && f.entry == entry;
}

/* the sample with some bytes changed */
static int found_changed(size_t place, uint64_t value, int bytes, uint32_t number, uint32_t entry)
{
    other = sample;
    put_over(&other, place, value, bytes);
    return finds(&other, number, entry);
}

/* the sample's file with other lines and the sample's block, or the sample's lines and another block */
static int found_lines(const void *lines, size_t len, uint32_t number)
{
    block.len = 0;
    put_inlined(&block);
    put_file(&other, lines, len, block.at, block.len);
    return finds(&other, number, 0);
}

static int found_block(const made *b, uint32_t number)
{
    put_file(&other, made_lines, sizeof made_lines, b->at, b->len);
    return finds(&other, number, 0);
}

static void check_of_tables(const places *p)
{
    gsym_finding f = gsym_check(0, 0);
    CHECK(f.number == GSYM_TOO_FEW_BYTES && f.entry == 0);
    CHECK(finds(&sample, 0, 0));
    CHECK(found_changed(0, 0x4d595347, 4, GSYM_WRONG_MAGIC, 0));
    CHECK(found_changed(4, 2, 2, GSYM_WRONG_VERSION, 0));
    CHECK(found_changed(24, sizeof made_strings + 1000, 4, GSYM_TOO_FEW_BYTES, 0));
    for (uint64_t width = 0; width < 256; width++) {
        other = sample;
        put_over(&other, 6, width, 1);
        f = check_bytes(other.at, other.len);
        if (width == 2)
            CHECK(f.number == 0);
        else if (width == 1 || width == 4 || width == 8) /* other tables: what is found of them is not said here */
            CHECK(f.number != GSYM_OFFSET_SIZE);
        else /* a table of so wide entries may end behind the file */
            CHECK((f.number == GSYM_OFFSET_SIZE || f.number == GSYM_TOO_FEW_BYTES) && f.entry == 0);
    }
    CHECK(found_changed(6, 3, 1, GSYM_OFFSET_SIZE, 0));
    /* with no entry the file passes if its tables do */
    for (uint64_t width = 0; width < 256; width++) {
        other.len = 0;
        put(&other, 0x4753594d, 4);
        put(&other, 1, 2);
        put(&other, width, 1);
        put(&other, 0, 45);
        CHECK(finds(&other, width == 1 || width == 2 || width == 4 || width == 8 ? 0 : GSYM_OFFSET_SIZE, 0));
    }
    /* cut: no prefix passes before its lists end, and the length of type 0 is not judged */
    for (size_t n = 0; n <= sample.len; n++) {
        other = sample;
        other.len = n;
        f = check_bytes(other.at, other.len);
        if (n < p->tables_end)
            CHECK(f.number == GSYM_TOO_FEW_BYTES && f.entry == 0);
        else if (n < p->info + 8)
            CHECK(f.number == GSYM_UNREAD_INFO && f.entry == 0);
        else if (n < p->items_end + 4)
            CHECK(f.number == GSYM_OPEN_LIST && f.entry == 0);
        else
            CHECK(f.number == 0 && f.entry == 0);
    }
    CHECK(found_changed(p->items_end + 4, UINT32_MAX, 4, 0, 0));
}

static void check_of_entries(const places *p)
{
    size_t plain = p->tables_end, last = plain + 16;
    /* the address table: 0, 0x100, 0x200, of two bytes each; of two neighbours the later is the faulty one, and equal
     * ones are well */
    CHECK(found_changed(48, 0x101, 2, GSYM_FALLING_TABLE, 1));
    CHECK(found_changed(48, 0x1ff, 2, GSYM_FALLING_TABLE, 1));
    CHECK(found_changed(52, 0xff, 2, GSYM_FALLING_TABLE, 2));
    CHECK(found_changed(50, 0x201, 2, GSYM_FALLING_TABLE, 2));
    CHECK(found_changed(50, 0xffff, 2, GSYM_FALLING_TABLE, 2));
    CHECK(found_changed(48, 0x100, 2, 0, 0));
    CHECK(found_changed(52, 0x100, 2, 0, 0));
    CHECK(found_changed(50, 0x200, 2, 0, 0));
    for (uint32_t k = 0; k < 3; k++) {
        CHECK(found_changed(p->offsets + 4 * k, UINT32_MAX, 4, GSYM_UNREAD_INFO, k));
        CHECK(found_changed(p->offsets + 4 * k, sample.len - 7, 4, GSYM_UNREAD_INFO, k));
    }
    /* base and entry and size: the last is 0x200 on, with size 0; up to 2^64-1 all is well */
    CHECK(found_changed(8, UINT64_MAX - 0x200, 8, 0, 0));
    CHECK(found_changed(8, UINT64_MAX - 0x1ff, 8, GSYM_SUM_TOO_LARGE, 2));
    CHECK(found_changed(8, UINT64_MAX - 0xff, 8, GSYM_SUM_TOO_LARGE, 0));
    other = sample;
    put_over(&other, 8, UINT64_MAX - 0x200, 8);
    put_over(&other, last, 1, 4);
    CHECK(finds(&other, GSYM_SUM_TOO_LARGE, 2));
    put_over(&other, last + 4, S_PAST, 4); /* before the name */
    CHECK(finds(&other, GSYM_SUM_TOO_LARGE, 2));
    put_over(&other, plain + 4, S_PAST, 4); /* but a lower entry before it */
    CHECK(finds(&other, GSYM_UNREAD_NAME, 1));
    CHECK(found_changed(p->info + 4, S_PAST, 4, GSYM_UNREAD_NAME, 0));
    CHECK(found_changed(plain + 4, S_BAD, 4, GSYM_UNREAD_NAME, 1));
    CHECK(found_changed(last + 4, S_BAD, 4, GSYM_UNREAD_NAME, 2));
    /* a list that doesn't end: an item of any type and too long */
    CHECK(found_changed(plain + 8, 77, 4, 0, 0)); /* of length 0: the next is of type 0, at the start of the last */
    CHECK(found_changed(p->info + 12, UINT32_MAX, 4, GSYM_OPEN_LIST, 0));
    CHECK(found_changed(p->items_end, 77, 4, GSYM_OPEN_LIST, 0));
    CHECK(found_changed(p->line_item + 4, UINT32_MAX, 4, GSYM_OPEN_LIST, 0));
    /* judged is not what a lookup alone meets: file indices, and the strings of the file table */
    CHECK(found_changed(p->files - 4, 1, 4, 0, 0));
    CHECK(found_changed(p->files + 8, S_PAST, 4, 0, 0));
    CHECK(found_changed(p->files + 12, S_PAST, 4, 0, 0));
    /* an item of a type that is not judged */
    CHECK(found_changed(p->inline_item, 3, 4, 0, 0));
}

static void check_of_items(void)
{
    static const uint8_t torn[] = {0x80}, still[] = {0x7c, 10, 10, 8, 70, 196}, behind[] = {0x7c, 10, 10, 0, 0x80};
    static const uint8_t no_range[] = {0, 0x7f, 10, 4}, no_operand[] = {0x7c, 10, 10, 2};
    static const uint8_t cut[] = {0x7c, 10, 10, 3, 0x80};
    static const uint8_t too_wide[] = {0x7c, 10, 10, 1, 255, 255, 255, 255, 255, 255, 255, 255, 255, 2};
    CHECK(found_lines(torn, 1, GSYM_UNREAD_LINE_HEADER));
    CHECK(found_lines(torn, 0, GSYM_UNREAD_LINE_HEADER));
    CHECK(found_lines(still, sizeof still, 0)); /* the end of the bytes ends it */
    CHECK(found_lines(behind, sizeof behind, 0));
    CHECK(found_lines(no_range, sizeof no_range, GSYM_STOPPED_PROGRAM));
    CHECK(found_lines(no_operand, sizeof no_operand, GSYM_STOPPED_PROGRAM));
    CHECK(found_lines(cut, sizeof cut, GSYM_STOPPED_PROGRAM));
    CHECK(found_lines(too_wide, sizeof too_wide, GSYM_STOPPED_PROGRAM)); /* an operand, and no number of the header */
    /* of two faults in the items the first is told */
    put_file(&other, no_range, sizeof no_range, torn, 1);
    CHECK(finds(&other, GSYM_STOPPED_PROGRAM, 0));
    put_file(&other, made_lines, sizeof made_lines, torn, 1);
    CHECK(finds(&other, GSYM_UNREAD_INLINE, 0));

    block.len = 0;
    CHECK(found_block(&block, GSYM_UNREAD_INLINE));
    put_node(&block, 0, 32, 1, S_OUTER, 0, 0); /* its children don't end */
    CHECK(found_block(&block, GSYM_UNREAD_INLINE));
    put_uleb(&block, 0);
    CHECK(found_block(&block, 0));
    put(&block, 0x80, 1); /* what is behind the root is not judged */
    CHECK(found_block(&block, 0));

    block.len = 0;
    put_node(&block, UINT64_MAX - 0xfff, 8, 0, S_OUTER, 1, 1);
    CHECK(found_block(&block, GSYM_INLINE_SUM_TOO_LARGE));
    block.len = 0;
    put_node(&block, 0, UINT64_MAX - 0x1000, 0, S_OUTER, 1, 1); /* up to 2^64-1 */
    CHECK(found_block(&block, 0));
    /* a node far from any address is judged too, and below one that contains none */
    block.len = 0;
    put_node(&block, 1000, 8, 1, 0, 0, 0);
    put_node(&block, 0, 8, 0, S_PAST, (uint64_t)UINT32_MAX + 1, 1);
    put_uleb(&block, 0);
    CHECK(found_block(&block, GSYM_CALL_FILE_TOO_LARGE));
    /* file, name and line of a call are not */
    block.len = 0;
    put_node(&block, 0, 32, 0, S_PAST, UINT32_MAX, UINT64_MAX);
    CHECK(found_block(&block, 0));
    /* 64 levels fit, and 65 don't, however many of them are open */
    for (int open = 0; open <= 64; open += 32) {
        block.len = 0;
        put_levels(&block, 64, open, S_MID);
        CHECK(found_block(&block, 0));
        block.len = 0;
        put_levels(&block, 65, open, S_MID);
        CHECK(found_block(&block, GSYM_TOO_DEEP));
    }
    /* any number of frames: there is no room for them to exceed */
    block.len = 0;
    put_node(&block, 0, 32, 1, 0, 0, 0);
    for (int i = 0; i < 200; i++)
        put_node(&block, 0, 32, 0, S_MID, 1, 1);
    put_uleb(&block, 0);
    CHECK(found_block(&block, 0));
    CHECK(is_refusal(with_block(&block, 0x1005), GSYM_TOO_MANY_FRAMES));
}

/* ---- numbers of ten bytes in line headers and nodes */

/* too wide, signed or not: by the value, and since the tenth byte asks for another */
static const uint8_t ten_wide[][10] = {
    {128, 128, 128, 128, 128, 128, 128, 128, 128, 2},   {255, 255, 255, 255, 255, 255, 255, 255, 255, 2},
    {128, 128, 128, 128, 128, 128, 128, 128, 128, 126}, {255, 255, 255, 255, 255, 255, 255, 255, 255, 126},
    {128, 128, 128, 128, 128, 128, 128, 128, 128, 128}, {255, 255, 255, 255, 255, 255, 255, 255, 255, 255},
};
enum { TEN_WIDE = sizeof ten_wide / sizeof ten_wide[0] };

/* a number below 64, padded to ten bytes: it fits */
static void pad_ten(uint8_t *at, uint8_t value)
{
    memset(at, 128, 9);
    at[0] |= value;
    at[9] = 0;
}

static const uint8_t usual[] = {1, 0, 32, 1, 9}; /* range count, offset, size; call file, call line */
enum { NODE_PLACES = sizeof usual, HEADER_PLACES = 3 };

/* a node on 32 bytes with one of these numbers in other bytes, where it is the last that is there unless `whole`; the
 * root, or the child of a root without a name that contains the symbol's address or (`above` is 2) doesn't */
static void put_node_with(made *m, int above, int place, const uint8_t *number, size_t len, int whole)
{
    m->len = 0;
    if (above)
        put_node(m, above == 1 ? 0 : 1000, 32, 1, 0, 0, 0);
    for (int i = 0; i < NODE_PLACES && (whole || i <= place); i++) {
        if (i == 3) {
            put(m, 0, 1);
            put(m, S_MID, 4);
        }
        if (i == place)
            put_bytes(m, number, len);
        else
            put(m, usual[i], 1);
    }
    if (whole && above)
        put_uleb(m, 0);
}

/* the block alone, at every length of the list, in lookups, where it is read with both options only, and in a check */
static void is_refused_everywhere(uint32_t number)
{
    for (int k = 0; k < LENGTHS; k++) {
        gsym_inline_frame *r;
        gsym_listed l = list_block(&block, 0x1000, 0x1005, lengths[k], &r);
        CHECK(l.number == number && l.count == 0 && rest_kept(r, 0));
    }
    CHECK(is_refusal(with_block(&block, 0x1005), number));
    CHECK(is_refusal(look(&other, 0x1005, ALL, 0, 0), number));
    CHECK(look(&other, 0x1005, GSYM_CODE_INFO, 64, 0).number == GSYM_FOUND);
    CHECK(look(&other, 0x1005, GSYM_INLINING, 64, 0).number == GSYM_FOUND);
    CHECK(finds(&other, number, 0));
}

static void wide_in_a_node(void)
{
    uint8_t padded[10];
    for (int above = 0; above < 3; above++)
        for (int place = 0; place < NODE_PLACES; place++) {
            for (int k = 0; k < TEN_WIDE; k++) {
                for (int whole = 0; whole < 2; whole++) {
                    put_node_with(&block, above, place, ten_wide[k], 10, whole);
                    is_refused_everywhere(GSYM_TOO_WIDE);
                }
                for (size_t n = 0; n < 10; n++) {
                    put_node_with(&block, above, place, ten_wide[k], n, 0);
                    is_refused_everywhere(GSYM_UNREAD_INLINE);
                }
            }
            pad_ten(padded, usual[place]);
            put_node_with(&block, above, place, &usual[place], 1, 1);
            gsym_answer a = with_block(&block, 0x1005);
            put_node_with(&block, above, place, padded, 10, 1);
            gsym_answer b = with_block(&block, 0x1005);
            CHECK(a.number == GSYM_FOUND && same(a, b));
            CHECK(is_text(a.name, other.at, other.len, above == 2 ? "main" : "mid"));
            CHECK(found_block(&block, 0));
        }
    /* a call file that is too wide is 15, and one that reads and is above the limit 12, also before a line that is */
    static const uint8_t most[10] = {255, 255, 255, 255, 255, 255, 255, 255, 255, 1};
    put_node_with(&block, 1, 3, most, 10, 1);
    is_refused_everywhere(GSYM_CALL_FILE_TOO_LARGE);
    block.len = 0;
    put_node(&block, 0, 32, 0, S_OUTER, (uint64_t)UINT32_MAX + 1, 0);
    block.len--;
    put_bytes(&block, ten_wide[0], 10);
    is_refused_everywhere(GSYM_CALL_FILE_TOO_LARGE);
    /* a call line that is too wide before room, and the level before the offset */
    put_node_with(&block, 0, 4, ten_wide[0], 10, 1);
    CHECK(list_block(&block, 0x1000, 0x1005, 0, 0).number == GSYM_TOO_WIDE);
    for (int place = 0; place < 2; place++) {
        block.len = 0;
        put_levels(&block, 65, 65, S_MID);
        block.len -= 64 + 10; /* the ends of the lists, and the node on level 65 */
        put_bytes(&block, usual, (size_t)place);
        put_bytes(&block, ten_wide[4], 10);
        CHECK(found_block(&block, place == 0 ? GSYM_TOO_WIDE : GSYM_TOO_DEEP));
    }
    /* what is behind the root isn't read */
    put_node_with(&block, 0, 0, usual, 1, 1);
    put_bytes(&block, ten_wide[4], 10);
    CHECK(with_block(&block, 0x1005).number == GSYM_FOUND);
    CHECK(found_block(&block, 0));
}

static void wide_in_a_header(void)
{
    uint8_t lines[64];
    enum { REST = sizeof made_lines - HEADER_PLACES };
    for (size_t place = 0; place < HEADER_PLACES; place++)
        for (int k = 0; k < TEN_WIDE; k++) {
            memcpy(lines, made_lines, place);
            memcpy(lines + place, ten_wide[k], 10);
            memcpy(lines + place + 10, made_lines + place + 1, HEADER_PLACES - place - 1 + REST);
            for (size_t n = 0; n < 12; n++) { /* so many bytes of the number, of eleven all is there */
                uint32_t number = n < 10 ? GSYM_UNREAD_LINE_HEADER : GSYM_TOO_WIDE;
                CHECK(found_lines(lines, n < 11 ? place + n : sizeof made_lines + 9, number));
                CHECK(is_refusal(look(&other, 0x1005, ALL, 64, 0), number));
                CHECK(is_refusal(look(&other, 0x1005, GSYM_CODE_INFO, 0, 0), number));
                CHECK(is_main(look(&other, 0x1005, 0, 64, 0), "main", 0, 0, 0));
                CHECK(is_main(look(&other, 0x1005, GSYM_INLINING, 64, 0), "main", 0, 0, 0));
            }
        }
    /* a min of ten bytes that fits, -4 */
    memset(lines, 255, 9);
    lines[0] = 0xfc;
    lines[9] = 127;
    memcpy(lines + 10, made_lines + 1, sizeof made_lines - 1);
    CHECK(found_lines(lines, sizeof made_lines + 9, 0));
    CHECK(is_main(look(&other, 0x1005, ALL, 64, 0), "outer", 1, 30, 2));
    /* of a header and a tree the one whose item comes first */
    static const uint8_t torn[] = {0x80};
    put_file(&other, ten_wide[4], 10, torn, 1);
    CHECK(is_refusal(look(&other, 0x1005, ALL, 64, 0), GSYM_TOO_WIDE) && finds(&other, GSYM_TOO_WIDE, 0));
    put_file(&other, torn, 1, ten_wide[4], 10);
    CHECK(is_refusal(look(&other, 0x1005, ALL, 64, 0), GSYM_UNREAD_LINE_HEADER));
    CHECK(finds(&other, GSYM_UNREAD_LINE_HEADER, 0));
}

static void finding_names(void)
{
    static const char *const own[] = {"an offset size other than 1, 2, 4 and 8", "the address table falls here",
                                      "the symbol ends above 2^64-1", "a line program is stopped",
                                      "the address data list doesn't end in type 0"};
    CHECK(strcmp(gsym_finding_name(0), "passed") == 0);
    for (uint32_t n = 1; n <= 300; n++) {
        const char *name = gsym_finding_name(n);
        if ((n >= 2 && n <= 6) || (n >= 9 && n <= 13) || n == GSYM_TOO_WIDE)
            CHECK(name != 0 && strcmp(name, gsym_refusal_name(n)) == 0);
        else if (n >= GSYM_OFFSET_SIZE && n <= GSYM_OPEN_LIST)
            CHECK(name != 0 && strcmp(name, own[n - GSYM_OFFSET_SIZE]) == 0 && gsym_refusal_name(n) == 0);
        else
            CHECK(name == 0);
    }
    CHECK(gsym_finding_name(UINT32_MAX) == 0);
}

static void words_and_texts(void)
{
    static const uint8_t bytes[4] = {'a', 'b', 'c', 'd'};
    gsym_text t;
    gsym_part part;
    for (uint32_t n = 0; n <= GSYM_TOO_WIDE; n++) {
        CHECK(gsym_refusal_name(n) != 0 && strlen(gsym_refusal_name(n)) > 4);
        for (uint32_t k = 0; k < n; k++)
            CHECK(strcmp(gsym_refusal_name(k), gsym_refusal_name(n)) != 0);
    }
    CHECK(GSYM_TOO_WIDE == 15 && gsym_refusal_name(16) == 0 && gsym_refusal_name(UINT32_MAX) == 0);
    for (uint64_t place = 0; place < 7; place++)
        for (uint64_t len = 0; len < 7; len++) {
            t.place = place;
            t.len = len;
            part = gsym_text_at(bytes, 4, t);
            /* an empty string has its place too; what doesn't fit is an empty part, and no null pointer */
            if (place + len <= 4)
                CHECK(part.at == (const char *)bytes + place && part.len == len);
            else
                CHECK(part.len == 0 && part.at != 0 && *part.at == 0);
            part = gsym_text_at(0, 0, t);
            CHECK(part.len == 0 && part.at != 0 && *part.at == 0);
        }
    t.place = UINT64_MAX;
    t.len = 2;
    CHECK(gsym_text_at(bytes, 4, t).len == 0 && gsym_text_at(bytes, 4, t).at != 0);
    t.place = 2;
    t.len = UINT64_MAX;
    CHECK(gsym_text_at(bytes, 4, t).len == 0 && gsym_text_at(bytes, 4, t).at != 0);
    CHECK(gsym_version() == GSYM_VERSION);
    CHECK(gsym_version() == 200);
}

/* ---- texts */

/* A call that writes a text, with a room of each length from 0 to some more than the text has: the front of the text,
 * the rest of the room as it was, and the length of the whole; and no room at all, by a null pointer. The call has
 * `room` and `n`. */
#define EACH_ROOM(text, text_len, call)                                            \
    do {                                                                           \
        const char *whole = (text);                                                \
        size_t whole_len = (text_len), n = 0;                                      \
        uint8_t *room = 0;                                                         \
        CHECK((call) == whole_len);                                                \
        for (n = 0; n <= whole_len + 3; n++) {                                     \
            room = (uint8_t *)lend_list(n);                                        \
            size_t written = n < whole_len ? n : whole_len;                        \
            CHECK((call) == whole_len);                                            \
            CHECK(memcmp(room, whole, written) == 0 && rest_kept(room, written));  \
        }                                                                          \
    } while (0)

static const uint8_t *bytes_of(const char *text)
{
    return (const uint8_t *)text;
}

static const uint8_t *asked_file;
static size_t asked_len;
static uint32_t number_seen;

static uint64_t answer_len(uint32_t view, uint64_t base, const char *word, uint8_t *room, size_t room_len)
{
    gsym_printed p =
        gsym_answer_text(asked_file, asked_len, view, base, bytes_of(word), strlen(word), room, room_len);
    number_seen = p.number;
    return p.len;
}

/* The answer to a word, with a room of each length. Bits of the view that have no name change nothing. */
static void answers(uint32_t view, uint64_t base, const char *word, uint32_t number, const char *text)
{
    static const uint32_t unnamed[] = {0, 0x100, 0x80000000, 0xffffff00};
    for (size_t k = 0; k < sizeof unnamed / sizeof unnamed[0]; k++) {
        EACH_ROOM(text, strlen(text), answer_len(view | unnamed[k], base, word, room, n));
        CHECK(number_seen == number);
    }
}

#define A GSYM_VIEW_ADDRESSES
#define F GSYM_VIEW_FUNCTIONS
#define I GSYM_VIEW_INLINES
#define P GSYM_VIEW_PRETTY
#define S GSYM_VIEW_BASE_NAMES
#define R GSYM_VIEW_REFUSALS
#define J GSYM_VIEW_JSON
#define BACK GSYM_VIEW_RETURN_ADDRESSES

static void answer_texts(void)
{
    const char *json = "{\"address\":\"0x1005\",\"number\":0,\"start\":\"0x1000\",\"size\":256,\"frames\":["
                       "{\"name\":\"leaf\",\"directory\":\"/src\",\"file\":\"a.c\",\"line\":12},"
                       "{\"name\":\"mid\",\"directory\":\"/inc\\ufffd\",\"file\":\"b.h\",\"line\":40},"
                       "{\"name\":\"outer\",\"directory\":\"/src\",\"file\":\"a.c\",\"line\":30}]}\n";
    asked_file = lend(sample.at, sample.len, 0);
    asked_len = sample.len;
    /* no bit, and each bit */
    answers(0, 0, "1005", GSYM_FOUND, "/src/a.c:12\n");
    answers(A, 0, "1005", GSYM_FOUND, "0x0000000000001005\n/src/a.c:12\n");
    answers(F, 0, "1005", GSYM_FOUND, "leaf\n/src/a.c:12\n");
    answers(I, 0, "1005", GSYM_FOUND, "/src/a.c:12\n/inc\xff/b.h:40\n/src/a.c:30\n");
    answers(P, 0, "1005", GSYM_FOUND, "/src/a.c:12\n");
    answers(S, 0, "1005", GSYM_FOUND, "a.c:12\n");
    answers(R, 0, "1005", GSYM_FOUND, "/src/a.c:12\n");
    answers(R, 0, "fff", GSYM_UNKNOWN_ADDRESS, "?1 no symbol covers the address\n");
    answers(J, 0, "1005", GSYM_FOUND, json);
    answers(J | A | F | I | P | S | R, 0, "1005", GSYM_FOUND, json);
    answers(BACK, 0, "1006", GSYM_FOUND, "/src/a.c:12\n");
    answers(BACK | A, 0, "0x1000", GSYM_UNKNOWN_ADDRESS, "0x0000000000001000\n?" "?:0\n");
    answers(BACK, 0, "0", GSYM_UNKNOWN_ADDRESS, "?" "?:0\n");
    /* several bits */
    answers(A | F | I | P, 0, "1005", GSYM_FOUND,
            "0x0000000000001005: leaf at /src/a.c:12\n (inlined by) mid at /inc\xff/b.h:40\n"
            " (inlined by) outer at /src/a.c:30\n");
    answers(F | P, 0, "fff", GSYM_UNKNOWN_ADDRESS, "?? ?" "?:0\n");
    answers(F | P, 0, "1101", GSYM_FOUND, "plain at ?" "?:?\n");
    answers(F, 0, "1101", GSYM_FOUND, "plain\n?" "?:0\n");
    /* a base: shown is what was given, in JSON too */
    answers(A | S, 0x500, "1505", GSYM_FOUND, "0x0000000000001505\na.c:12\n");
    answers(R, 0x500, "4ff", GSYM_UNKNOWN_ADDRESS, "?1 no symbol covers the address\n");
    answers(J, UINT64_MAX, "0", GSYM_UNKNOWN_ADDRESS,
            "{\"address\":\"0x0\",\"number\":1,\"refusal\":\"no symbol covers the address\"}\n");
    /* a word that is no address */
    answers(0, 0, "10z5", GSYM_NO_ADDRESS, "?" "?:0\n");
    answers(A | F, 0, " 1005", GSYM_NO_ADDRESS, "??\n??\n?" "?:0\n");
    answers(A | F | P, 0, "0x", GSYM_NO_ADDRESS, "??: ?? ?" "?:0\n");
    answers(R, 0, "\x1b[2J", GSYM_NO_ADDRESS, "?? '?[2J' is no address\n");
    answers(J, 0, "\xe2\x80\xae\"", GSYM_NO_ADDRESS,
            "{\"address\":null,\"word\":\"\\u202e\\\"\",\"error\":\"no address\"}\n");
    answers(0, 0, "", GSYM_NO_ADDRESS, "?" "?:0\n");
    /* 15 in words and as JSON, where frames are asked for */
    const char *wide = "?15 a number wider than 64 bits: from a broken producer, not a torn file\n"
                       "?15 a number wider than 64 bits: from a broken producer, not a torn file\n";
    put_node_with(&block, 0, 0, ten_wide[4], 10, 1);
    put_file(&other, made_lines, sizeof made_lines, block.at, block.len);
    asked_file = lend(other.at, other.len, 0);
    asked_len = other.len;
    answers(F | R, 0, "1005", GSYM_TOO_WIDE, wide);
    answers(J, 0, "1005", GSYM_TOO_WIDE,
            "{\"address\":\"0x1005\",\"number\":15,"
            "\"refusal\":\"a number wider than 64 bits: from a broken producer, not a torn file\"}\n");
    answers(R, 0, "1005", GSYM_FOUND, "/src/a.c:12\n");
    /* null pointers where the length is 0 */
    EACH_ROOM("?" "?:0\n", 5, gsym_answer_text(asked_file, asked_len, 0, 0, 0, 0, room, n).len);
    asked_file = 0;
    asked_len = 0;
    answers(R, 0, "1005", GSYM_TOO_FEW_BYTES, "?2 the file ends inside its header or a table\n");
    CHECK(gsym_answer_text(0, 0, 0, 0, 0, 0, 0, 0).number == GSYM_NO_ADDRESS);
    CHECK(gsym_answer_text(0, 0, 0, 0, 0, 0, 0, 0).len == 5);
}

/* Every view, at each address of the sample that it says something of: the text is there with just its room, the number
 * is that of the lookup, and no byte steers. */
static void every_view(void)
{
    static const char *const words[] = {"1005", "1080", "1101", "1200", "fff", "zz"};
    const uint8_t *file = lend(sample.at, sample.len, 3);
    for (uint32_t view = 0; view < 256; view++)
        for (size_t k = 0; k < sizeof words / sizeof words[0]; k++) {
            const uint8_t *word = bytes_of(words[k]);
            size_t word_len = strlen(words[k]);
            gsym_printed p = gsym_answer_text(file, sample.len, view, 0, word, word_len, 0, 0);
            uint8_t *room = (uint8_t *)lend_list((size_t)p.len);
            gsym_printed q = gsym_answer_text(file, sample.len, view, 0, word, word_len, room, (size_t)p.len);
            CHECK(p.len == q.len && p.number == q.number && rest_kept(room, (size_t)q.len));
            CHECK(q.len > 0 && room[q.len - 1] == '\n');
            for (size_t i = 0; i < q.len; i++)
                CHECK(room[i] == '\n' || (room[i] >= 32 && room[i] != 127));
            gsym_number n = gsym_address_of(word, word_len);
            uint32_t options = GSYM_CODE_INFO | ((view & (F | I | J)) ? GSYM_INLINING : 0);
            gsym_frame frames[GSYM_MAX_FRAMES];
            gsym_answer a = gsym_lookup(file, sample.len, n.value - (view & BACK ? 1 : 0), options, frames,
                                        GSYM_MAX_FRAMES);
            CHECK(q.number == (n.is_number ? a.number : GSYM_NO_ADDRESS));
        }
}

#undef A
#undef F
#undef I
#undef P
#undef S
#undef R
#undef J
#undef BACK

static void shown_texts(void)
{
    static const char steering[] = "a\x1b" "b\xc2\x85" "c\xe2\x81\xa6\x9f\0\x7f\xa0\xc2\xa0";
    EACH_ROOM("a?b?c????\xa0\xc2\xa0", 12, gsym_shown_text(bytes_of(steering), sizeof steering - 1, room, n));
    EACH_ROOM("", 0, gsym_shown_text(0, 0, room, n));
    EACH_ROOM("", 0, gsym_shown_text(bytes_of("a"), 0, room, n));
    for (uint32_t k = 1; k <= GSYM_TOO_WIDE; k++)
        EACH_ROOM(gsym_refusal_name(k), strlen(gsym_refusal_name(k)), gsym_refusal_text(k, room, n));
    static const uint32_t none[] = {0, 16, 254, GSYM_NO_ADDRESS, 256, 257, 0x10001, UINT32_MAX};
    for (size_t k = 0; k < sizeof none / sizeof none[0]; k++)
        EACH_ROOM("", 0, gsym_refusal_text(none[k], room, n));
}

static void words(void)
{
    static const char input[] = " \t\r\nab c\0d\v\xa0\n\n0x1 ";
    static const struct {
        size_t place, len;
    } parted[] = {{4, 2}, {7, 5}, {14, 3}};
    size_t at = 0, k = 0, len = sizeof input - 1;
    for (size_t gap = 0; gap < 8; gap++) {
        const uint8_t *bytes = lend(bytes_of(input), len, gap);
        for (at = 0, k = 0;; k++) {
            gsym_text word = gsym_next_word(bytes + at, len - at);
            if (word.len == 0)
                break;
            CHECK(k < 3 && word.len == parted[k].len && at + word.place == parted[k].place);
            at += (size_t)(word.place + word.len);
        }
        CHECK(k == 3);
    }
    for (int c = 0; c < 256; c++) {
        uint8_t byte = (uint8_t)c;
        int parts = c == ' ' || c == '\t' || c == '\r' || c == '\n';
        CHECK(gsym_next_word(&byte, 1).len == (parts ? 0 : 1));
    }
    CHECK(gsym_next_word(0, 0).len == 0);
}

static gsym_number address(const char *word) { return gsym_address_of(bytes_of(word), strlen(word)); }

static void addresses(void)
{
    static const char *const no[] = {"",   "0x",  "x1", "0x0x1", "-1",       "+1",     " 1",
                                     "1 ", "0xg", "1_", "1h",    "0x1\xa0", "\xef\xbc\x91", "10000000000000000"};
    CHECK(address("0").is_number == 1 && address("0").value == 0);
    CHECK(address("1A").is_number == 1 && address("1A").value == 26);
    CHECK(address("0X1a").is_number == 1 && address("0X1a").value == 26);
    CHECK(address("0xFFffFFffFFffFFff").is_number == 1 && address("0xFFffFFffFFffFFff").value == UINT64_MAX);
    CHECK(address("0x00000000000000000000001005").value == 0x1005);
    CHECK(gsym_address_of(bytes_of("12"), 1).value == 1);
    for (size_t k = 0; k < sizeof no / sizeof no[0]; k++)
        CHECK(address(no[k]).is_number == 0 && address(no[k]).value == 0);
    CHECK(gsym_address_of(bytes_of("1\0"), 2).is_number == 0);
    CHECK(gsym_address_of(0, 0).is_number == 0 && gsym_address_of(0, 0).value == 0);
}

int main(void)
{
    places p = put_sample(&sample);
    file_room = guarded();
    list_room = guarded();
    before = (uint8_t *)malloc(ROOM);
    if (before == 0)
        return 2;
    words_and_texts();
    finding_names();
    check_of_tables(&p);
    check_of_entries(&p);
    check_of_items();
    wide_in_a_node();
    wide_in_a_header();
    answer_texts();
    every_view();
    shown_texts();
    words();
    addresses();
    blocks();
    block_refusals();
    every_room();
    lookups();
    starts_and_cuts(&p);
    refusals(&p);
    printf("%ld answers compared, %d wrong\n", checks, failed);
    return failed != 0;
}
