/*
 * made.h - a small symbol file and inline blocks, made by hand for the tests of the C border.
 *
 * The file: three symbols from 0x1000 on. `main` (0x1000, 256 bytes) has a line table and an inline block with three
 * frames at 0x1005: outer, mid called at a.c:30, leaf called at b.h:40. `plain` (0x1100, 16 bytes) has no items. `last`
 * (0x1200) has size 0. The string table stands before the entries' data, so that a cut in these is no cut in a table.
 */
#ifndef MADE_H
#define MADE_H

#include <stdint.h>
#include <string.h>

typedef struct made {
    uint8_t at[65536];
    size_t len;
} made;

static inline void put(made *m, uint64_t value, int bytes)
{
    for (int i = 0; i < bytes; i++)
        m->at[m->len++] = (uint8_t)(i < 8 ? value >> (8 * i) : 0);
}

/* over bytes that are there */
static inline void put_over(made *m, size_t place, uint64_t value, int bytes)
{
    for (int i = 0; i < bytes; i++)
        m->at[place + (size_t)i] = (uint8_t)(value >> (8 * i));
}

static inline void put_bytes(made *m, const void *bytes, size_t len)
{
    if (len > 0)
        memcpy(m->at + m->len, bytes, len);
    m->len += len;
}

static inline void put_uleb(made *m, uint64_t value)
{
    while (value > 127) {
        put(m, (value & 127) | 128, 1);
        value >>= 7;
    }
    put(m, value, 1);
}

/* ---- inline blocks */

/* a node with one range; its children and the 0 that ends them are put after it */
static inline void put_node(made *m, uint64_t offset, uint64_t size, int children, uint32_t name, uint64_t file,
                            uint64_t line)
{
    put_uleb(m, 1);
    put_uleb(m, offset);
    put_uleb(m, size);
    put(m, (uint64_t)children, 1);
    put(m, name, 4);
    put_uleb(m, file);
    put_uleb(m, line);
}

/* one node on each of so many levels, the first `open` of which contain the symbol's address; all are named `name` */
static inline void put_levels(made *m, int levels, int open, uint32_t name)
{
    for (int i = 1; i <= levels; i++)
        put_node(m, i <= open ? 0 : 1000, 8, i < levels, name, 1, (uint64_t)i);
    for (int i = 1; i < levels; i++)
        put_uleb(m, 0);
}

/* ---- strings, by their offset in the table */

static const char made_strings[] = "\0main\0plain\0last\0outer\0mid\0leaf\0/src\0a.c\0/inc\xff\0b.h\0\xff";
enum {
    S_MAIN = 1,
    S_PLAIN = 6,
    S_LAST = 12,
    S_OUTER = 17,
    S_MID = 23,
    S_LEAF = 27,
    S_SRC = 32,
    S_A_C = 37,
    S_INC = 41, /* not UTF-8: fine in a directory */
    S_B_H = 47,
    S_BAD = 51, /* not UTF-8: not fine in a name */
    S_PAST = 53 /* as many bytes as the table has */
};

/* ---- the file */

/* where things stand in it */
typedef struct places {
    size_t offsets, files, strings, tables_end, info, line_item, inline_item, items_end;
} places;

static const uint8_t made_lines[] = {
    0x7c, 10, 10, /* min -4, max 10, first line 10 */
    8,            /* 0x1000: 10 */
    70,           /* 0x1004: 12 */
    196,          /* 0x1010: 20 */
    0,
};

static inline void put_inlined(made *m)
{
    put_node(m, 0, 32, 1, S_OUTER, 0, 0);
    put_node(m, 4, 8, 1, S_MID, 1, 30);
    put_node(m, 0, 4, 0, S_LEAF, 2, 40);
    put_uleb(m, 0);
    put_uleb(m, 0);
}

static inline void put_item(made *m, uint32_t kind, const void *bytes, size_t len)
{
    put(m, kind, 4);
    put(m, len, 4);
    put_bytes(m, bytes, len);
}

static inline places put_file(made *m, const void *lines, size_t lines_len, const void *block, size_t block_len)
{
    places p;
    size_t plain, last;
    m->len = 0;
    put(m, 0x4753594d, 4);
    put(m, 1, 2);
    put(m, 2, 1);
    put(m, 20, 1);
    put(m, 0x1000, 8);
    put(m, 3, 4);
    put(m, 0, 4);
    put(m, sizeof made_strings, 4);
    for (int i = 0; i < 20; i++)
        put(m, (uint64_t)i, 1);
    put(m, 0, 2);
    put(m, 0x100, 2);
    put(m, 0x200, 2);
    put(m, 0, 2); /* up to an offset divisible by 4 */
    p.offsets = m->len;
    put(m, 0, 12);
    put(m, 3, 4);
    p.files = m->len;
    put(m, 0, 8);
    put(m, S_SRC, 4);
    put(m, S_A_C, 4);
    put(m, S_INC, 4);
    put(m, S_B_H, 4);
    p.strings = m->len;
    put_over(m, 20, m->len, 4);
    put_bytes(m, made_strings, sizeof made_strings);
    p.tables_end = m->len;
    plain = m->len;
    put(m, 16, 4);
    put(m, S_PLAIN, 4);
    put(m, 0, 8);
    last = m->len;
    put(m, 0, 4);
    put(m, S_LAST, 4);
    put(m, 0, 8);
    p.info = m->len;
    put(m, 256, 4);
    put(m, S_MAIN, 4);
    put_item(m, 77, "?", 1); /* an unknown type is skipped */
    p.line_item = m->len;
    put_item(m, 1, lines, lines_len);
    p.inline_item = m->len;
    put_item(m, 2, block, block_len);
    p.items_end = m->len;
    put(m, 0, 8);
    put_over(m, p.offsets, p.info, 4);
    put_over(m, p.offsets + 4, plain, 4);
    put_over(m, p.offsets + 8, last, 4);
    return p;
}

static inline places put_sample(made *m)
{
    made block;
    block.len = 0;
    put_inlined(&block);
    return put_file(m, made_lines, sizeof made_lines, block.at, block.len);
}

#endif
