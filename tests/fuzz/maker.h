/*
 * maker.h - bytes made for the mutator: numbers in and out of the common, LEB128, line tables, inline trees, data of an
 * entry, letters, and whole files.
 */
#ifndef MAKER_H
#define MAKER_H

#include "head.h"

static uint64_t dice;

static uint64_t roll(uint64_t below)
{
    dice ^= dice << 13, dice ^= dice >> 7, dice ^= dice << 17;
    return below == 0 ? 0 : (dice >> 11) % below;
}

/* ---- bytes put at an input's end; past `most` nothing is */

typedef struct maker {
    uint8_t *at;
    size_t len, most;
} maker;

static void put(maker *m, uint64_t value, int width)
{
    for (int i = 0; i < width && m->len < m->most; i++)
        m->at[m->len++] = (uint8_t)(value >> (8 * i));
}

static void put_over(maker *m, size_t at, uint64_t value, int width)
{
    for (int i = 0; i < width && at + (size_t)i < m->len; i++)
        m->at[at + (size_t)i] = (uint8_t)(value >> (8 * i));
}

/* unsigned LEB128, at times padded */
static void put_uleb(maker *m, uint64_t value)
{
    int pad = roll(16) == 0 ? (int)roll(10) : 0;
    for (; value > 127; value >>= 7)
        put(m, (value & 127) | 128, 1);
    for (put(m, value | (pad > 0 ? 128 : 0), 1); pad > 0; pad--)
        put(m, pad == 1 ? 0 : 128, 1);
}

static void put_sleb(maker *m, int64_t value)
{
    int pad = roll(16) == 0 ? (int)roll(10) : 0;
    for (; value < -64 || value > 63 || pad > 0; value >>= 7, pad--)
        put(m, ((uint64_t)value & 127) | 128, 1);
    put(m, (uint64_t)value & 127, 1);
}

/* mostly small, at times near a border */
static uint64_t some_number(void)
{
    static const uint64_t borders[] = {0, 1, 63, 64, 65, 127, 128, 255, 256, 65535, 0x7fffffff, 0x80000000, 0xffffffff,
                                       0x100000000, 0x7fffffffffffffff, 0x8000000000000000, 0xffffffffffffffff};
    uint64_t kind = roll(8);
    if (kind == 0)
        return borders[roll(sizeof borders / sizeof borders[0])] + roll(3) - 1;
    return kind == 1 ? roll(65536) : roll(kind == 2 ? 256 : 24);
}

static uint64_t some_place(bytes f)
{
    return roll(4) == 0 ? some_number() : roll(2) == 0 ? f.len - roll(24) : roll(f.len);
}

/* an offset in the string table: mostly one that follows a zero byte */
static uint64_t some_name(bytes f)
{
    uint64_t table = read_at(f, 20, 4), size = read_at(f, 24, 4);
    if (size == 0 || table >= f.len || size > f.len - table || roll(8) == 0)
        return some_number();
    uint64_t at = roll(size);
    while (roll(16) != 0 && at > 0 && f.at[table + at - 1] != 0)
        at--;
    return at;
}

static void put_lines(maker *m, bytes f)
{
    int64_t least = (int64_t)roll(12) - 6;
    put_sleb(m, roll(16) == 0 ? (int64_t)some_number() : least);
    put_sleb(m, roll(16) == 0 ? (int64_t)some_number() : least + (int64_t)roll(16) - (roll(4) == 0 ? 8 : 0));
    put_uleb(m, some_number());
    for (uint64_t i = roll(12); i > 0; i--) {
        uint64_t op = roll(8);
        put(m, op > 3 ? 4 + roll(252) : op, 1);
        if (op == 1)
            put_uleb(m, roll(4) == 0 ? some_number() : roll(1 + read_at(f, shape_of(f).files, 4)));
        else if (op == 2)
            put_uleb(m, some_number());
        else if (op == 3)
            put_sleb(m, (int64_t)(some_number() - roll(64)));
    }
    put(m, 0, roll(4) != 0);
}

/* nodes that all contain the wanted offset, each the only child of the one before */
static void put_chain(maker *m, bytes f, uint64_t wanted, uint64_t levels)
{
    uint64_t unnamed = roll(3);
    for (uint64_t i = 1; i <= levels; i++) {
        put_uleb(m, 1), put_uleb(m, 0), put_uleb(m, wanted + 1 + roll(8)), put(m, i < levels, 1);
        put(m, unnamed > 0 && roll(4) < unnamed ? 0 : some_name(f), 4);
        put_uleb(m, roll(1 + read_at(f, shape_of(f).files, 4))), put_uleb(m, roll(200));
    }
    for (uint64_t i = 1; i < levels; i++)
        put(m, 0, 1);
}

/* a node whose first range mostly contains the offset `wanted` from its base, and its children */
static void put_tree(maker *m, bytes f, uint64_t wanted, int level)
{
    uint64_t ranges = roll(12) == 0 ? roll(4) : 1, off = 0, children = level < 70 && roll(8) < (level > 8 ? 7 : 6);
    put_uleb(m, ranges);
    for (uint64_t i = 0; i < ranges; i++) {
        uint64_t start = roll(8) == 0 ? some_number() : wanted == 0 ? 0 : roll(wanted + 1);
        off = i == 0 ? start : off;
        put_uleb(m, start);
        put_uleb(m, roll(8) == 0 ? some_number() : wanted - start + 1 + roll(8));
    }
    put(m, roll(64) == 0 ? roll(256) : children, 1);
    put(m, roll(6) == 0 ? 0 : some_name(f), 4);
    put_uleb(m, roll(16) == 0 ? some_number() : roll(1 + read_at(f, shape_of(f).files, 4)));
    put_uleb(m, some_number());
    if (ranges == 0 || !children || m->len >= m->most)
        return;
    uint64_t chain = level > 8 || roll(3) == 0, count = chain ? 1 : roll(4);
    for (uint64_t i = 0; i < count; i++)
        put_tree(m, f, wanted >= off ? wanted - off : 0, level + (chain ? 1 : 4));
    put(m, 0, roll(64) != 0);
}

/* new data for an entry, with items of all kinds, at the input's end */
static void graft(maker *m, bytes f, shape s, size_t entry)
{
    put_over(m, HEAD + s.offsets + 4 * entry, m->len - HEAD, 4);
    put(m, roll(4) == 0 ? some_number() : roll(4) == 0 ? 0 : 4096, 4);
    put(m, some_name(f), 4);
    uint64_t wanted = roll(40);
    m->at[0] = 4, m->at[1] |= 3;
    m->at[2] = (uint8_t)entry, m->at[3] = (uint8_t)(entry >> 8), m->at[4] = (uint8_t)wanted, m->at[5] = 0;
    m->at[6] = (uint8_t)(roll(2) == 0 ? 80 : roll(81));
    for (uint64_t i = 1 + roll(4); i > 0; i--) {
        uint64_t type = roll(5) == 0 ? roll(8) : 1 + roll(2);
        put(m, type, 4);
        size_t at = m->len;
        put(m, 0, 4);
        if (type == 1)
            put_lines(m, f);
        else if (type == 2 && roll(12) == 0)
            put_chain(m, f, wanted, roll(2) == 0 ? 62 + roll(5) : 1 + roll(62));
        else if (type == 2)
            put_tree(m, f, wanted, 1);
        else
            put(m, some_number(), (int)roll(9));
        put_over(m, at, m->len - at - 4 + (roll(12) == 0 ? roll(5) - 2 : 0), 4);
    }
    put(m, 0, roll(4) == 0 ? (int)roll(8) : 8);
}

/* a sequence of UTF-8, or nearly one: each length's first and last, surrogates, longer forms, and plain letters */
static size_t some_letter(uint8_t *at)
{
    static const char *const letters[] = {"\xc2\x80", "\xdf\xbf", "\xc1\xbf", "\xe0\xa0\x80", "\xe0\x9f\xbf",
                                          "\xec\x80\xbf", "\xed\x9f\xbf", "\xed\xa0\x80", "\xef\xbf\xbf",
                                          "\xf0\x90\x80\x80", "\xf0\x8f\xbf\xbf", "\xf1\x80\xbf\x80",
                                          "\xf4\x8f\xbf\xbf", "\xf4\x90\x80\x80", "\xf5\x80\x80\x80", "\x80"};
    const char *letter = roll(2) == 0 ? "a" : letters[roll(sizeof letters / sizeof letters[0])];
    size_t len = strlen(letter);
    memcpy(at, letter, len);
    if (roll(24) == 0)
        at[roll(len)] ^= (uint8_t)(1u << roll(8));
    return roll(24) == 0 ? len - 1 : len;
}

/* a new file: tables of any width, a few strings, and data for each entry */
static void new_file(maker *m)
{
    uint64_t width = 1ull << roll(4), entries = 1 + roll(roll(8) == 0 ? 20 : 4), files = 1 + roll(3), at = 0;
    uint64_t base = roll(4) == 0 ? some_number() : 4096, low = width == 1 ? 32 : 4096;
    m->len = HEAD;
    put(m, 0x4753594d, 4), put(m, 1, 2), put(m, width, 1), put(m, roll(24), 1), put(m, base, 8), put(m, entries, 4);
    for (int i = 0; i < 7; i++)
        put(m, 0, 4);
    for (uint64_t i = 0; i < entries; i++) {
        put(m, roll(12) == 0 ? some_number() : at, (int)width);
        uint64_t step = roll(8);
        at += step == 0 ? 0 - roll(low) : step == 1 ? 0 : 1 + roll(low);
    }
    put(m, 0, (int)((HEAD - m->len) & 3));
    for (uint64_t i = 0; i < entries; i++)
        put(m, 0, 4);
    put(m, files, 4);
    for (uint64_t i = 0; i < 2 * files; i++)
        put(m, roll(12), 4);
    uint64_t table = m->len;
    put(m, 0, roll(8) != 0);
    for (uint64_t i = 1 + roll(5); i > 0; i--) {
        uint8_t letter[4];
        for (uint64_t n = roll(6); n > 0; n--)
            for (size_t k = 0, len = some_letter(letter); k < len; k++)
                put(m, letter[k], 1);
        put(m, 0, roll(16) != 0);
    }
    put_over(m, HEAD + 20, table - HEAD, 4);
    put_over(m, HEAD + 24, m->len - table, 4);
    for (uint64_t i = 0; i < entries && i < 4; i++) {
        bytes f = {m->at + HEAD, m->len - HEAD};
        graft(m, f, shape_of(f), i);
    }
}

#endif
