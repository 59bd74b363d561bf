/*
 * head.h - what the fuzzing target knows of the format: where tables, entries and items stand, so that addresses near
 * symbols can be asked and bytes with a meaning be changed. It judges nothing; places outside the file give 0.
 */
#ifndef HEAD_H
#define HEAD_H

#include "checks.h"

enum { HEAD = 16, HEADER = 48 };

/* a number of the file, 0 where it doesn't fit */
static uint64_t read_at(bytes f, size_t at, int width)
{
    return at <= f.len && (size_t)width <= f.len - at ? number_at(f.at + at, width) : 0;
}

/* where the tables stand; entries are those whose offset and data offset fit the file */
typedef struct shape {
    uint64_t base;
    size_t width, entries, offsets, files;
} shape;

static shape shape_of(bytes f)
{
    shape s = {read_at(f, 8, 8), read_at(f, 6, 1), read_at(f, 16, 4), 0, 0};
    if (s.width != 1 && s.width != 2 && s.width != 4 && s.width != 8)
        s.width = 1;
    size_t fit = f.len < HEADER + 4 ? 0 : (f.len - HEADER - 4) / (s.width + 4);
    if (s.entries > fit)
        s.entries = fit;
    s.offsets = (HEADER + s.entries * s.width + 3) & ~(size_t)3;
    s.files = s.offsets + 4 * s.entries;
    return s;
}

static uint64_t entry_at(bytes f, shape s, size_t i) { return read_at(f, HEADER + i * s.width, (int)s.width); }

static size_t data_at(bytes f, shape s, size_t i) { return read_at(f, s.offsets + 4 * i, 4); }

/* an item of an entry's data: its type, its bytes from `start` to `next`, and whether it fits and isn't the end */
typedef struct item {
    uint64_t type;
    size_t start, next;
    int fits;
} item;

static item item_at(bytes f, size_t at)
{
    uint64_t len = read_at(f, at + 4, 4);
    item i = {read_at(f, at, 4), at + 8, at + 8, 0};
    i.fits = i.type != 0 && i.start <= f.len && len <= f.len - i.start;
    if (i.fits)
        i.next += len;
    return i;
}

/* how many bytes the entries name, each list counted for each entry that names it; more than `most` is not counted */
static uint64_t named_bytes(bytes f, uint64_t most)
{
    shape s = shape_of(f);
    uint64_t named = 0;
    for (size_t i = 0; i < s.entries && named <= most; i++) {
        item one = item_at(f, data_at(f, s, i) + 8);
        for (named += 16; one.fits && named <= most; one = item_at(f, one.next))
            named += 8 + one.next - one.start;
    }
    return named;
}

/* the address that a head asks for */
static uint64_t address_of(const uint8_t *head, bytes f)
{
    uint64_t raw = number_at(head + 8, 8), far = number_at(head + 4, 2), near = (uint64_t)(int64_t)(int8_t)head[4];
    shape s = shape_of(f);
    size_t i = s.entries == 0 ? 0 : number_at(head + 2, 2) % s.entries;
    uint64_t start = s.base + entry_at(f, s, i), size = read_at(f, data_at(f, s, i), 4);
    switch (head[0] % 8) {
    case 0: return raw;
    case 1: return s.base + near;
    case 2: return s.base + raw;
    case 3: return start + near;
    case 4: return start + far;
    case 5: return start + (size == 0 ? far : far % size);
    case 6: return start + size + near;
    default: return head[5] % 2 == 0 ? 0 - (uint64_t)head[4] : start - 1;
    }
}

/* The addresses of the report that a head asks for, and how many: up to seven, of which any may be the crash address,
 * and zeros behind it, so that the lines of the others have numbers of two digits and of three. One lower than a return
 * address is looked up: the address that the head asks for, and what the chosen symbol begins and ends with. */
static size_t addresses_of(const uint8_t *head, bytes f, uint64_t *addresses)
{
    static const size_t zeros[] = {5, 0, 95, MOST_ADDRESSES - 7};
    shape s = shape_of(f);
    size_t i = s.entries == 0 ? 0 : number_at(head + 2, 2) % s.entries, wanted = 7 - head[13] % 8, count = 0;
    uint64_t addr = address_of(head, f), start = s.base + entry_at(f, s, i), size = read_at(f, data_at(f, s, i), 4);
    uint64_t some[] = {addr, addr + 1, start, start + size, start + 1, UINT64_MAX, 0};
    for (size_t k = 0; k < wanted; k++) {
        addresses[count++] = some[(k + head[14]) % 7];
        for (size_t z = 0; k == 0 && z < zeros[head[15] % 4]; z++)
            addresses[count++] = 0;
    }
    return count;
}

#endif
