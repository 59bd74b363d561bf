/*
 * mutate.h - changes of an input that keep or aim at the format: numbers of the header and the tables, data offsets,
 * items' types and lengths, bytes of LEB128 numbers, sequences of UTF-8, a cut, and new data at the file's end, with a
 * made line table or inline tree, that an entry is pointed at; at times a whole new file. Every second change is
 * libFuzzer's own.
 */
#ifndef MUTATE_H
#define MUTATE_H

#include "maker.h"

size_t LLVMFuzzerMutate(uint8_t *data, size_t size, size_t most);

/* ---- bytes changed where they stand */

static void change_header(maker *m, bytes f)
{
    static const struct { uint8_t at, width; } fields[] = {{0, 4}, {4, 2}, {6, 1}, {8, 8}, {16, 4}, {20, 4}, {24, 4}};
    uint64_t i = roll(16) == 0 ? roll(7) : 2 + roll(5), value;
    if (i == 2)
        value = roll(8) == 0 ? roll(256) : 1ull << roll(4);
    else if (roll(2) == 0)
        value = read_at(f, fields[i].at, fields[i].width) + roll(9) - 4;
    else
        value = i < 5 ? some_number() : some_place(f);
    put_over(m, HEAD + fields[i].at, value, fields[i].width);
}

static void change_tables(maker *m, bytes f, shape s, size_t entry)
{
    size_t other = entry > 0 && roll(4) == 0 ? entry - 1 : roll(s.entries);
    switch (roll(4)) {
    case 0:
        put_over(m, HEAD + HEADER + entry * s.width, entry_at(f, s, other) + roll(3) - 1, (int)s.width);
        break;
    case 1:
        put_over(m, HEAD + HEADER + entry * s.width, roll(4) == 0 ? 0 - roll(3) : some_number(), (int)s.width);
        break;
    case 2:
        put_over(m, HEAD + s.offsets + 4 * entry, roll(2) == 0 ? data_at(f, s, other) : some_place(f), 4);
        break;
    default:
        put_over(m, HEAD + s.files + 4 * roll(1 + 2 * read_at(f, s.files, 4)),
                 roll(2) == 0 ? some_name(f) : some_number(), 4);
    }
}

/* size, name, or a number of an item of the entry's data */
static void change_data(maker *m, bytes f, shape s, size_t entry)
{
    static const uint8_t lebs[] = {0, 1, 2, 3, 4, 0x3f, 0x40, 0x7f, 0x80, 0x81, 0xff, 0xfe};
    size_t at = data_at(f, s, entry);
    uint64_t steps = roll(4);
    if (steps == 0) {
        put_over(m, HEAD + at + 4 * roll(2), roll(2) == 0 ? some_name(f) : some_number(), 4);
        return;
    }
    item i = item_at(f, at + 8);
    for (steps = roll(3); steps > 0 && item_at(f, i.next).fits; steps--)
        i = item_at(f, i.next);
    if (!i.fits)
        return;
    uint64_t len = i.next - i.start;
    switch (roll(5)) {
    case 0: put_over(m, HEAD + i.start - 8, roll(8), 4); break;
    case 1: put_over(m, HEAD + i.start - 4, roll(3) == 0 ? some_number() : len + roll(9) - 4, 4); break;
    case 2: put_over(m, HEAD + i.start + roll(len), some_name(f), 4); break;
    default:
        for (uint64_t n = 1 + roll(3), p = roll(len); n > 0; n--, p++)
            put_over(m, HEAD + i.start + p, lebs[roll(sizeof lebs)], 1);
    }
}

/* a sequence of UTF-8 in the chosen entry's name */
static void change_name(maker *m, bytes f, shape s, size_t entry)
{
    uint8_t letter[4] = {0};
    uint64_t table = read_at(f, 20, 4), name = read_at(f, data_at(f, s, entry) + 4, 4);
    size_t len = some_letter(letter);
    for (size_t i = 0; i < len; i++)
        put_over(m, HEAD + table + name + roll(3) / 2 + i, letter[i], 1);
}

static void change_head(uint8_t *data)
{
    static const uint8_t rooms[] = {0, 1, 2, 3, 63, 64, 65, 80};
    switch (roll(5)) {
    case 0: data[0] = (uint8_t)roll(8), data[2] = (uint8_t)roll(256); break;
    case 1: data[1] = (uint8_t)(3 | roll(16)), data[4] = (uint8_t)roll(256); break;
    case 2: data[6] = rooms[roll(sizeof rooms)]; break;
    case 3: data[13] = (uint8_t)roll(8), data[14] = (uint8_t)roll(7), data[15] = (uint8_t)roll(4); break;
    default: data[7] ^= 1, data[5] = (uint8_t)roll(2);
    }
}

size_t LLVMFuzzerCustomMutator(uint8_t *data, size_t size, size_t most, unsigned seed);

size_t LLVMFuzzerCustomMutator(uint8_t *data, size_t size, size_t most, unsigned seed)
{
    dice = seed * 0x9e3779b97f4a7c15ull + 1;
    roll(2), roll(2);
    if (size < HEAD + HEADER || most < size || roll(2) == 0)
        return LLVMFuzzerMutate(data, size, most);
    bytes f = {data + HEAD, size - HEAD};
    shape s = shape_of(f);
    size_t entry = s.entries == 0 ? 0 : roll(4) == 0 ? roll(s.entries) : number_at(data + 2, 2) % s.entries;
    maker m = {data, size, most};
    uint64_t kind = roll(20);
    if (roll(64) == 0)
        m.len = HEAD + (roll(2) == 0 ? roll(f.len) : roll(HEADER));
    else if (kind == 19)
        new_file(&m);
    else if (kind < 2 || s.entries == 0)
        change_header(&m, f);
    else if (kind < 4)
        change_head(data);
    else if (kind < 7)
        change_tables(&m, f, s, entry);
    else if (kind < 12)
        change_data(&m, f, s, entry);
    else if (kind < 14)
        change_name(&m, f, s, entry);
    else
        graft(&m, f, s, entry);
    return m.len;
}

#endif
