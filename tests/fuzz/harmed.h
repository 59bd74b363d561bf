/*
 * harmed.h - the library with a fault added behind it, chosen by the environment's HARM, to show that the checks report
 * it. Included before target.c by harms.sh alone.
 */
#ifndef HARMED_H
#define HARMED_H

#include <stdio.h>
#include <stdlib.h>
#include <string.h>

#include "gsym.h"
#include "gsym_write.h"

static int harm(void)
{
    const char *word = getenv("HARM");
    return word == 0 ? 0 : atoi(word);
}

/* Entry k of a file's address table, and where its data offset stands; the tables are there. */
static uint64_t harmed_number(const uint8_t *at, uint64_t bytes)
{
    uint64_t n = 0;
    while (bytes-- > 0)
        n = n << 8 | at[bytes];
    return n;
}

static uint64_t entry_of(const uint8_t *file, uint64_t k)
{
    return harmed_number(file + 48 + k * file[6], file[6]);
}

static uint64_t offset_of(const uint8_t *file, uint64_t k)
{
    return ((48 + harmed_number(file + 16, 4) * file[6] + 3) & ~(uint64_t)3) + 4 * k;
}

/* A copy of a file in which the first of equal entries in a row names the data of the last, or (`which` is 1) of the
 * first that covers the address: a lookup in it answers with the wrong one of them. */
static const uint8_t *other_of_a_run(const uint8_t *file, size_t len, uint64_t addr, int which)
{
    static uint8_t copy[1 << 20];
    if (len < 52 || len > sizeof copy || (file[6] != 1 && file[6] != 2 && file[6] != 4 && file[6] != 8))
        return file;
    uint64_t entries = harmed_number(file + 16, 4), base = harmed_number(file + 8, 8), first = 0;
    if (offset_of(file, entries) > len)
        return file;
    memcpy(copy, file, len);
    for (uint64_t k = 1; k < entries; k++) {
        uint64_t place = harmed_number(copy + offset_of(copy, first), 4), size = 0;
        if (entry_of(file, k) != entry_of(file, first)) {
            first = k;
            continue;
        }
        if (place <= len && len - place >= 8)
            size = harmed_number(file + place, 4);
        if (which == 0 || (size != 0 && addr - base - entry_of(file, first) >= size))
            memcpy(copy + offset_of(copy, first), file + offset_of(file, k), 4);
    }
    return copy;
}

static gsym_answer harmed_lookup(const uint8_t *file, size_t len, uint64_t addr, uint32_t options, gsym_frame *frames,
                                 size_t room)
{
    static unsigned calls;
    static volatile uint8_t seen;
    int of_a_run = harm() == 34 || harm() == 35;
    const uint8_t *asked_of = of_a_run ? other_of_a_run(file, len, addr, harm() - 34) : file;
    gsym_answer a = gsym_lookup(asked_of, len, addr, options, frames, room);
    calls++;
    switch (harm()) {
    case 1: seen = file[len]; break;
    case 2: seen = file[-1]; break;
    case 3: *(volatile uint8_t *)(uintptr_t)file = 0; break;
    case 4: frames[room].line = 0; break;
    case 5: frames[-1].line = 0; break;
    case 6: if (a.count < room) frames[a.count].line++; break;
    case 7: if (a.number == 0 && a.count > 0) frames[a.count - 1].name.len++; break;
    case 8: if (a.number != 0) a.number = 16; break;
    case 9: if (a.number != 0) a.addr = addr; break;
    case 10: if (a.number == 0) a.name.len++; break;
    case 11: if (a.number == 0) a.name.place = len; break;
    case 12: if (a.number == 0) a.addr = addr + 1; break;
    case 13: if (a.number == 0 && a.has_code) a.count = room; break;
    case 14: if (a.number == 0) a.size += calls % 2; break;
    case 15: if (a.number == 0 && (options & 3) == 1) memset(&a, 0, sizeof a), a.number = 7; break;
    case 16: if (a.number == 0 && (options & 3) == 0) a.size = 0; break;
    case 17: if (a.number == 0 && options > 3) a.line++; break;
    case 36: if (a.number == 0 && a.addr != addr) memset(&a, 0, sizeof a), a.number = 1; break;
    case 37: if (a.number == 0 && a.addr > 0 && (a.size == 0 || addr - a.addr + 1 < a.size)) a.addr--; break;
    case 38: if (a.number == 0 && a.size != 0 && a.size < UINT32_MAX) a.size++; break;
    case 39: if (a.number == 0 && a.count == 0) memset(&a, 0, sizeof a), a.number = 6; break;
    case 41: if (a.number == 15 && (options & 3) == 3) a.number = 10; break;
    case 42: if (a.number == 15 && (options & 3) == 1) a.number = 9; break;
    default: break;
    }
    (void)seen;
    return a;
}

static gsym_listed harmed_frames(const uint8_t *block, size_t len, uint64_t symbol, uint64_t addr,
                                 gsym_inline_frame *frames, size_t room)
{
    static unsigned calls;
    static volatile uint8_t seen;
    gsym_listed a = gsym_block_frames(block, len, symbol, addr, frames, room);
    calls++;
    switch (harm()) {
    case 18: seen = block[len]; break;
    case 19: frames[room].name = 0; break;
    case 20: if (a.count < room) frames[a.count].name++; break;
    case 21: if (a.number != 0) a.number = 9; break;
    case 22: if (a.number != 0) a.count = 1; break;
    case 23: if (a.count > 0) frames[0].name = 0; break;
    case 24: if (a.count > 0) frames[0].call_line += calls % 2; break;
    case 25: if (a.count > 0 && a.count < room) a.count = 0, a.number = 14; break;
    case 43: if (a.number == 15) a.number = 10; break;
    case 44: if (a.number == 10) a.number = 15; break;
    default: break;
    }
    (void)seen;
    return a;
}

static gsym_finding harmed_check(const uint8_t *file, size_t len)
{
    static unsigned calls;
    static volatile uint8_t seen;
    gsym_finding f = gsym_check(file, len);
    calls++;
    switch (harm()) {
    case 26: seen = file[len]; break;
    case 27: *(volatile uint8_t *)(uintptr_t)file = 0; break;
    case 28: if (f.number == 0) f.number = GSYM_OPEN_LIST; break;
    case 29: f.number = f.entry = 0; break;
    case 30: if (f.number >= 5) f.entry++; break;
    case 31: if (f.number != 0) f.number += calls % 2; break;
    case 32: if (f.number == 0) f.entry = 1; break;
    case 33: if (f.number == GSYM_TOO_DEEP) f.number = GSYM_TOO_MANY_FRAMES; break;
    case 40:
        for (uint64_t k = 1; f.number == 0 && k < harmed_number(file + 16, 4); k++)
            if (entry_of(file, k) == entry_of(file, k - 1))
                f.number = GSYM_FALLING_TABLE, f.entry = (uint32_t)k;
        break;
    case 45: if (f.number == 15) f.number = 10; break;
    default: break;
    }
    (void)seen;
    return f;
}

/* as report.h has it */
size_t gsym_report(const uint8_t *file, size_t len, const uint64_t *addresses, size_t count, uint8_t *room,
                   size_t room_len);

enum { MOST_WRONG = 1 << 20 };

/* a report, and a line behind it, with a fault of 51 to 53, 55 or 56; how long it is then */
static size_t wrong_line(uint8_t *report, size_t len, size_t number, const char *text, size_t text_len)
{
    if (text_len > MOST_WRONG - 32 - len)
        return len;
    number = harm() == 55 ? number + 1 : harm() == 56 ? number % 10 : number;
    len += (size_t)sprintf((char *)report + len, "%zu ", number);
    for (size_t i = 0; i < text_len; i++) {
        uint8_t byte = (uint8_t)text[i];
        int is_kept = (byte >= 32 && byte != 127) || (harm() == 51 && byte == 127) || (harm() == 52 && byte == 10);
        report[len++] = is_kept && (harm() != 53 || byte < 128 || byte > 159) ? byte : '?';
    }
    report[len++] = 10;
    return len;
}

/* a report that is composed of lookups, with a fault of 46 to 58 */
static size_t wrong_report(const uint8_t *file, size_t len, const uint64_t *addresses, size_t count, uint8_t *report)
{
    static gsym_frame frames[GSYM_MAX_FRAMES];
    size_t n = 0;
    for (size_t i = 0; i < count; i++) {
        uint64_t less = harm() == 46 ? 1 : harm() == 47 ? 0 : i > 0;
        gsym_answer a = gsym_lookup(file, len, addresses[i] - less, 3, frames, GSYM_MAX_FRAMES);
        if (i > 0 && addresses[i] == 0 && harm() != 48)
            memset(&a, 0, sizeof a), a.number = 1;
        for (size_t k = 0; a.number == 0 && k <= a.count; k++) {
            size_t last = (size_t)a.count - 1, frame = harm() == 49 ? k : harm() == 50 ? last + 1 - k : last - k;
            int is_symbol = k == (harm() == 50 ? 0 : a.count);
            gsym_part name = gsym_text_at(file, len, is_symbol ? a.name : frames[frame].name);
            n = wrong_line(report, n, i, name.at, name.len);
        }
        char words[16];
        size_t digits = (size_t)sprintf(words, "?%u", harm() == 57 ? 1 : a.number);
        if (a.number != 0 && harm() != 58)
            n = wrong_line(report, n, i, words, digits);
    }
    return harm() == 54 && n > 0 ? n - 1 : n;
}

static size_t harmed_report(const uint8_t *file, size_t len, const uint64_t *addresses, size_t count, uint8_t *room,
                            size_t room_len)
{
    static uint8_t wrong[MOST_WRONG];
    static volatile uint8_t seen;
    int is_wrong = harm() >= 46 && harm() <= 58;
    size_t n = is_wrong ? wrong_report(file, len, addresses, count, wrong)
                        : gsym_report(file, len, addresses, count, room, room_len);
    if (is_wrong) {
        memcpy(room, wrong, n < room_len ? n : room_len);
        return n <= room_len ? n : SIZE_MAX;
    }
    switch (harm()) {
    case 59: seen = file[len]; break;
    case 60: *(volatile uint8_t *)(uintptr_t)file = 0; break;
    case 61: seen = (uint8_t)addresses[count]; break;
    case 62: if (count > 0) ++*(volatile uint64_t *)(uintptr_t)addresses; break;
    case 63: room[room_len] = 0; break;
    case 64: room[-1] = 0; break;
    case 65: if (n < room_len) room[n]++; break;
    case 66: if (n == SIZE_MAX && room_len > 0) room[room_len - 1]++; break;
    case 67: if (n == SIZE_MAX) memset(room, 0, room_len); break;
    case 68: if (n == SIZE_MAX) n = room_len + 1; break;
    case 69: if (n == room_len) n = SIZE_MAX; break;
    case 70: if (n < room_len) n++; break;
    case 71: if (n <= room_len && n > 0) room[n - 1] = 32; break;
    default: break;
    }
    (void)seen;
    return n;
}

static gsym_written harmed_write(const gsym_entry *entries, size_t entry_count, const gsym_item *items,
                                 size_t item_count, const uint8_t *bytes, size_t bytes_len, const gsym_file *files,
                                 size_t file_count, const uint8_t *strings, size_t strings_len, uint8_t *out,
                                 size_t out_len)
{
    static unsigned calls;
    static volatile uint8_t seen;
    static gsym_entry other_entries[1 << 10];
    static gsym_item other_items[1 << 10];
    memcpy(other_entries, entries, entry_count * sizeof *entries);
    memcpy(other_items, items, item_count * sizeof *items);
    switch (harm()) {
    case 72: if (entry_count > 1) other_entries[entry_count - 1].addr++; break;
    case 73: if (entry_count > 1) other_entries[1].name = other_entries[0].name; break;
    case 74: if (entry_count > 0) other_entries[entry_count - 1].size ^= 1; break;
    case 75: if (item_count > 1) other_items[item_count - 1].kind ^= 3; break;
    case 76: for (size_t i = 0; i < item_count; i++) if (other_items[i].kind == 0) other_items[i].kind = 9; break;
    case 77:
        if (entry_count > 1 && other_entries[0].items > 0 && other_entries[0].items < 9)
            other_entries[0].items--, other_entries[1].items++;
        break;
    case 78: if (file_count > 0) file_count--; break;
    case 79: if (entry_count > 1 && other_entries[1].addr <= other_entries[0].addr) entry_count = 1; break;
    default: break;
    }
    gsym_written w = gsym_write(other_entries, entry_count, other_items, item_count, bytes, bytes_len, files,
                                file_count, strings, strings_len, out, out_len);
    calls++;
    switch (harm()) {
    case 80: seen = bytes[bytes_len]; break;
    case 81: seen = strings[strings_len]; break;
    case 82: seen = (uint8_t)entries[-1].addr; break;
    case 83: if (item_count > 0) *(volatile uint32_t *)(uintptr_t)&items[0].kind = 1; break;
    case 84: if (file_count > 0) *(volatile uint32_t *)(uintptr_t)&files[0].filename = 0; break;
    case 85: out[out_len] = 0; break;
    case 86: out[-1] = 0; break;
    case 87: if (w.number == 0 && w.len < out_len) out[w.len]++; break;
    case 88: if (w.number != 0 && out_len > 0) out[0]++; break;
    case 89: if (w.number == GSYM_WRITE_TOO_LITTLE_ROOM && out_len > 0) out[out_len - 1] = 0; break;
    case 90: if (w.number == 0) out[w.len - 1] = 1; break;
    case 91: if (w.number == 0) out[6] = 8; break;
    case 92: if (w.number == 0) w.len--; break;
    case 93: if (w.number == GSYM_WRITE_TOO_LITTLE_ROOM) w.len++; break;
    case 94: if (w.number == GSYM_WRITE_TOO_LITTLE_ROOM) w.len = 0; break;
    case 95: if (w.number == GSYM_WRITE_NOT_RISING) w.index--; break;
    case 96: if (w.number == GSYM_WRITE_SUM_TOO_LARGE) w.number = GSYM_WRITE_UNREAD_STRING; break;
    case 97: if (w.number == GSYM_WRITE_UNREAD_STRING && w.of_file) w.of_file = 0; break;
    case 98: if (w.number == GSYM_WRITE_UNREAD_STRING) w.index += calls % 2; break;
    case 99: if (w.number == GSYM_WRITE_UNEVEN_ROWS) w.number = GSYM_WRITE_NO_MEMORY; break;
    case 100: if (w.number == GSYM_WRITE_UNEVEN_ROWS) w.index = 1; break;
    default: break;
    }
    (void)seen;
    return w;
}

#undef gsym_lookup
#undef gsym_block_frames
#undef gsym_check
#define gsym_lookup harmed_lookup
#define gsym_block_frames harmed_frames
#define gsym_check harmed_check
#define gsym_report harmed_report
#undef gsym_write
#define gsym_write harmed_write

#endif
