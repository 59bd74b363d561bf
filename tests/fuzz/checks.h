/*
 * checks.h - the calls of include/gsym.h, each between pages without access (rooms.h) and with its answer judged.
 *
 * What can be judged of an answer without a second reader is judged here; an answer that fails is named in words, and
 * the program aborts. Used by target.c (random bytes) and torn.c (cut files).
 */
#ifndef CHECKS_H
#define CHECKS_H

#include "rooms.h"

/* ---- texts */

/* RFC 3629: the shortest form, no surrogates, nothing above 10ffff */
static int is_utf8(const uint8_t *at, size_t len)
{
    size_t i = 0;
    while (i < len) {
        uint32_t first = at[i++], more, least, code;
        if (first < 0x80)
            continue;
        if (first >= 0xc0 && first < 0xe0)
            more = 1, least = 0x80, code = first & 0x1f;
        else if (first >= 0xe0 && first < 0xf0)
            more = 2, least = 0x800, code = first & 0x0f;
        else if (first >= 0xf0 && first < 0xf8)
            more = 3, least = 0x10000, code = first & 0x07;
        else
            return 0;
        for (; more > 0; more--, i++) {
            if (i >= len || (at[i] & 0xc0) != 0x80)
                return 0;
            code = code << 6 | (at[i] & 0x3f);
        }
        if (code < least || code > 0x10ffff || (code >= 0xd800 && code < 0xe000))
            return 0;
    }
    return 1;
}

/* a string of the string table, ended by the zero byte behind it */
static void check_text(bytes file, gsym_text t, int is_name)
{
    gsym_part part = gsym_text_at(file.at, file.len, t);
    const char *at = part.at;
    HOLDS(part.len == t.len && at == (const char *)file.at + t.place, "a text lies within the file");
    HOLDS(file.len >= 28, "a file with a text has a header");
    uint64_t table = number_at(file.at + 20, 4), size = number_at(file.at + 24, 4);
    HOLDS(t.place >= table && t.place - table < size && t.len < size - (t.place - table),
          "a text and the zero byte behind it lie within the string table");
    HOLDS(memchr(at, 0, t.len) == 0, "no zero byte is in a text");
    HOLDS(at[t.len] == 0, "a zero byte is behind a text");
    HOLDS(!is_name || is_utf8((const uint8_t *)at, t.len), "a name is UTF-8");
}

/* ---- numbers of any length, line headers and trees, as far as they read (RULES, "LEB128") */

/* a number at a place: 0 where it reads, and the place is then behind it; 10 where the bytes end before it; 15 where it
 * is too wide: its tenth byte asks for another, or says more than 64 bits hold */
static uint32_t pass_number(bytes b, size_t *at, int is_signed, uint64_t *value)
{
    uint64_t bits = 0;
    for (int i = 0; i < 10; i++) {
        if (*at >= b.len)
            return 10;
        uint8_t byte = b.at[(*at)++];
        bits |= (uint64_t)(byte & 127) << (7 * i);
        if (byte < 128) {
            *value = bits;
            return i < 9 || (is_signed ? byte == 0 || byte == 127 : byte < 2) ? 0 : 15;
        }
    }
    return 15;
}

/* what refuses the header of a line table: 0, 9 or 15 */
static uint32_t header_unread(bytes b)
{
    size_t at = 0;
    uint64_t value = 0;
    for (int i = 0; i < 3; i++) {
        uint32_t told = pass_number(b, &at, i < 2, &value);
        if (told != 0)
            return told == 10 ? 9 : told;
    }
    return 0;
}

/* what refuses a tree whose nodes are read and not judged: 0, 10 or 15 */
static uint32_t tree_unread(bytes b)
{
    size_t at = 0;
    uint64_t lists = 0, ranges = 0, value = 0;
    uint32_t told = 0;
    do {
        if ((told = pass_number(b, &at, 0, &ranges)) != 0)
            return told;
        if (ranges == 0) {
            lists -= lists > 0;
            continue;
        }
        for (uint64_t i = 0; i < ranges; i++)
            if ((told = pass_number(b, &at, 0, &value)) != 0 || (told = pass_number(b, &at, 0, &value)) != 0)
                return told;
        if (b.len - at < 5)
            return 10;
        lists += b.at[at] != 0;
        at += 5;
        if ((told = pass_number(b, &at, 0, &value)) != 0 || (told = pass_number(b, &at, 0, &value)) != 0)
            return told;
    } while (lists > 0);
    return 0;
}

/* an item of a list: its type, 0 where the list ends, and its bytes; the place is then behind it */
static uint64_t next_item(bytes file, uint64_t *place, bytes *item)
{
    uint64_t left = *place <= file.len ? file.len - *place : 0;
    if (left < 8 || number_at(file.at + *place + 4, 4) > left - 8)
        return 0;
    uint64_t kind = number_at(file.at + *place, 4);
    *item = (bytes){file.at + *place + 8, (size_t)number_at(file.at + *place + 4, 4)};
    *place += 8 + item->len;
    return kind;
}

/* of the list at that place the first line header or tree that doesn't read: 9, 10 or 15, and 0 where all do */
static uint32_t first_unread(bytes file, uint64_t place)
{
    bytes item = {0, 0};
    uint32_t told = 0;
    for (uint64_t kind = 1; told == 0 && kind != 0;) {
        kind = next_item(file, &place, &item);
        told = kind == 1 ? header_unread(item) : kind == 2 ? tree_unread(item) : 0;
    }
    return told;
}

static int is_none(gsym_text t) { return t.place == 0 && t.len == 0; }

static int same_text(gsym_text a, gsym_text b) { return a.place == b.place && a.len == b.len; }

/* ---- gsym_lookup */

/* whether the file that is asked passed its check: set by check_whole, and put back to 0 for a file without one */
static int passed;

/* an answer and its records */
typedef struct looked {
    gsym_answer a;
    gsym_frame frames[MOST_FRAMES];
} looked;

/* field by field: nothing is said of the four bytes behind a line */
static int same_frames(const gsym_frame *x, const gsym_frame *y, size_t count)
{
    for (size_t i = 0; i < count; i++)
        if (!same_text(x[i].name, y[i].name) || !same_text(x[i].dir, y[i].dir) || !same_text(x[i].file, y[i].file) ||
            x[i].line != y[i].line)
            return 0;
    return 1;
}

static int same_looked(const looked *x, const looked *y)
{
    gsym_answer a = x->a, b = y->a;
    return a.number == b.number && a.has_code == b.has_code && a.addr == b.addr && a.size == b.size &&
           a.line == b.line && same_text(a.name, b.name) && same_text(a.dir, b.dir) && same_text(a.file, b.file) &&
           a.count == b.count && same_frames(x->frames, y->frames, (size_t)a.count);
}

static void check_refusal(bytes file, gsym_answer a, uint32_t options)
{
    HOLDS(a.number <= 15, "a refusal's number is 1 to 15");
    HOLDS((options & GSYM_CODE_INFO) || a.number <= 6, "without code info a refusal is 1 to 6");
    HOLDS((options & GSYM_INLINING) || a.number <= 9 || a.number == 15, "without inlining a refusal is 1 to 9, or 15");
    HOLDS(a.has_code == 0 && a.addr == 0 && a.size == 0 && a.line == 0 && is_none(a.name) && is_none(a.dir) &&
              is_none(a.file) && a.count == 0,
          "all else in a refusal is 0");
    int magic = file.len >= 4 && number_at(file.at, 4) == 0x4753594d;
    HOLDS((a.number == 3) == (file.len >= 4 && !magic), "3 is given for another magic and nothing else");
    HOLDS((a.number == 4) == (magic && file.len >= 6 && number_at(file.at + 4, 2) != 1),
          "4 is given for another version and nothing else");
    int code = options & GSYM_CODE_INFO, inlining = options & GSYM_INLINING;
    HOLDS(!passed || a.number == 1 || (code && (a.number == 7 || a.number == 8)) ||
              (code && inlining && (a.number == 6 || a.number == 14)),
          "a file that passed refuses with 1 alone, with code info with 7 and 8 too, with inlining with 6 and 14 too");
}

static void check_found(bytes file, uint64_t addr, uint32_t options, size_t room, const looked *l)
{
    gsym_answer a = l->a;
    int both = (options & ALL_OPTIONS) == ALL_OPTIONS;
    HOLDS(a.addr <= addr, "a symbol starts at or below the address");
    HOLDS(a.size == 0 || addr - a.addr < a.size, "a symbol covers the address");
    check_text(file, a.name, 1);
    HOLDS(a.has_code <= 1, "has_code is 0 or 1");
    HOLDS(a.has_code == 0 || (options & GSYM_CODE_INFO), "a position only where it is asked for");
    if (a.has_code) {
        check_text(file, a.dir, 0);
        check_text(file, a.file, 0);
    } else {
        HOLDS(is_none(a.dir) && is_none(a.file) && a.line == 0, "directory, file and line are 0 where there is none");
    }
    HOLDS(a.count == 0 || (both && a.has_code), "records only where both are asked for and there is a position");
    HOLDS(a.count == 0 || (a.count < room && a.count < GSYM_MAX_FRAMES), "fewer records than room");
    for (size_t i = 0; i < a.count; i++) {
        check_text(file, l->frames[i].name, 1);
        check_text(file, l->frames[i].dir, 0);
        check_text(file, l->frames[i].file, 0);
    }
}

static int is_width(uint64_t width) { return width == 1 || width == 2 || width == 4 || width == 8; }

/* whether the name at that offset reads: a string of the string table, which lies in the file, that is UTF-8 */
static int is_name_at(bytes file, uint64_t offset)
{
    uint64_t table = number_at(file.at + 20, 4), size = number_at(file.at + 24, 4);
    if (offset >= size)
        return 0;
    const uint8_t *at = file.at + table + offset, *end = memchr(at, 0, (size_t)(size - offset));
    return end != 0 && is_utf8(at, (size_t)(end - at));
}

/* whether an entry whose information is at that place may have the answer: 5 or 1 as the information says, 6 where its
 * name doesn't read, else the entry's address, size and name */
static int is_of_entry(bytes file, uint64_t symbol, uint64_t place, uint64_t addr, gsym_answer a)
{
    if (place > file.len || file.len - place < 8)
        return a.number == 5;
    uint64_t size = number_at(file.at + place, 4), name = number_at(file.at + place + 4, 4);
    if (size != 0 && addr - symbol >= size)
        return a.number == 1;
    if (!is_name_at(file, name))
        return a.number == 6;
    return a.number == 0 && a.addr == symbol && a.size == size && a.name.place == number_at(file.at + 20, 4) + name;
}

/* A lookup without code info in a file that opens: the answer is that of an entry that is allowed (RULES, "Finding the
 * entry"). The table is passed once, from run to run of equal entries: a run's first is allowed where it is not above
 * what is wanted and the next run is. In a table that never falls that is one entry alone. */
static void check_entry(bytes file, uint64_t addr, gsym_answer a)
{
    HOLDS(file.len >= 48, "a file that opens has a header");
    uint64_t width = file.at[6], base = number_at(file.at + 8, 8), entries = number_at(file.at + 16, 4);
    uint64_t tables = ((48 + entries * width + 3) & ~(uint64_t)3) + 4 * entries;
    HOLDS(tables <= file.len && number_at(file.at + 20, 4) + number_at(file.at + 24, 4) <= file.len,
          "a file that opens has its tables");
    const uint8_t *table = file.at + 48, *offsets = file.at + tables - 4 * entries;
    if (!is_width(width) || entries == 0 || addr < base || number_at(table, (int)width) > addr - base) {
        HOLDS(a.number == 1, "1 for another offset size, without entries, below the base and below the first entry");
        return;
    }
    uint64_t first = 0, entry = number_at(table, (int)width);
    int is_told = 0;
    for (uint64_t i = 1; i <= entries && !is_told; i++) {
        uint64_t next = i < entries ? number_at(table + i * width, (int)width) : 0;
        if (i < entries && next == entry)
            continue;
        if (entry <= addr - base && (i == entries || next > addr - base))
            is_told = is_of_entry(file, base + entry, number_at(offsets + 4 * first, 4), addr, a);
        first = i, entry = next;
    }
    HOLDS(is_told, "the answer is that of an entry that is allowed, of equal ones in a row the first");
}

/* one lookup, judged by itself */
static looked look(bytes file, uint64_t addr, uint32_t options, size_t room, int at_end)
{
    looked l;
    gsym_frame *list = (gsym_frame *)lend_list(room * sizeof(gsym_frame), at_end);
    asked.call = "gsym_lookup", asked.symbol = 0, asked.addr = addr, asked.options = options;
    asked.len = file.len, asked.room = room, asked.at_end = at_end;
    l.a = gsym_lookup(file.at, file.len, addr, options, list, room);
    HOLDS(l.a.count <= room, "no more records than room");
    HOLDS(l.a.number == 0 || l.a.count == 0, "a refusal has no record");
    memcpy(l.frames, list, (size_t)l.a.count * sizeof(gsym_frame));
    HOLDS(rest_kept(list, (size_t)l.a.count * sizeof(gsym_frame)),
          "the list is unchanged past the count, and all of it on a refusal and without both options");
    if (l.a.number != 0)
        check_refusal(file, l.a, options);
    else
        check_found(file, addr, options, room, &l);
    if (!(options & GSYM_CODE_INFO) && (l.a.number < 2 || l.a.number > 4))
        check_entry(file, addr, l.a);
    return l;
}

/* whether the list at that place has an item that is refused with this number: a line header as it reads here, a tree
 * as the call for single blocks has it */
static int is_of_item(bytes file, uint64_t place, uint64_t symbol, uint64_t addr, int inlining, uint32_t number)
{
    static gsym_inline_frame frames[GSYM_MAX_FRAMES];
    bytes item = {0, 0};
    for (;;) {
        uint64_t kind = next_item(file, &place, &item);
        if (kind == 0)
            return 0;
        if (kind == 1 && header_unread(item) == number)
            return 1;
        if (kind == 2 && inlining &&
            gsym_block_frames(item.at, item.len, symbol, addr, frames, GSYM_MAX_FRAMES).number == number)
            return 1;
    }
}

/* A lookup that is refused for an item, with 9 to 13 or 15, where one that asks for nothing more has this answer: an
 * entry of the symbol has such an item. Equal entries in a row are one, and of more than eight with this address, in a
 * table that falls, nothing is said. */
static void check_item(bytes file, uint64_t addr, int inlining, uint32_t number, gsym_answer plain)
{
    if (number < 9 || number == 14)
        return;
    HOLDS(plain.number == 0, "9 to 15 are given for a symbol that is known");
    uint64_t width = file.at[6], base = number_at(file.at + 8, 8), entries = number_at(file.at + 16, 4), met = 0;
    const uint8_t *table = file.at + 48, *offsets = file.at + ((48 + entries * width + 3) & ~(uint64_t)3);
    for (uint64_t i = 0; i < entries && met <= 8; i++) {
        uint64_t entry = number_at(table + i * width, (int)width), place = number_at(offsets + 4 * i, 4);
        if (base + entry != plain.addr || (i > 0 && number_at(table + (i - 1) * width, (int)width) == entry))
            continue;
        met++;
        if (is_of_item(file, place + 8, plain.addr, addr, inlining, number))
            return;
    }
    HOLDS(met > 8, "9 to 13 and 15 are given for an item of the symbol that is refused so");
}

/* what is asked for less succeeds where more did, with the same symbol (RULES, "Address data list") */
static void check_less(bytes file, uint64_t addr, const looked *all, int at_end)
{
    looked plain = look(file, addr, 0, 0, at_end);
    looked code = look(file, addr, GSYM_CODE_INFO, 0, at_end);
    looked odd = look(file, addr, GSYM_INLINING, 3, at_end);
    HOLDS(same_looked(&plain, &odd), "inlining alone is as nothing asked for");
    HOLDS(plain.a.number == 0 || (code.a.number == plain.a.number && all->a.number == plain.a.number),
          "what is refused where nothing more is asked for is so whatever is");
    HOLDS(all->a.number != 9 || code.a.number == 9, "9 with inlining is 9 without it");
    HOLDS((code.a.number != 9 && code.a.number != 15) || all->a.number == code.a.number || all->a.number >= 10,
          "a line header that refuses does so with inlining too, but for a tree before it");
    check_item(file, addr, 0, code.a.number, plain.a);
    check_item(file, addr, 1, all->a.number, plain.a);
    if (code.a.number == 0) {
        HOLDS(plain.a.number == 0, "a lookup succeeds without code info where one with it does");
        HOLDS(plain.a.addr == code.a.addr && plain.a.size == code.a.size,
              "address and size are equal without code info");
        HOLDS(same_text(plain.a.name, code.a.name), "code info alone doesn't change the name");
    }
    if (all->a.number != 0)
        return;
    HOLDS(code.a.number == 0, "a lookup succeeds without inlining where one with it does");
    HOLDS(code.a.addr == all->a.addr && code.a.size == all->a.size, "address and size are equal without inlining");
    HOLDS(code.a.has_code == all->a.has_code, "there is a position without inlining where there is one with it");
    if (all->a.count == 0) {
        HOLDS(same_text(code.a.dir, all->a.dir) && same_text(code.a.file, all->a.file) && code.a.line == all->a.line,
              "without records the position is that without inlining");
    } else {
        gsym_frame last = all->frames[all->a.count - 1];
        HOLDS(same_text(code.a.dir, last.dir) && same_text(code.a.file, last.file) && code.a.line == last.line,
              "the last record's position is the symbol's without inlining");
    }
}

/* all that is asked of one address: the answer with `options` and `room` is handed back, and the calls are counted */
static looked look_all_ways(bytes file, uint64_t addr, uint32_t options, size_t room, int at_end, uint64_t *calls)
{
    looked l = look(file, addr, options, room, at_end);
    looked again = look(file, addr, options, room, at_end);
    HOLDS(same_looked(&l, &again), "the same call gives the same answer");
    looked other = look(file, addr, options ^ 0xfffffffc, room, !at_end);
    HOLDS(same_looked(&l, &other), "other bits of the options, and where the list lies, change nothing");
    looked more = look(file, addr, options, MOST_FRAMES, at_end);
    HOLDS(l.a.number == 14 || same_looked(&l, &more), "more room changes no answer but 14");
    HOLDS(more.a.number != 14 || l.a.number == 14, "what has too little room has it with less room too");
    HOLDS(l.a.number != 14 || more.a.number != 0 || more.a.has_code == 0 || more.a.count >= room,
          "14 only where the frames are more than room");
    looked all = look(file, addr, ALL_OPTIONS, MOST_FRAMES, at_end);
    check_less(file, addr, &all, at_end);
    *calls += 8;
    return l;
}

/* ---- gsym_check */

/* whether the list at that place ends in type 0, whose length is not judged */
static int is_closed(bytes file, uint64_t place)
{
    for (;;) {
        uint64_t left = place <= file.len ? file.len - place : 0;
        if (left >= 4 && number_at(file.at + place, 4) == 0)
            return 1;
        if (left < 8 || number_at(file.at + place + 4, 4) > left - 8)
            return 0;
        place += 8 + number_at(file.at + place + 4, 4);
    }
}

/* What is told of a file that opens, by its header, its tables, its entries' first eight bytes and the ends of their
 * lists: each entry below the told one, and each of a file that passes, is well in all that, and 21, 5, 22 and 24 are
 * told where it is so; and of line headers and trees, as far as they read, 9, 10 and 15. */
static void check_told(bytes file, gsym_finding f)
{
    uint64_t width = file.at[6], base = number_at(file.at + 8, 8), entries = number_at(file.at + 16, 4), before = 0;
    HOLDS((f.number == 20) == !is_width(width), "20 is given for another offset size and nothing else");
    if (!is_width(width))
        return;
    HOLDS(f.number == 0 || f.entry < entries, "the entry that is told is there");
    const uint8_t *table = file.at + 48, *offsets = file.at + ((48 + entries * width + 3) & ~(uint64_t)3);
    for (uint64_t i = 0; i < entries && (f.number == 0 || i <= f.entry); i++) {
        uint64_t entry = number_at(table + i * width, (int)width), place = number_at(offsets + 4 * i, 4);
        int reads = place <= file.len && file.len - place >= 8;
        uint64_t size = reads ? number_at(file.at + place, 4) : 0;
        int fits = entry <= UINT64_MAX - base && size <= UINT64_MAX - base - entry;
        uint32_t first = i > 0 && entry < before ? 21 : !reads ? 5 : !fits ? 22 : 0;
        before = entry;
        if (f.number == 0 || i < f.entry) {
            HOLDS(first == 0, "an entry below the told one doesn't fall, its information reads and its sum is small");
            HOLDS(is_closed(file, place + 8), "the list of an entry below the told one ends in type 0");
            HOLDS(first_unread(file, place + 8) == 0, "the headers and trees of an entry below the told one read");
        } else {
            HOLDS(first == 0 ? f.number != 21 && f.number != 5 && f.number != 22 : f.number == first,
                  "21, 5 and 22 are given where it is so, in this order, and nothing before them");
            HOLDS(f.number != 24 || !is_closed(file, place + 8), "24 is given for a list that doesn't end in type 0");
            HOLDS((f.number != 9 && f.number != 10 && f.number != 15) || first_unread(file, place + 8) == f.number,
                  "9 and 10 are given where the bytes end too early, and 15 where a number is too wide");
            HOLDS(f.number != 24 || first_unread(file, place + 8) == 0, "24 comes after the faults of the items");
        }
    }
}

/* the check of a whole file, judged by itself; from then on `passed` is known */
static gsym_finding check_whole(bytes file, int at_end, uint64_t *calls)
{
    passed = 0;
    uint32_t opens = look(file, 0, 0, 0, at_end).a.number;
    asked.call = "gsym_check", asked.symbol = 0, asked.addr = 0, asked.options = 0;
    asked.len = file.len, asked.room = 0, asked.at_end = at_end;
    gsym_finding f = gsym_check(file.at, file.len), again = gsym_check(file.at, file.len);
    uint32_t n = f.number;
    HOLDS(n == again.number && f.entry == again.entry, "the same check finds the same");
    HOLDS(n == 0 || (n >= 2 && n <= 6) || (n >= 9 && n <= 13) || n == 15 || (n >= 20 && n <= 24),
          "a check gives no other number");
    HOLDS(gsym_finding_name(n) != 0, "what a check finds has a name");
    HOLDS(f.entry == 0 || (n >= 5 && n != 20), "an entry is told of an entry's fault alone");
    HOLDS((n >= 2 && n <= 4) == (opens >= 2 && opens <= 4), "2, 3 and 4 are given where a lookup is refused with them");
    HOLDS(n < 2 || n > 4 || n == opens, "of 2, 3 and 4 the check gives that which a lookup does");
    if (n < 2 || n > 4)
        check_told(file, f);
    passed = n == 0;
    *calls += 3;
    return f;
}

/* ---- gsym_block_frames */

typedef struct listed {
    gsym_listed a;
    gsym_inline_frame frames[MOST_FRAMES];
} listed;

static int same_listed(const listed *x, const listed *y)
{
    return x->a.number == y->a.number && x->a.count == y->a.count &&
           memcmp(x->frames, y->frames, (size_t)x->a.count * sizeof(gsym_inline_frame)) == 0;
}

static listed list_frames(bytes block, uint64_t symbol, uint64_t addr, size_t room, int at_end)
{
    listed l;
    gsym_inline_frame *list = (gsym_inline_frame *)lend_list(room * sizeof(gsym_inline_frame), at_end);
    asked.call = "gsym_block_frames", asked.symbol = symbol, asked.addr = addr, asked.options = 0;
    asked.len = block.len, asked.room = room, asked.at_end = at_end;
    l.a = gsym_block_frames(block.at, block.len, symbol, addr, list, room);
    HOLDS(l.a.number == 0 || (l.a.number >= 10 && l.a.number <= 15), "a block's number is 0 or 10 to 15");
    HOLDS((l.a.number != 0 && l.a.number != 10 && l.a.number != 15) || l.a.number == tree_unread(block),
          "10 is given where the bytes end too early, 15 where a number is too wide, and what is answered reads");
    HOLDS(l.a.number == 0 || l.a.count == 0, "a refused block has no record");
    HOLDS(l.a.count <= room && l.a.count <= GSYM_MAX_FRAMES, "no more records than room");
    memcpy(l.frames, list, (size_t)l.a.count * sizeof(gsym_inline_frame));
    HOLDS(rest_kept(list, (size_t)l.a.count * sizeof(gsym_inline_frame)),
          "the list is unchanged past the count, and all of it on a refusal");
    for (size_t i = 0; i < l.a.count; i++)
        HOLDS(l.frames[i].name != 0, "a frame has a name");
    return l;
}

static listed list_all_ways(bytes block, uint64_t symbol, uint64_t addr, size_t room, int at_end, uint64_t *calls)
{
    listed l = list_frames(block, symbol, addr, room, at_end);
    listed again = list_frames(block, symbol, addr, room, !at_end);
    HOLDS(same_listed(&l, &again), "the same call gives the same answer, wherever the list lies");
    listed more = list_frames(block, symbol, addr, MOST_FRAMES, at_end);
    HOLDS(l.a.number == 14 || same_listed(&l, &more), "more room changes no answer but 14");
    HOLDS(more.a.number != 14 || l.a.number == 14, "what has too little room has it with less room too");
    HOLDS(l.a.number != 14 || more.a.number != 0 || more.a.count > room, "14 only where the frames are more than room");
    size_t cuts[] = {(size_t)(addr % (block.len + 1)), block.len - (size_t)((1 + addr % 12) % (block.len + 1))};
    for (int i = 0; i < 2; i++) {
        listed part = list_frames((bytes){block.at, cuts[i]}, symbol, addr, room, at_end);
        HOLDS(part.a.number == 10 || same_listed(&part, &l), "a block that is cut has 10, or what the whole one has");
    }
    *calls += 5;
    return l;
}

/* ---- texts for a terminal: gsym_answer_text, gsym_shown_text, gsym_next_word */

/* the length of the character of UTF-8 at the front, 0 where there is none */
static size_t character_at(const uint8_t *at, size_t len)
{
    for (size_t n = 1; n <= 4 && n <= len; n++)
        if (is_utf8(at, n))
            return n;
    return 0;
}

/* no control byte (newlines apart, where they may be), no C1 control and no mark that turns the direction of writing;
 * of a text that was cut the last three bytes may begin a character */
static int is_plain(const uint8_t *at, size_t len, int may_break, int is_cut)
{
    for (size_t i = 0; i < len;) {
        size_t n = character_at(at + i, len - i);
        uint32_t third = n == 3 ? at[i + 2] : 0;
        if (n == 0 && is_cut && i + 3 >= len)
            return 1;
        if (n <= 1 && ((at[i] < 32 && !(may_break && at[i] == 10)) || (at[i] >= 127 && at[i] < 160)))
            return 0;
        if (n == 2 && at[i] == 0xc2 && at[i + 1] < 0xa0)
            return 0;
        if (n == 3 && at[i] == 0xe2 && ((at[i + 1] == 0x80 && third >= 0xaa && third <= 0xae) ||
                                        (at[i + 1] == 0x81 && third >= 0xa6 && third <= 0xa9)))
            return 0;
        i += n == 0 ? 1 : n;
    }
    return 1;
}

/* a text in lent bytes */
typedef struct told {
    uint64_t len;
    uint32_t number;
    uint8_t at[LIST_ROOM];
} told;

static size_t written(const told *t, size_t room) { return t->len < room ? (size_t)t->len : room; }

/* the answer to a word, or where `file` has no place the word as it is shown */
static void tell(told *t, bytes file, uint32_t view, uint64_t base, bytes word, size_t room, int at_end)
{
    uint8_t *list = (uint8_t *)lend_list(room, at_end);
    asked.call = file.at == 0 ? "gsym_shown_text" : "gsym_answer_text", asked.symbol = 0, asked.addr = base;
    asked.options = view, asked.len = word.len, asked.room = room, asked.at_end = at_end;
    if (file.at == 0) {
        t->len = gsym_shown_text(word.at, word.len, list, room);
        t->number = 0;
    } else {
        gsym_printed p = gsym_answer_text(file.at, file.len, view, base, word.at, word.len, list, room);
        t->len = p.len, t->number = p.number;
    }
    memcpy(t->at, list, written(t, room));
    HOLDS(rest_kept(list, written(t, room)), "lent bytes past the text are unchanged");
    HOLDS(is_plain(t->at, written(t, room), file.at != 0, t->len > room), "nothing in a text steers a terminal");
}

/* less room: as long, the same number, and the same front */
static void tell_less(const told *all, bytes file, uint32_t view, uint64_t base, bytes word, size_t room, int at_end)
{
    static told less;
    tell(&less, file, view, base, word, room, at_end);
    HOLDS(less.len == all->len && less.number == all->number, "a text needs as much, however much room there is");
    HOLDS(memcmp(less.at, all->at, written(&less, room)) == 0, "with less room the front of a text is written");
}

/* the number of the answer to a word, by a lookup */
static uint32_t number_by_lookup(bytes file, uint32_t view, uint64_t base, bytes word)
{
    static gsym_frame frames[GSYM_MAX_FRAMES];
    gsym_number n = gsym_address_of(word.at, word.len);
    uint64_t less = base + (view & GSYM_VIEW_RETURN_ADDRESSES ? 1 : 0);
    uint32_t frames_asked = GSYM_VIEW_FUNCTIONS | GSYM_VIEW_INLINES | GSYM_VIEW_JSON;
    if (!n.is_number)
        return GSYM_NO_ADDRESS;
    if (n.value < base || n.value < less || less < base)
        return GSYM_UNKNOWN_ADDRESS;
    return gsym_lookup(file.at, file.len, n.value - less, view & frames_asked ? ALL_OPTIONS : GSYM_CODE_INFO, frames,
                       GSYM_MAX_FRAMES)
        .number;
}

static void tell_all_ways(bytes file, uint32_t view, uint64_t base, bytes word, size_t room, int at_end,
                          uint64_t *calls)
{
    static told all, other;
    tell(&all, file, view, base, word, LIST_ROOM, at_end);
    HOLDS(all.number == number_by_lookup(file, view, base, word), "the number is that of the lookup");
    HOLDS(all.len > 0 && (all.len > LIST_ROOM || all.at[all.len - 1] == 10), "a text ends in a newline");
    HOLDS(!(view & GSYM_VIEW_JSON) || (all.at[0] == '{' && (all.len > LIST_ROOM || memchr(all.at, 10, all.len) ==
                                                                                         all.at + all.len - 1)),
          "JSON is one object on a line");
    tell_less(&all, file, view, base, word, room, at_end);
    tell_less(&all, file, view, base, word, 0, !at_end);
    tell_less(&all, file, view | 0xffffff00, base, word, LIST_ROOM, at_end);
    tell(&all, (bytes){0, 0}, 0, 0, word, LIST_ROOM, at_end);
    tell_less(&all, (bytes){0, 0}, 0, 0, word, room, !at_end);
    if (all.len <= LIST_ROOM) {
        tell(&other, (bytes){0, 0}, 0, 0, (bytes){all.at, (size_t)all.len}, LIST_ROOM, at_end);
        HOLDS(other.len == all.len && memcmp(other.at, all.at, (size_t)all.len) == 0,
              "what may be shown is shown as it is");
    }
    *calls += 8;
}

static int parts(uint8_t byte) { return byte == 32 || byte == 9 || byte == 13 || byte == 10; }

/* the words of some bytes: between them stands what parts words, in them nothing that does */
static void check_words(bytes input, uint64_t *calls)
{
    size_t most = input.len;
    asked.call = "gsym_next_word", asked.len = input.len;
    for (size_t turn = 0; turn <= most; turn++, (*calls)++) {
        gsym_text word = gsym_next_word(input.at, input.len);
        HOLDS(word.place <= input.len && word.len <= input.len - word.place, "a word lies within the bytes");
        for (size_t i = 0; i < (word.len == 0 ? input.len : word.place); i++)
            HOLDS(parts(input.at[i]), "no byte of a word stands before a word, or where there is none");
        if (word.len == 0)
            return;
        for (size_t i = 0; i < word.len; i++)
            HOLDS(!parts(input.at[word.place + i]), "no byte that parts words stands in one");
        size_t end = (size_t)(word.place + word.len);
        HOLDS(end == input.len || parts(input.at[end]), "a word ends where a byte parts, or with the bytes");
        input = (bytes){input.at + end, input.len - end};
    }
    HOLDS(0, "there are fewer words than bytes");
}

#endif
