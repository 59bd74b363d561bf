/*
 * write.h - gsym_write of include/gsym_write.h, and a writer of its own that says what the answer must be.
 *
 * Rows are made of an input's bytes, or read from its file where that passes a check. Each call's answer must be that
 * of the writer here, which knows docs/RULES.md, "Writing a file", and nothing of the library; the bytes of a file too;
 * what is behind them, and all where nothing is written, is as it was. In a written file a lookup at each entry's
 * address must find that entry, and a check nothing but what is wrong in an item; one that is written of a file's rows
 * must answer as that file does. The rows lie where they can only be read.
 */
#ifndef WRITE_H
#define WRITE_H

#include "checks.h"
#include "gsym_write.h"
#include "head.h"

enum { MOST_ENTRIES = 40, MOST_ITEMS = 80, MOST_FILES = 20, ROW_ROOM = 4 * PAGE, ROW_PARTS = 5 };

/* what a host gives */
typedef struct rows {
    const gsym_entry *entries;
    const gsym_item *items;
    const uint8_t *bytes;
    const gsym_file *files;
    const uint8_t *strings;
    size_t entry_count, item_count, bytes_len, file_count, strings_len;
} rows;

/* ---- a writer: what must be answered, and the file, as much of it as the lent list may have */

typedef struct composed {
    size_t len;
    uint8_t at[LIST_ROOM];
} composed;

static void say(composed *c, uint64_t value, int width)
{
    for (int i = 0; i < width; i++, c->len++)
        if (c->len < LIST_ROOM)
            c->at[c->len] = (uint8_t)(i < 8 ? value >> (8 * i) : 0);
}

/* over what is there */
static void say_at(composed *c, size_t at, uint64_t value)
{
    for (size_t i = 0; i < 4; i++)
        if (at + i < LIST_ROOM)
            c->at[at + i] = (uint8_t)(value >> (8 * i));
}

static void say_bytes(composed *c, const uint8_t *at, uint64_t len)
{
    for (uint64_t i = 0; i < len; i++)
        say(c, at[i], 1);
}

static void say_zeros(composed *c)
{
    while (c->len % 4 != 0)
        say(c, 0, 1);
}

/* whether a string starts there and a zero byte ends it, as UTF-8 where it is a name */
static int reads_at(const rows *r, uint32_t offset, int is_name)
{
    const uint8_t *zero = offset >= r->strings_len
                              ? 0
                              : (const uint8_t *)memchr(r->strings + offset, 0, r->strings_len - offset);
    return zero != 0 && (!is_name || is_utf8(r->strings + offset, (size_t)(zero - r->strings) - offset));
}

/* whether so much is left of what the rows take in turn */
static int comes_out(const rows *r)
{
    uint64_t items = r->item_count, bytes = r->bytes_len;
    for (size_t i = 0; i < r->entry_count; i++) {
        if (r->entries[i].items > items)
            return 0;
        items -= r->entries[i].items;
    }
    for (size_t i = 0; i < r->item_count; i++) {
        if (r->items[i].len > bytes)
            return 0;
        bytes -= r->items[i].len;
    }
    return items == 0 && bytes == 0;
}

static gsym_written refused_with(uint32_t number, uint64_t index, int of_file)
{
    return (gsym_written){0, index, number, (uint32_t)of_file};
}

/* what refuses rows of which none is too large, whatever the room: number 0 where nothing does */
static gsym_written refusal_of(const rows *r)
{
    if (!comes_out(r))
        return refused_with(33, 0, 0);
    for (size_t i = 1; i < r->entry_count; i++)
        if (r->entries[i].addr <= r->entries[i - 1].addr)
            return refused_with(21, i, 0);
    for (size_t i = 0; i < r->entry_count; i++)
        if (r->entries[i].size > UINT64_MAX - r->entries[i].addr)
            return refused_with(22, i, 0);
    for (size_t i = 0; i < r->entry_count; i++)
        if (!reads_at(r, r->entries[i].name, 1))
            return refused_with(29, i, 0);
    for (size_t i = 0; i < r->file_count; i++)
        if (!reads_at(r, r->files[i].directory, 0) || !reads_at(r, r->files[i].filename, 0))
            return refused_with(29, i, 1);
    const gsym_item *item = r->items;
    for (size_t i = 0; i < r->entry_count; i++)
        for (uint64_t k = 0; k < r->entries[i].items; k++, item++)
            if (item->kind == 0)
                return refused_with(30, i, 0);
    return refused_with(0, 0, 0);
}

static void compose(composed *c, const rows *r)
{
    uint64_t base = r->entry_count == 0 ? 0 : r->entries[0].addr;
    uint64_t far = r->entry_count == 0 ? 0 : r->entries[r->entry_count - 1].addr - base;
    int width = far < 256 ? 1 : far < 65536 ? 2 : far <= UINT32_MAX ? 4 : 8;
    c->len = 0;
    say(c, 0x4753594d, 4), say(c, 1, 2), say(c, (uint64_t)width, 1), say(c, 0, 1), say(c, base, 8);
    say(c, r->entry_count, 4), say(c, 0, 4), say(c, r->strings_len, 4), say(c, 0, 20);
    for (size_t i = 0; i < r->entry_count; i++)
        say(c, r->entries[i].addr - base, width);
    say_zeros(c);
    size_t offsets = c->len;
    say(c, 0, 4 * (int)r->entry_count);
    say(c, r->file_count, 4);
    for (size_t i = 0; i < r->file_count; i++)
        say(c, r->files[i].directory, 4), say(c, r->files[i].filename, 4);
    say_at(c, 20, c->len);
    say_bytes(c, r->strings, r->strings_len);
    const gsym_item *item = r->items;
    const uint8_t *bytes = r->bytes;
    for (size_t i = 0; i < r->entry_count; i++) {
        say_zeros(c);
        say_at(c, offsets + 4 * i, c->len);
        say(c, r->entries[i].size, 4), say(c, r->entries[i].name, 4);
        for (uint64_t k = 0; k < r->entries[i].items; k++, bytes += item++->len) {
            say(c, item->kind, 4), say(c, item->len, 4);
            say_bytes(c, bytes, item->len);
        }
        say(c, 0, 8);
    }
}

/* ---- rows where they can only be read */

static struct {
    uint8_t *write;
    const uint8_t *read;
} row_rooms[ROW_PARTS];

static void make_row_rooms(void)
{
    for (int k = 0; k < ROW_PARTS; k++) {
        int file = memfd_create("rows", 0);
        if (file < 0 || ftruncate(file, ROW_ROOM) != 0)
            no_memory();
        row_rooms[k].write = (uint8_t *)mmap(0, ROW_ROOM, PROT_READ | PROT_WRITE, MAP_SHARED, file, 0);
        if (row_rooms[k].write == (uint8_t *)MAP_FAILED)
            no_memory();
        row_rooms[k].read = between_guards(ROW_ROOM, file, PROT_READ);
        close(file);
    }
}

static const void *lend_part(int k, const void *at, size_t len, int at_end)
{
    size_t start = at_end ? ROW_ROOM - len : 0;
    if (len > 0)
        memcpy(row_rooms[k].write + start, at, len);
    return row_rooms[k].read + start;
}

static rows lend_rows(const rows *r, int at_end)
{
    rows lent = *r;
    lent.entries = (const gsym_entry *)lend_part(0, r->entries, r->entry_count * sizeof *r->entries, at_end);
    lent.items = (const gsym_item *)lend_part(1, r->items, r->item_count * sizeof *r->items, at_end);
    lent.bytes = (const uint8_t *)lend_part(2, r->bytes, r->bytes_len, at_end);
    lent.files = (const gsym_file *)lend_part(3, r->files, r->file_count * sizeof *r->files, at_end);
    lent.strings = (const uint8_t *)lend_part(4, r->strings, r->strings_len, at_end);
    return lent;
}

/* ---- one call, judged */

static gsym_written write_to(const rows *r, const composed *all, gsym_written refused, size_t room, int at_end)
{
    uint8_t *out = (uint8_t *)lend_list(room, at_end);
    gsym_written must = refused;
    if (must.number == 0 && all->len > room)
        must.number = 32;
    if (must.number == 0 || must.number == 32)
        must.len = all->len;
    asked.call = "gsym_write", asked.symbol = r->entry_count, asked.addr = r->item_count, asked.options = 0;
    asked.len = r->bytes_len, asked.room = room, asked.at_end = at_end;
    gsym_written w = gsym_write(r->entries, r->entry_count, r->items, r->item_count, r->bytes, r->bytes_len, r->files,
                                r->file_count, r->strings, r->strings_len, out, room);
    HOLDS(w.number == must.number, "rows are written, or refused by the first that refuses them");
    HOLDS(w.index == must.index && w.of_file == must.of_file, "a refusal tells the lowest entry or file, and 0 else");
    HOLDS(w.len == must.len, "how long the file is is told with 0 and 32, and with no other number");
    size_t len = w.number == 0 ? (size_t)w.len : 0;
    HOLDS(memcmp(out, all->at, len) == 0, "a file has the bytes of one that is composed here");
    HOLDS(rest_kept(out, len), "behind a file, and where none is written, the room is unchanged");
    return w;
}

/* ---- written files */

/* a lookup at each entry's address finds it, and a check nothing but what is wrong in an item */
static void check_written(const rows *r, const composed *all, int at_end, uint64_t *calls)
{
    bytes file = lend_file(all->at, all->len, at_end);
    passed = 0;
    for (size_t i = 0; i < r->entry_count; i++) {
        const gsym_entry *e = r->entries + i;
        looked l = look(file, e->addr, 0, 0, at_end);
        const uint8_t *name = r->strings + e->name;
        gsym_part part = gsym_text_at(file.at, file.len, l.a.name);
        HOLDS(l.a.number == 0 && l.a.addr == e->addr && l.a.size == e->size,
              "in a written file a lookup at an entry's address finds that entry");
        HOLDS(part.len == strlen((const char *)name) && memcmp(part.at, name, part.len) == 0,
              "in a written file an entry has its name");
    }
    gsym_finding f = check_whole(file, at_end, calls);
    HOLDS(f.number == 0 || (f.number >= 9 && f.number <= 13) || f.number == 15 || f.number == 23,
          "a check of a written file finds nothing but what is wrong in an item");
    *calls += r->entry_count;
}

/* the rows into more room than they need, as much, less, none and some other room: what the first of these answered */
static gsym_written write_all_ways(const rows *given, size_t room, int at_end, uint64_t *calls)
{
    static composed all;
    rows lent = lend_rows(given, at_end);
    gsym_written refused = refusal_of(given);
    all.len = 0;
    if (refused.number == 0)
        compose(&all, given);
    size_t most = all.len < LIST_ROOM ? all.len : LIST_ROOM;
    gsym_written w = write_to(&lent, &all, refused, LIST_ROOM, at_end);
    write_to(&lent, &all, refused, most, at_end);
    write_to(&lent, &all, refused, most - (most > 0), !at_end);
    write_to(&lent, &all, refused, 0, at_end);
    write_to(&lent, &all, refused, room % (most + 2 < LIST_ROOM ? most + 2 : LIST_ROOM), at_end);
    *calls += 5;
    if (w.number == 0)
        check_written(given, &all, at_end, calls);
    return w;
}

/* ---- rows that are made of an input's bytes; behind them all is 0 */

typedef struct stream {
    const uint8_t *at;
    size_t len;
} stream;

static uint64_t draw(stream *s, int width)
{
    uint64_t value = 0;
    for (int i = 0; i < width && s->len > 0; i++, s->at++, s->len--)
        value |= (uint64_t)*s->at << (8 * i);
    return value;
}

static struct {
    gsym_entry entries[MOST_ENTRIES];
    gsym_item items[MOST_ITEMS];
    gsym_file files[MOST_FILES];
    uint8_t bytes[2 * PAGE], strings[2 * PAGE];
} kept_rows;

/* mostly where a string starts, at times anywhere */
static uint32_t draw_offset(stream *s, size_t len)
{
    uint64_t kind = draw(s, 1), at = draw(s, 2);
    if (kind % 32 == 0)
        return (uint32_t)draw(s, 4);
    at = len == 0 ? 0 : at % len;
    for (; kind % 8 != 0 && at > 0 && kept_rows.strings[at - 1] != 0; at--)
        ;
    return (uint32_t)at;
}

static size_t draw_strings(stream *s)
{
    static const char *const texts[] = {"", "main", "sync_orders", "\xc3\xa9t\xc3\xa9", "/src/a", "\xf0\x9f\xa6\x80"};
    size_t len = 0, parts = draw(s, 1) % 12;
    for (size_t i = 0; i < parts; i++) {
        uint64_t kind = draw(s, 1);
        const char *text = texts[kind % 6];
        if (kind < 24)
            kept_rows.strings[len++] = (uint8_t)draw(s, 1);
        for (; *text != 0; text++)
            kept_rows.strings[len++] = (uint8_t)*text;
        if (i + 1 < parts || kind % 16 != 1)
            kept_rows.strings[len++] = 0;
    }
    return len;
}

static rows rows_of_input(bytes input)
{
    stream s = {input.at, input.len};
    rows r = {kept_rows.entries, kept_rows.items, kept_rows.bytes, kept_rows.files, kept_rows.strings, 0, 0, 0, 0, 0};
    uint64_t from = draw(&s, 1), addr = from % 16 == 0 ? UINT64_MAX - draw(&s, 2) : draw(&s, from % 4 == 1 ? 8 : 2);
    r.strings_len = draw_strings(&s);
    size_t files = draw(&s, 1) % 5;
    for (; r.file_count < files; r.file_count++) {
        kept_rows.files[r.file_count].directory = draw_offset(&s, r.strings_len);
        kept_rows.files[r.file_count].filename = draw_offset(&s, r.strings_len);
    }
    size_t count = draw(&s, 1) % (MOST_ENTRIES / 4);
    for (; r.entry_count < count; r.entry_count++) {
        gsym_entry *e = kept_rows.entries + r.entry_count;
        uint64_t kind = draw(&s, 1), step = draw(&s, kind % 16 == 0 ? 8 : kind % 16 == 1 ? 4 : kind % 4 == 2 ? 2 : 1);
        addr += kind < 8 ? step : step == 0 ? 1 : step;
        e->addr = addr;
        kind = draw(&s, 1);
        e->size = (uint32_t)draw(&s, kind % 16 == 0 ? 4 : kind % 2);
        e->name = draw_offset(&s, r.strings_len);
        e->items = kind / 16 % 4;
        for (uint64_t k = 0; k < e->items; k++, r.item_count++) {
            uint64_t type = draw(&s, 1), len = draw(&s, 1) % 48;
            len = len < s.len ? len : s.len;
            kept_rows.items[r.item_count].kind = (uint32_t)(type < 4 ? 0 : type > 252 ? draw(&s, 4) : 1 + type % 3);
            len = len < s.len ? len : s.len;
            kept_rows.items[r.item_count].len = len;
            memcpy(kept_rows.bytes + r.bytes_len, s.at, len);
            r.bytes_len += len, s.at += len, s.len -= len;
        }
    }
    /* at times a row says otherwise */
    uint64_t kind = draw(&s, 1), some = draw(&s, 1), other = draw(&s, kind % 4 == 0 ? 8 : 1);
    if (kind % 16 < 4 && r.entry_count > 0)
        kept_rows.entries[some % r.entry_count].items += some % 8 == 0 ? other : other % 3 - 1;
    if (kind % 16 > 12 && r.item_count > 0)
        kept_rows.items[some % r.item_count].len += some % 8 == 0 ? other : other % 3 - 1;
    return r;
}

/* ---- rows that are read from a file that passes a check: whether there are few enough of them */

static int rows_of_file(bytes file, rows *to)
{
    shape s = shape_of(file);
    size_t table = read_at(file, 20, 4), len = read_at(file, 24, 4);
    size_t files = read_at(file, s.offsets + 4 * s.entries, 4);
    rows r = {kept_rows.entries, kept_rows.items, kept_rows.bytes, kept_rows.files, kept_rows.strings, 0, 0, 0, 0, 0};
    if (s.entries > MOST_ENTRIES || files > MOST_FILES || len > sizeof kept_rows.strings)
        return 0;
    memcpy(kept_rows.strings, file.at + table, len);
    r.strings_len = len, r.file_count = files;
    for (size_t i = 0; i < files; i++) {
        kept_rows.files[i].directory = (uint32_t)read_at(file, s.offsets + 4 * s.entries + 4 + 8 * i, 4);
        kept_rows.files[i].filename = (uint32_t)read_at(file, s.offsets + 4 * s.entries + 8 + 8 * i, 4);
    }
    for (; r.entry_count < s.entries; r.entry_count++) {
        gsym_entry *e = kept_rows.entries + r.entry_count;
        size_t at = data_at(file, s, r.entry_count);
        *e = (gsym_entry){s.base + entry_at(file, s, r.entry_count), 0, (uint32_t)read_at(file, at, 4),
                          (uint32_t)read_at(file, at + 4, 4)};
        for (item one = item_at(file, at + 8); one.fits; one = item_at(file, one.next), e->items++) {
            size_t more = one.next - one.start;
            if (r.item_count == MOST_ITEMS || more > sizeof kept_rows.bytes - r.bytes_len)
                return 0;
            kept_rows.items[r.item_count++] = (gsym_item){more, (uint32_t)one.type};
            memcpy(kept_rows.bytes + r.bytes_len, file.at + one.start, more);
            r.bytes_len += more;
        }
    }
    *to = r;
    return 1;
}

/* two lookups say the same, each with its texts in its own file */
static int says_same(bytes x, gsym_text t, bytes y, gsym_text u)
{
    gsym_part a = gsym_text_at(x.at, x.len, t), b = gsym_text_at(y.at, y.len, u);
    return a.len == b.len && memcmp(a.at, b.at, a.len) == 0;
}

static int answers_same(bytes x, const looked *l, bytes y, const looked *m)
{
    int same = l->a.number == m->a.number && l->a.addr == m->a.addr && l->a.size == m->a.size &&
               l->a.has_code == m->a.has_code && l->a.line == m->a.line && l->a.count == m->a.count &&
               says_same(x, l->a.name, y, m->a.name) && says_same(x, l->a.dir, y, m->a.dir) &&
               says_same(x, l->a.file, y, m->a.file);
    for (size_t i = 0; same && i < l->a.count; i++)
        same = l->frames[i].line == m->frames[i].line && says_same(x, l->frames[i].name, y, m->frames[i].name) &&
               says_same(x, l->frames[i].dir, y, m->frames[i].dir) &&
               says_same(x, l->frames[i].file, y, m->frames[i].file);
    return same;
}

/* the rows of a file that passes a check: what is written of them answers as it does, at an address of the input and in
 * each entry. Whether they were written */
static int rewrite(bytes input, uint64_t addr, size_t room, int at_end, uint64_t *calls)
{
    static uint8_t first[FILE_ROOM];
    static composed all;
    rows r;
    if (!rows_of_file(input, &r) || write_all_ways(&r, room, at_end, calls).number != 0)
        return 0;
    compose(&all, &r);
    memcpy(first, input.at, input.len);
    for (size_t i = 0; i <= r.entry_count; i++) {
        uint64_t at = i == r.entry_count ? addr : r.entries[i].addr + r.entries[i].size / 2;
        bytes one = lend_file(first, input.len, at_end);
        looked l = look(one, at, ALL_OPTIONS, MOST_FRAMES, at_end);
        bytes other = lend_file(all.at, all.len, at_end);
        looked m = look(other, at, ALL_OPTIONS, MOST_FRAMES, at_end);
        HOLDS(answers_same((bytes){first, input.len}, &l, (bytes){all.at, all.len}, &m),
              "a file that is written of a file's rows answers as that file does");
    }
    *calls += 2 * r.entry_count + 2;
    return 1;
}

#endif
