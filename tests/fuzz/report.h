/*
 * report.h - the report of a file and some addresses (RULES, "A report"), judged against one that is composed here of
 * lookups. The call is none of include/gsym.h: it is a part of the reader for programs that compare (crates/report_c),
 * and stands in target/libreport_c.a. Used by target.c alone.
 */
#ifndef REPORT_H
#define REPORT_H

#include "checks.h"

/* The report to the front of `room`, and how many bytes it has; SIZE_MAX where it doesn't fit, and `room` then begins
 * with a front of it. */
size_t gsym_report(const uint8_t *file, size_t len, const uint64_t *addresses, size_t count, uint8_t *room,
                   size_t room_len);

/* a report that is composed: how long it is, and as much of it as a room may have */
typedef struct report {
    size_t len;
    uint8_t at[LIST_ROOM];
} report;

static void add_bytes(report *r, const void *at, size_t len)
{
    if (r->len < LIST_ROOM)
        memcpy(r->at + r->len, at, len < LIST_ROOM - r->len ? len : LIST_ROOM - r->len);
    r->len += len;
}

/* the number of an address, a blank, the text with a question mark for each control byte, and a newline */
static void add_line(report *r, size_t number, const char *text, size_t len)
{
    char digits[24];
    add_bytes(r, digits, (size_t)snprintf(digits, sizeof digits, "%zu ", number));
    size_t start = r->len;
    add_bytes(r, text, len);
    for (size_t i = start; i < r->len && i < LIST_ROOM; i++)
        if (r->at[i] < 32 || r->at[i] == 127)
            r->at[i] = '?';
    add_bytes(r, "\n", 1);
}

static void add_name(report *r, bytes file, size_t number, gsym_text name)
{
    gsym_part part = gsym_text_at(file.at, file.len, name);
    add_line(r, number, part.at, part.len);
}

/* the lines of an address: its frames from the last one on and then the symbol, or what refuses it */
static void add_address(report *r, bytes file, size_t number, uint64_t address, int at_end)
{
    uint32_t refused = GSYM_UNKNOWN_ADDRESS;
    char words[16];
    if (number == 0 || address > 0) {
        looked l = look(file, address - (number > 0), ALL_OPTIONS, GSYM_MAX_FRAMES, at_end);
        refused = l.a.number;
        for (size_t i = (size_t)l.a.count; i-- > 0;)
            add_name(r, file, number, l.frames[i].name);
        if (refused == 0)
            add_name(r, file, number, l.a.name);
    }
    if (refused != 0)
        add_line(r, number, words, (size_t)snprintf(words, sizeof words, "?%u", refused));
}

/* one report into so much room, judged: how many bytes of it stand in the room */
static size_t report_to(bytes file, const uint64_t *addresses, size_t count, const report *all, size_t room, int at_end)
{
    uint8_t *list = (uint8_t *)lend_list(room, at_end);
    const uint64_t *lent = lend_addresses(addresses, count, at_end);
    asked.call = "gsym_report", asked.symbol = 0, asked.addr = count == 0 ? 0 : addresses[0], asked.options = 0;
    asked.len = file.len, asked.room = room, asked.at_end = at_end;
    size_t len = gsym_report(file.at, file.len, lent, count, list, room), same = 0;
    HOLDS(memcmp(lent, addresses, count * sizeof *lent) == 0, "the addresses are as they were");
    HOLDS((len == SIZE_MAX) == (all->len > room), "SIZE_MAX is given exactly where the report doesn't fit");
    HOLDS(len == SIZE_MAX || len == all->len, "a report is as long as one that is composed of lookups");
    while (same < room && same < all->len && list[same] == all->at[same])
        same++;
    HOLDS(len == SIZE_MAX || same == len, "a report has the bytes of one that is composed of lookups");
    HOLDS(rest_kept(list, same), "past a report, or the front of one that doesn't fit, the room is unchanged");
    return same;
}

/* the report of these addresses, with more room than it needs, as much, less, and none: how long it is */
static size_t report_all_ways(bytes file, const uint64_t *addresses, size_t count, size_t room, int at_end,
                              uint64_t *calls)
{
    static report all;
    all.len = 0;
    for (size_t i = 0; i < count; i++)
        add_address(&all, file, i, addresses[i], at_end);
    size_t most = all.len < LIST_ROOM ? all.len : LIST_ROOM - 1, odd = room % (most + 2);
    report_to(file, addresses, count, &all, LIST_ROOM, at_end);
    report_to(file, addresses, count, &all, most, at_end);
    report_to(file, addresses, count, &all, most - (most > 0), !at_end);
    report_to(file, addresses, count, &all, 0, at_end);
    HOLDS(report_to(file, addresses, count, &all, odd, at_end) == report_to(file, addresses, count, &all, odd, at_end),
          "the same call writes as much of a report");
    *calls += count + 6;
    return all.len;
}

#endif
