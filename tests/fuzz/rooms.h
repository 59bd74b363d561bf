/*
 * rooms.h - memory between pages that can't be touched, and what a failed check says.
 *
 * The file lies in a mapping that can only be read, so that it ends (or begins) at a page without access; the lent list
 * and the addresses of a report lie likewise. Whatever the library reads or writes outside its arguments, or writes to
 * the file, ends the program by a signal.
 */
#ifndef ROOMS_H
#define ROOMS_H

#ifndef _GNU_SOURCE
#define _GNU_SOURCE
#endif
#include <stdio.h>
#include <stdlib.h>
#include <string.h>
#include <sys/mman.h>
#include <unistd.h>

#include "gsym.h"

enum { PAGE = 4096, FILE_ROOM = 32 * PAGE, LIST_ROOM = 2 * PAGE, MOST_FRAMES = 80, MOST_ADDRESSES = 256 };
enum { ALL_OPTIONS = GSYM_CODE_INFO | GSYM_INLINING };

typedef struct bytes {
    const uint8_t *at;
    size_t len;
} bytes;

/* what was asked last, for the report of a failed check */
static struct {
    const char *call; /* null before the first call */
    uint64_t symbol, addr;
    uint32_t options;
    size_t len, room;
    int at_end;
} asked;

#define HOLDS(what, words)                                                                                             \
    do {                                                                                                               \
        if (!(what))                                                                                                   \
            not_so(words, #what, __FILE__, __LINE__);                                                                  \
    } while (0)

static void not_so(const char *words, const char *what, const char *where, int line)
{
    fprintf(stderr, "FAILED CHECK (%s:%d): %s\n  %s\n", where, line, words, what);
    fprintf(stderr, "  in %s: %zu bytes, symbol 0x%llx, address 0x%llx, options %u, room %zu, %s\n",
            asked.call ? asked.call : "no call", asked.len, (unsigned long long)asked.symbol,
            (unsigned long long)asked.addr, asked.options, asked.room,
            asked.at_end ? "up to a page without access" : "from a page without access on");
    fflush(stderr);
    abort();
}

/* ---- memory between pages without access */

static uint8_t *file_write, *file_read, *list_room, *address_room;
static uint8_t list_before[LIST_ROOM];

static void no_memory(void)
{
    fprintf(stderr, "checks.h: no memory between guard pages\n");
    exit(2);
}

/* so many bytes with a page without access before and behind; `file` -1: memory of its own */
static uint8_t *between_guards(size_t len, int file, int access)
{
    uint8_t *at = (uint8_t *)mmap(0, len + 2 * PAGE, PROT_NONE, MAP_PRIVATE | MAP_ANONYMOUS, -1, 0);
    int kind = MAP_FIXED | (file < 0 ? MAP_PRIVATE | MAP_ANONYMOUS : MAP_SHARED);
    if (at == (uint8_t *)MAP_FAILED || mmap(at + PAGE, len, access, kind, file, 0) == MAP_FAILED)
        no_memory();
    return at + PAGE;
}

static void make_rooms(void)
{
    int file = memfd_create("file", 0);
    if (sysconf(_SC_PAGESIZE) != PAGE || file < 0 || ftruncate(file, FILE_ROOM) != 0)
        no_memory();
    file_write = (uint8_t *)mmap(0, FILE_ROOM, PROT_READ | PROT_WRITE, MAP_SHARED, file, 0);
    if (file_write == (uint8_t *)MAP_FAILED)
        no_memory();
    file_read = between_guards(FILE_ROOM, file, PROT_READ);
    list_room = between_guards(LIST_ROOM, -1, PROT_READ | PROT_WRITE);
    address_room = between_guards(PAGE, -1, PROT_READ | PROT_WRITE);
    close(file);
    for (size_t i = 0; i < LIST_ROOM; i++)
        list_room[i] = list_before[i] = (uint8_t)(i * 7 + 13);
}

/* the bytes where they can only be read, up to the page behind them or from the page before them on */
static bytes lend_file(const uint8_t *at, size_t len, int at_end)
{
    size_t start = at_end ? FILE_ROOM - len : 0;
    if (len > 0)
        memcpy(file_write + start, at, len);
    return (bytes){file_read + start, len};
}

/* a list of so many bytes, up to the page behind it or from the page before it on */
static void *lend_list(size_t len, int at_end) { return at_end ? list_room + LIST_ROOM - len : list_room; }

/* at most MOST_ADDRESSES, up to the page behind them or from the page before them on */
static const uint64_t *lend_addresses(const uint64_t *at, size_t count, int at_end)
{
    size_t len = count * sizeof *at;
    uint8_t *to = address_room + (at_end ? PAGE - len : 0);
    memcpy(to, at, len);
    return (const uint64_t *)to;
}

/* all of the list's memory is as before but for `len` bytes from `at` on, which are put back */
static int rest_kept(void *at, size_t len)
{
    size_t start = (size_t)((uint8_t *)at - list_room), end = start + len;
    int kept = memcmp(list_room, list_before, start) == 0 &&
               memcmp(list_room + end, list_before + end, LIST_ROOM - end) == 0;
    memcpy(at, list_before + start, len);
    return kept;
}

/* ---- numbers */

static uint64_t number_at(const uint8_t *at, int width)
{
    uint64_t value = 0;
    for (int i = width; i-- > 0;)
        value = value << 8 | at[i];
    return value;
}

#endif
