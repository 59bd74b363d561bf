/*
 * gsym_write.h - writes a GSYM symbol file from what it is to say: entries, items, files and strings.
 * For x86-64 Linux, C11 or C++11. docs/RULES.md, "Writing a file", says in words what is written and what refuses it.
 * A file of one function, main, of 32 bytes at 0x1000, and of one source file, which has no name:
 *     gsym_entry function = {0x1000, 0, 32, 1};
 *     gsym_file none = {0, 0};
 *     const uint8_t strings[] = "\0main";
 *     uint8_t out[128];
 *     gsym_written w = gsym_write(&function, 1, 0, 0, 0, 0, &none, 1, strings, sizeof strings, out, sizeof out);
 *
 * Link with libgsym_write.a (`make`). It stands apart from libgsym.a, which takes no heap: this one takes memory by the
 * program's malloc and gives it back by its free before a call returns. It has no state, opens no file and never writes
 * to what it is lent but `out`. Every call ends. What a call answers and what it leaves in `out` is proved, not only
 * tested; the function whose body stands in this header is tested and not proved.
 *
 * What is asked of the caller, all of it:
 *   - each list has as many rows, and the bytes, the strings and `out` as many bytes, as its length says; they may be
 *     read, are aligned as their types ask for, and nobody writes to them or takes them away while a call reads them.
 *   - `out` may be written, doesn't overlap what is read, and belongs to one call at a time.
 *   - A pointer may be null where its length is 0. No list, and none of the bytes, has 2^63 bytes.
 *   - malloc, realloc and free are those of one allocator, and a block lies as malloc's blocks do in C. realloc is
 *     linked and not called.
 *   - There is enough stack: GSYM_WRITE_STACK bytes, of which a call takes less than half (tests/c measures it).
 * All else gets an answer or a refusal. Calls may run at the same time on as many threads as one likes, over the same
 * rows too, each with an `out` of its own. Since they take memory they are not for a signal handler, nor for the forked
 * child of a process with threads.
 *
 * Memory: one block of 32 bytes an entry, one of 24 bytes an item and one of 8 bytes a file, and no other; a list of no
 * rows takes none. All are given back before the call returns, whatever it answers.
 *
 * Layout: as in gsym.h the call stands in the library under a name with the number of its structs' layout,
 * GSYM_WRITE_LAYOUT, and the plain name is a macro for it: an object that was compiled with the header of another
 * layout doesn't link. A change of a struct, of its order or of the call's arguments raises it.
 *
 * There are no unwind tables (.eh_frame), and none is needed: the call calls nothing of yours but malloc and free.
 */
#ifndef GSYM_WRITE_H
#define GSYM_WRITE_H

#include <stddef.h>
#include <stdint.h>

/* How rows and the answer lie in memory, and the name that carries it (above). */
#define GSYM_WRITE_LAYOUT 1
#define gsym_write gsym_write_1

/* The stack that a call needs, with a margin. */
#define GSYM_WRITE_STACK 16384

#ifdef __cplusplus
#define GSYM_WRITE_ASSERT(what, why) static_assert(what, why)
extern "C" {
#else
#define GSYM_WRITE_ASSERT(what, why) _Static_assert(what, why)
#endif

/* ---- what a call answers. A later library may refuse for more: any number but 0 is a refusal ---- */
enum {
    GSYM_WRITE_DONE = 0,
    GSYM_WRITE_NOT_RISING = 21,      /* an entry that is not above the one before it */
    GSYM_WRITE_SUM_TOO_LARGE = 22,   /* the symbol ends above 2^64-1 */
    GSYM_WRITE_UNREAD_STRING = 29,   /* a string offset that doesn't read */
    GSYM_WRITE_END_ITEM = 30,        /* an item of type 0 */
    GSYM_WRITE_TOO_LARGE = 31,       /* a count, a place or a length above 4,294,967,295 */
    GSYM_WRITE_TOO_LITTLE_ROOM = 32, /* too little room */
    GSYM_WRITE_UNEVEN_ROWS = 33,     /* rows that don't come out */
    GSYM_WRITE_NO_MEMORY = 34        /* no memory */
};

/* An entry, a symbol. Its items are the next of all items, its name starts in the strings. */
typedef struct gsym_entry {
    uint64_t addr;
    uint64_t items; /* how many items it has */
    uint32_t size;  /* 0: unknown, the symbol covers everything from its start on */
    uint32_t name;  /* where it starts in the strings */
} gsym_entry;

/* An item of an entry: 1 is a line table, 2 an inline tree, any other type but 0 is passed over. Its bytes are the next
 * of all bytes. */
typedef struct gsym_item {
    uint64_t len; /* how many bytes it has */
    uint32_t kind;
} gsym_item;

/* A file, as line tables and inline trees count them; the first is 0. */
typedef struct gsym_file {
    uint32_t directory; /* where it starts in the strings */
    uint32_t filename;  /* likewise */
} gsym_file;

/* What gsym_write answers. What has nothing to say is 0. */
typedef struct gsym_written {
    uint64_t len;     /* with 0 how many bytes the file has; with 32 how many it would have, 2^64-1 where it has more */
    uint64_t index;   /* with 21, 22, 29 and 30: which entry, the lowest, from 0 on; with 29 maybe which file */
    uint32_t number;  /* 0: the file is written; else what refuses it */
    uint32_t of_file; /* 1: `index` is that of a file; else 0 */
} gsym_written;

GSYM_WRITE_ASSERT(sizeof(size_t) == 8, "a host with 64-bit sizes");
GSYM_WRITE_ASSERT(sizeof(gsym_entry) == 24 && offsetof(gsym_entry, size) == 16 && offsetof(gsym_entry, name) == 20,
                  "gsym_entry");
GSYM_WRITE_ASSERT(sizeof(gsym_item) == 16 && offsetof(gsym_item, kind) == 8, "gsym_item");
GSYM_WRITE_ASSERT(sizeof(gsym_file) == 8 && offsetof(gsym_file, filename) == 4, "gsym_file");
GSYM_WRITE_ASSERT(sizeof(gsym_written) == 24 && offsetof(gsym_written, number) == 16 &&
                      offsetof(gsym_written, of_file) == 20,
                  "gsym_written");

/*
 * Writes a file to the front of lent bytes.
 *   entries, entry_count  the entries, by rising address
 *   items, item_count     their items: first those of the first entry, then those of the second, ..
 *   bytes, bytes_len      the items' bytes: first those of the first item, ..
 *   files, file_count     the files
 *   strings, strings_len  the string table: a string ends before a zero byte
 *   out, out_len          the lent bytes
 * With 0 the file's `len` bytes stand at the front of `out`, and what is behind them stays; with any other number all
 * of it stays. Refusals, of several the first in this order:
 *   33   the entries have fewer or more items together than there are, or the items fewer or more bytes
 *   34   there is no memory for the lists
 *   21   an entry's address is at most that of the one before it
 *   22   an entry's address and size come to more than 2^64-1
 *   29   an entry's name or a file's directory or file name starts outside the strings, or no zero byte follows it
 *        there; or a name is not UTF-8
 *   30   an item has type 0
 *   31   a count, a place or an item's length is above 4,294,967,295
 *   32   the file has more bytes than `out`: lend as many as `len` says, and call again. With an `out` of 0 bytes a
 *        call asks for the length alone
 * Names of inlined calls, which stand inside items, are not judged, nor is anything else of an item's bytes. The time
 * is linear in what is given, but that a name is read for each entry that has it, up to its zero byte.
 */
gsym_written gsym_write(const gsym_entry *entries, size_t entry_count, const gsym_item *items, size_t item_count,
                        const uint8_t *bytes, size_t bytes_len, const gsym_file *files, size_t file_count,
                        const uint8_t *strings, size_t strings_len, uint8_t *out, size_t out_len);

/* What a call answered, in words; a null pointer for a number that this header doesn't have. */
static inline const char *gsym_write_name(uint32_t number)
{
    static const char *const names[] = {
        "a string offset that doesn't read",
        "an item of type 0",
        "a count, a place or a length above 4,294,967,295",
        "too little room",
        "rows that don't come out",
        "no memory",
    };
    if (number == 0)
        return "written";
    if (number == 21)
        return "an entry that is not above the one before it";
    if (number == 22)
        return "the symbol ends above 2^64-1";
    return number >= 29 && number - 29 < sizeof names / sizeof names[0] ? names[number - 29] : 0;
}

#ifdef __cplusplus
}
#endif

#endif
