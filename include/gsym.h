/*
 * gsym.h - what a GSYM symbol file says of an address: the function, its source position, the inlined calls; as
 * records, or as the text that a tool prints. And the check of a whole file.
 * Version 0.2.0 of 2026-11-26, for x86-64 Linux, C11 or C++11. gsym(3) has an example; examples/handler.c is one for a
 * crash handler.
 *
 * Link with libgsym.a (`make`) or with the shared library (`pkg-config gsym`). The library has no state, takes no heap,
 * opens no file and never writes to the file's bytes. Every call ends, on any bytes, any address and any options. The
 * file and the texts may start at any address. What each call answers and what it leaves in lent memory is proved, not
 * only tested: docs/PROMISES.md says how, docs/RULES.md says in words what is answered. The three functions whose
 * bodies stand in this header are tested and not proved.
 *
 * What is asked of the caller, all of it:
 *   - `file` has `file_len` readable bytes, which nobody writes and nobody takes away while a call reads them; so have
 *     `block`, `word` and `bytes` theirs. A mapped file that somebody shortens meanwhile kills the process (SIGBUS):
 *     map a copy, or a file that nobody changes.
 *   - `frames` has room for `frames_len` records, may be written, is aligned as the record's type asks for, doesn't
 *     overlap the file's bytes, and belongs to one call at a time.
 *   - `room` has `room_len` bytes, may be written, doesn't overlap the bytes that the call reads, and belongs to one
 *     call at a time.
 *   - A pointer may be null where its length is 0. No file, text or list has 2^63 bytes.
 *   - There is enough stack: below.
 * All else gets an answer, a refusal or a finding. Calls may run at the same time on as many threads as one likes, over
 * the same file too, each with a list of its own.
 *
 * Signal handlers: the calls are async-signal-safe. They take no lock, keep no state and touch no errno; all that the
 * library takes from elsewhere is memset, which POSIX counts among the safe functions. Link the program with
 * -Wl,-z,now, as libgsym.so is linked: else the first call of a function, also of memset, may run the dynamic linker,
 * which takes stack of its own and may take a lock. gsym_check is safe too, and is not for a handler all the same: a
 * file that was made to be slow keeps it long.
 *
 * Stack: a call needs GSYM_STACK bytes. A handler's own stack (sigaltstack) needs
 *     GSYM_STACK + sysconf(_SC_MINSIGSTKSZ) + what the handler's own frames and callees take
 * of which the second is what the system puts there for the signal (the constant MINSIGSTKSZ is too little on a
 * processor with wide registers). gsym_lookup takes less than 16,384 bytes, gsym_block_frames and gsym_check each less
 * than 12,288, gsym_answer_text, which has the records of 64 frames on its stack, less than 24,576, and the others less
 * than 2,048: measured on trees of 64 levels and on refused ones of 65 (tests/c measures anew, and fails above).
 * GSYM_STACK leaves a margin of 8,192 above all of them.
 *
 * Layout: records and answers get fields as the format gets them. What they look like in memory has a number,
 * GSYM_LAYOUT, and each call that takes or hands back one of them stands in the library under a name with that number:
 * the plain name is a macro for it. So an object that was compiled with the header of another layout doesn't link, or
 * isn't loaded, and never overwrites memory. What holds:
 *   - a change of a struct, of its order or of a call's arguments raises GSYM_LAYOUT, and with it the name of the
 *     shared library (libgsym.so.0.2 is layout 2): recompile;
 *   - within a layout calls, option bits and numbers of refusals and findings may be added, and nothing is taken away;
 *   - gsym_version has no layout: it can be asked of any library. Neither have gsym_shown_text and gsym_refusal_text,
 *     which take and hand back no struct.
 *
 * There are no unwind tables (.eh_frame): a debugger or a profiler that stops inside a call sees no caller beyond it,
 * and an exception can't be thrown through one. None is: the calls call nothing of yours.
 */
#ifndef GSYM_H
#define GSYM_H

#include <stddef.h>
#include <stdint.h>

#define GSYM_VERSION_MAJOR 0
#define GSYM_VERSION_MINOR 2
#define GSYM_VERSION_PATCH 0
#define GSYM_VERSION (GSYM_VERSION_MAJOR * 10000 + GSYM_VERSION_MINOR * 100 + GSYM_VERSION_PATCH)

/* How records and answers lie in memory, and the names that carry it (above). */
#define GSYM_LAYOUT 2
#define gsym_lookup gsym_lookup_2
#define gsym_block_frames gsym_block_frames_2
#define gsym_check gsym_check_2
#define gsym_answer_text gsym_answer_text_2
#define gsym_next_word gsym_next_word_2
#define gsym_address_of gsym_address_of_2

/* The stack that a call needs, with a margin. */
#define GSYM_STACK 32768

/* The most frames that a block may have; a longer list is never used further. */
#define GSYM_MAX_FRAMES 64

#ifdef __cplusplus
#define GSYM_ASSERT(what, why) static_assert(what, why)
extern "C" {
#else
#define GSYM_ASSERT(what, why) _Static_assert(what, why)
#endif

/* ---- refusal numbers; 0 is an answer. A later library may have more: any other number is a refusal ---- */
enum {
    GSYM_FOUND = 0,
    GSYM_UNKNOWN_ADDRESS = 1,       /* no symbol covers the address */
    GSYM_TOO_FEW_BYTES = 2,         /* the file ends inside its header or a table */
    GSYM_WRONG_MAGIC = 3,           /* not a GSYM file, or one of the other byte order */
    GSYM_WRONG_VERSION = 4,         /* a version other than 1 */
    GSYM_UNREAD_INFO = 5,           /* the symbol's information doesn't read */
    GSYM_UNREAD_NAME = 6,           /* the name of the symbol or of an inlined call doesn't read, or is not UTF-8 */
    GSYM_UNKNOWN_FILE = 7,          /* a file index that is not below the file count */
    GSYM_UNREAD_PATH = 8,           /* a directory or a file name doesn't read */
    GSYM_UNREAD_LINE_HEADER = 9,    /* the header of a line table doesn't read: it is cut short */
    GSYM_UNREAD_INLINE = 10,        /* an inline block doesn't read: it is cut short */
    GSYM_INLINE_SUM_TOO_LARGE = 11, /* an inline range starts or ends above 2^64-1 */
    GSYM_CALL_FILE_TOO_LARGE = 12,  /* a call file above 4,294,967,295 */
    GSYM_TOO_DEEP = 13,             /* inlined calls on more than 64 levels */
    GSYM_TOO_MANY_FRAMES = 14,      /* more frames than there is room for */
    GSYM_TOO_WIDE = 15              /* a number wider than 64 bits: from a broken producer, not a torn file */
};

/* ---- what a check finds beside refusal numbers. A later library may have more: any number but 0 is a finding ---- */
enum {
    GSYM_OFFSET_SIZE = 20,     /* an offset size other than 1, 2, 4 and 8 */
    GSYM_FALLING_TABLE = 21,   /* the address table falls here */
    GSYM_SUM_TOO_LARGE = 22,   /* the symbol ends above 2^64-1 */
    GSYM_STOPPED_PROGRAM = 23, /* a line program is stopped */
    GSYM_OPEN_LIST = 24        /* the address data list doesn't end in type 0 */
};

/* ---- what is asked for: bits of `options`. The others are reserved: they refuse nothing, and promise nothing ---- */
#define GSYM_CODE_INFO 1u /* directory, file and line: of the address; with GSYM_INLINING too, of the symbol itself */
#define GSYM_INLINING 2u  /* the calls inlined at the address; only together with GSYM_CODE_INFO */

/* A string, as its place from the file's start and its length, in bytes; there is no zero byte in it. */
typedef struct gsym_text {
    uint64_t place;
    uint64_t len;
} gsym_text;

/* What a lookup answers. number 0: the symbol; else a refusal's number, and every other field is 0. */
typedef struct gsym_answer {
    uint32_t number;
    uint32_t has_code; /* 1: dir, file and line are there; 0: they are 0 */
    uint64_t addr;     /* where the symbol starts; never above the address asked for */
    uint32_t size;     /* 0: unknown, the symbol covers everything from its start on */
    uint32_t line;
    gsym_text name; /* UTF-8 */
    gsym_text dir;  /* any bytes */
    gsym_text file; /* any bytes */
    uint64_t count; /* records written */
} gsym_answer;

/* A record of gsym_lookup: a call inlined into the symbol, and the position that execution had reached in it. */
typedef struct gsym_frame {
    gsym_text name; /* UTF-8 */
    gsym_text dir;
    gsym_text file;
    uint32_t line;
} gsym_frame;

/* A record of gsym_block_frames: a name as offset in the string table, and where it was called. */
typedef struct gsym_inline_frame {
    uint32_t name;
    uint32_t call_file;
    uint32_t call_line;
} gsym_inline_frame;

/* What gsym_block_frames answers: number 0 and how many records were written, or a refusal's number and 0. */
typedef struct gsym_listed {
    uint64_t count;
    uint32_t number;
} gsym_listed;

/* What gsym_check answers. number 0: the file passes; else what was found first. */
typedef struct gsym_finding {
    uint32_t number;
    uint32_t entry; /* of 5, 6, 9 to 13, 15, 21 to 24: the lowest faulty entry, from 0 on; else 0, which says nothing */
} gsym_finding;

GSYM_ASSERT(sizeof(size_t) == 8, "a host with 64-bit sizes");
GSYM_ASSERT(sizeof(gsym_text) == 16, "gsym_text");
GSYM_ASSERT(sizeof(gsym_frame) == 56 && offsetof(gsym_frame, line) == 48, "gsym_frame");
GSYM_ASSERT(sizeof(gsym_inline_frame) == 12 && offsetof(gsym_inline_frame, call_line) == 8, "gsym_inline_frame");
GSYM_ASSERT(sizeof(gsym_listed) == 16 && offsetof(gsym_listed, number) == 8, "gsym_listed");
GSYM_ASSERT(sizeof(gsym_finding) == 8 && offsetof(gsym_finding, entry) == 4, "gsym_finding");
GSYM_ASSERT(sizeof(gsym_answer) == 80 && offsetof(gsym_answer, addr) == 8 && offsetof(gsym_answer, line) == 20 &&
                offsetof(gsym_answer, name) == 24 && offsetof(gsym_answer, count) == 72,
            "gsym_answer");

/*
 * The symbol of an address, with all that `options` ask for.
 *   file, file_len        the bytes of the symbol file
 *   addr                  the address, as the file counts them
 *   options               GSYM_CODE_INFO, GSYM_INLINING, both or 0; other bits are reserved, leave them 0
 *   frames, frames_len    a lent list of records; room is the smaller of 64 and frames_len, and counts all frames of
 *                         the symbol's inline block, one more than there will be records
 * With inlining, frames[0] is the outermost call inlined into the symbol, frames[count - 1] the innermost; the symbol's
 * own position is where it calls frames[0]. Without GSYM_INLINING directory, file and line are those of the address
 * itself, which may lie in an inlined callee, and `name` is the symbol's all the same. Written are exactly the first
 * `count` records. A refusal writes none, nor does a lookup without both options, and what is past `count` stays.
 * Refusals: 1 to 15, the first met in the file's order. Without GSYM_CODE_INFO only 1 to 6 are, without GSYM_INLINING
 * only 1 to 9 and 15. With 9 and 10 the bytes of a header or of a block end too early. 15 comes of no cut: the program
 * that wrote the file is at fault, or what changed its bytes since.
 * Where several symbols stand at one address, as a linker that folds equal functions leaves them, the first of them in
 * the file answers, at that address and past it, and it alone: where it doesn't cover the address, that is unknown (1),
 * even if a later one would (docs/RULES.md, "Finding the entry"). The time to find it is the logarithm of the number of
 * symbols, and one step for each that stands at the same address.
 */
gsym_answer gsym_lookup(const uint8_t *file, size_t file_len, uint64_t addr, uint32_t options, gsym_frame *frames,
                        size_t frames_len);

/*
 * The frames of a single inline block, for the symbol that it belongs to.
 *   block, block_len      the block's bytes
 *   symbol, addr          the symbol's address, and the one asked for
 *   frames, frames_len    a lent list of records; room is the smaller of 64 and frames_len
 * Written are the named nodes that contain the address and whose ancestors all contain it, each once, parents first, in
 * the file's order. A refusal (10 to 15) writes none, and what is past `count` stays.
 */
gsym_listed gsym_block_frames(const uint8_t *block, size_t block_len, uint64_t symbol, uint64_t addr,
                              gsym_inline_frame *frames, size_t frames_len);

/*
 * The check of a whole file, before it is shipped: docs/RULES.md, "Checking a file".
 *   file, file_len        the bytes of the symbol file
 * It passes (0) exactly if it opens; its offset size is 1, 2, 4 or 8; its address table never falls; no symbol ends
 * above 2^64-1; and of each entry the information and the name read, the address data list ends in type 0, and each
 * line table and each inline tree in it reads in full, also where a lookup would pass it over. Findings:
 *   2, 3, 4, 20                     of the tables; entry is 0
 *   5, 6, 9 to 13, 15, 21 to 24     of the lowest faulty entry, its first fault
 * In a file that passes a lookup without GSYM_CODE_INFO is answered, or refused with 1, at any address; one with it may
 * also be refused with 7 and 8, and with GSYM_INLINING too with 6 and 14: the file indexes, the strings of the file
 * table and the names of inlined calls are not judged, nor how many frames there are. Neither are items of other types
 * judged, what follows the end of a list, a program or a tree, and what no entry names.
 * The time is linear in the bytes that the entries name: a kernel's file of 20 MiB took 40 ms (bench/README.md). But
 * entries may share a name or a list, and it is read for each: in a file that was made to be slow every entry names one
 * nearly as long as the file, and the time grows with the number of entries times the file's length. So a file of which
 * nothing is known is checked where that does no harm, and not in a signal handler.
 */
gsym_finding gsym_check(const uint8_t *file, size_t file_len);

/* ---- texts: what a tool prints of an address, docs/RULES.md, "What the tools print" ----
 *
 * gsym_answer_text, gsym_shown_text and gsym_refusal_text write a text into lent bytes, `room`: its front, as far as it
 * fits. What is past it in the room stays, no zero byte ends it, and the call says how many bytes the whole text has.
 * Where these are not more than room_len the text is there; else lend as many and call again, which costs the call once
 * more: 4,096 bytes hold most answers. A room of 0 bytes asks for the length alone.
 *
 * In none of these texts is a byte that steers a terminal, but newlines between lines: control bytes, C1 controls and
 * marks of direction that stand in a file or in a word are written as a question mark, and escaped in JSON.
 */

/* How an answer is printed: bits of `view`. The others are reserved: they do nothing, and promise nothing. */
#define GSYM_VIEW_ADDRESSES 1u          /* the address first */
#define GSYM_VIEW_FUNCTIONS 2u          /* function names */
#define GSYM_VIEW_INLINES 4u            /* all frames, from the innermost outwards, and not the innermost alone */
#define GSYM_VIEW_PRETTY 8u             /* one line a frame */
#define GSYM_VIEW_BASE_NAMES 16u        /* files without their directories */
#define GSYM_VIEW_REFUSALS 32u          /* a refusal's number and name in place of ?? */
#define GSYM_VIEW_JSON 64u              /* one JSON object a line, with all of this: the six bits above do nothing */
#define GSYM_VIEW_RETURN_ADDRESSES 128u /* looked up is the address before, and shown the one that was given */

/* The number of a word that is no address. No refusal has it, in this library or in a later one. */
#define GSYM_NO_ADDRESS 255

/* What gsym_answer_text answers. */
typedef struct gsym_printed {
    uint64_t len;    /* how many bytes the whole text has, whether or not they fit */
    uint32_t number; /* 0: the address is known; GSYM_NO_ADDRESS: the word is none; else a refusal's number */
} gsym_printed;

/* What gsym_address_of answers. */
typedef struct gsym_number {
    uint64_t value;     /* the address; 0 where there is none */
    uint32_t is_number; /* 1: the word is an address; 0: it is none */
} gsym_number;

GSYM_ASSERT(sizeof(gsym_printed) == 16 && offsetof(gsym_printed, number) == 8, "gsym_printed");
GSYM_ASSERT(sizeof(gsym_number) == 16 && offsetof(gsym_number, is_number) == 8, "gsym_number");

/*
 * The answer to one word of a user, as text that ends in a newline: what gsym-addr2line(1) prints of it.
 *   file, file_len        the bytes of the symbol file
 *   view                  GSYM_VIEW_*, or 0: the position alone
 *   base                  where the program was loaded, subtracted from the address first; 0: nothing is
 *   word, word_len        the word, any bytes, an address or not; all of it is read, white space is not skipped
 *   room, room_len        the lent bytes
 * Looked up is with room for 64 frames, and without inlining where neither functions nor inlined calls nor JSON are
 * asked for: a block that doesn't read refuses no position alone. An address below the base is refused with 1.
 */
gsym_printed gsym_answer_text(const uint8_t *file, size_t file_len, uint32_t view, uint64_t base, const uint8_t *word,
                              size_t word_len, uint8_t *room, size_t room_len);

/* Any bytes (the name of a file, a word) as they may be shown on a terminal, and how many bytes that are: no newline is
 * among them. */
uint64_t gsym_shown_text(const uint8_t *bytes, size_t len, uint8_t *room, size_t room_len);

/* A refusal in words, as gsym_refusal_name has it, and how many bytes these are: 0 where no refusal has the number. */
uint64_t gsym_refusal_text(uint32_t number, uint8_t *room, size_t room_len);

/*
 * The first word of some bytes, by its place in them and its length: a length of 0 where there is no word. Blank, tab,
 * carriage return and newline part words, and no other byte does, not even a zero byte. The next word is the first of
 * the bytes from place + len on.
 */
gsym_text gsym_next_word(const uint8_t *bytes, size_t len);

/* The address that a word is, as gsym_answer_text reads it: hexadecimal, in small or capital digits, with or without 0x
 * or 0X, of at most 64 bits. */
gsym_number gsym_address_of(const uint8_t *word, size_t word_len);

/* The version of the library that is linked: compare with GSYM_VERSION. */
uint32_t gsym_version(void);

/* A string where it stands: never a null pointer, without a zero byte at its end. */
typedef struct gsym_part {
    const char *at;
    size_t len;
} gsym_part;

/*
 * The bytes of a string of the file, no copy: printf("%.*s", (int)part.len, part.at). An empty part, at an empty string
 * of this header's, where place and length don't fit the file.
 */
static inline gsym_part gsym_text_at(const uint8_t *file, size_t file_len, gsym_text text)
{
    gsym_part part = {"", 0};
    if (file != 0 && text.place <= file_len && text.len <= file_len - text.place) {
        part.at = (const char *)file + text.place;
        part.len = (size_t)text.len;
    }
    return part;
}

/* A refusal in words; a null pointer above 15. */
static inline const char *gsym_refusal_name(uint32_t number)
{
    static const char *const names[] = {
        "found",
        "no symbol covers the address",
        "the file ends inside its header or a table",
        "not a GSYM file, or one of the other byte order",
        "a version other than 1",
        "the symbol's information doesn't read",
        "the name of the symbol or of an inlined call doesn't read, or is not UTF-8",
        "a file index that is not below the file count",
        "a directory or a file name doesn't read",
        "the header of a line table doesn't read: it is cut short",
        "an inline block doesn't read: it is cut short",
        "an inline range starts or ends above 2^64-1",
        "a call file above 4,294,967,295",
        "inlined calls on more than 64 levels",
        "more frames than there is room for",
        "a number wider than 64 bits: from a broken producer, not a torn file",
    };
    return number < sizeof names / sizeof names[0] ? names[number] : 0;
}

/* What a check found, in words; a null pointer for a number that no check of this header gives (1, 7, 8 and 14 among
 * them): test it before it is printed, since a later library may find others. */
static inline const char *gsym_finding_name(uint32_t number)
{
    static const char *const names[] = {
        "an offset size other than 1, 2, 4 and 8",
        "the address table falls here",
        "the symbol ends above 2^64-1",
        "a line program is stopped",
        "the address data list doesn't end in type 0",
    };
    if (number == 0)
        return "passed";
    if ((number >= 2 && number <= 6) || (number >= 9 && number <= 13) || number == 15)
        return gsym_refusal_name(number);
    return number >= 20 && number - 20 < sizeof names / sizeof names[0] ? names[number - 20] : 0;
}

#ifdef __cplusplus
}
#endif

#endif
