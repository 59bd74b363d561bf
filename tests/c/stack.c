/*
 * stack.c - how much stack a call takes: a thread runs it on a stack that was painted before, and what is no longer
 * painted was used. gsym_answer_text is called for each form of text. The blocks have 64 levels, and 65, which is
 * refused; of these the first so many are open and the others are passed over, for each number. Prints the largest use
 * of each function, and at how many levels; the exit status is 1 where one is not below what include/gsym.h says.
 * `stack LEVELS FILE` writes a symbol file whose block has so many levels, all open, at 0x1005; `stack LEVELS FILE
 * BASE` one that counts from BASE on (and not 0x1000), whose files have an empty directory.
 */
#ifndef _DEFAULT_SOURCE
#define _DEFAULT_SOURCE
#endif
#include <pthread.h>
#include <stdio.h>
#include <stdlib.h>
#include <sys/mman.h>

#include "gsym.h"
#include "made.h"

enum { STACK = 1 << 20, PAINT = 0xa5 };

/* what include/gsym.h says of gsym_lookup, gsym_block_frames, gsym_answer_text, gsym_check and the others */
static const size_t said[5] = {16384, 12288, 24576, 12288, 2048};
enum { LOOKUP, FRAMES, TEXT, CHECK, OTHERS };
/* and by how much GSYM_STACK is more than the largest */
enum { MARGIN = 8192 };

static made file, block;
static gsym_frame records[GSYM_MAX_FRAMES];
static gsym_inline_frame frames[GSYM_MAX_FRAMES];
static int which;
static const uint32_t views[] = {GSYM_VIEW_FUNCTIONS | GSYM_VIEW_INLINES | GSYM_VIEW_REFUSALS,
                                 GSYM_VIEW_ADDRESSES | GSYM_VIEW_INLINES | GSYM_VIEW_PRETTY | GSYM_VIEW_BASE_NAMES,
                                 GSYM_VIEW_JSON};
enum { VIEWS = sizeof views / sizeof views[0] };
static uint32_t view;
static uint64_t count;
static uint32_t number;
static uint8_t *top;

static void call(void)
{
    if (which == LOOKUP) {
        uint32_t options = GSYM_CODE_INFO | GSYM_INLINING;
        gsym_answer a = gsym_lookup(file.at, file.len, 0x1005, options, records, GSYM_MAX_FRAMES);
        count = a.count, number = a.number;
    } else if (which == TEXT) {
        static const uint8_t word[] = "1005";
        static uint8_t room[65536];
        number = gsym_answer_text(file.at, file.len, view, 0, word, 4, room, sizeof room).number;
    } else if (which == CHECK) {
        gsym_finding f = gsym_check(file.at, file.len);
        count = f.entry, number = f.number;
    } else if (which == OTHERS) {
        static const uint8_t text[] = "ab\x1b\xc2\x85\xe2\x80\xae\xe2\x80\xf0\x9f\x98\x80 \xff";
        static uint8_t room[64];
        const char *name = gsym_refusal_name(GSYM_UNKNOWN_ADDRESS);
        number = gsym_refusal_text(GSYM_UNKNOWN_ADDRESS, room, sizeof room) != strlen(name) ||
                 gsym_shown_text(text, sizeof text, room, sizeof room) != 14 ||
                 gsym_next_word(text, sizeof text).len != 14 || gsym_address_of(text, 2).value != 0xab ||
                 gsym_version() != GSYM_VERSION;
    } else {
        gsym_listed l = gsym_block_frames(block.at, block.len, 0x1000, 0x1005, frames, GSYM_MAX_FRAMES);
        count = l.count, number = l.number;
    }
}

static void *run(void *unused)
{
    uint8_t here;
    top = &here;
    call();
    return unused;
}

static void stop(const char *why)
{
    printf("stack.c: %s\n", why);
    exit(2);
}

static size_t used(void)
{
    pthread_attr_t attributes;
    pthread_t thread;
    size_t low = 0;
    uint8_t *stack = (uint8_t *)mmap(0, STACK, PROT_READ | PROT_WRITE, MAP_PRIVATE | MAP_ANONYMOUS, -1, 0);
    if (stack == (uint8_t *)MAP_FAILED)
        stop("no memory");
    memset(stack, PAINT, STACK);
    call(); /* what is bound at a first call is bound now */
    if (pthread_attr_init(&attributes) != 0 || pthread_attr_setstack(&attributes, stack, STACK) != 0 ||
        pthread_create(&thread, &attributes, run, 0) != 0 || pthread_join(thread, 0) != 0)
        stop("no thread");
    while (stack[low] == PAINT)
        low++;
    pthread_attr_destroy(&attributes);
    size_t bytes = (size_t)(top - (stack + low));
    munmap(stack, STACK);
    return bytes;
}

static int write_file(int levels, const char *name, const char *base)
{
    FILE *out = fopen(name, "wb");
    put_levels(&block, levels, levels, S_MID);
    places p = put_file(&file, made_lines, sizeof made_lines, block.at, block.len);
    if (base != 0) {
        put_over(&file, 8, strtoull(base, 0, 16), 8);
        put_over(&file, p.files + 8, 0, 4);
    }
    return out == 0 || fwrite(file.at, 1, file.len, out) != file.len || fclose(out) != 0;
}

int main(int argc, char **argv)
{
    if (argc >= 3)
        return write_file(atoi(argv[1]), argv[2], argc > 3 ? argv[3] : 0);
    which = OTHERS;
    size_t most[5] = {0, 0, 0, 0, used()};
    int at[4] = {0, 0, 0, 0};
    if (number != 0) {
        printf("stack.c: a text has another length\n");
        return 1;
    }
    for (int levels = 64; levels <= 65; levels++)
        for (int open = 0; open <= levels; open++) {
            block.len = 0;
            put_levels(&block, levels, open, S_MID);
            put_file(&file, made_lines, sizeof made_lines, block.at, block.len);
            for (int k = 0; k < 3 + VIEWS; k++) {
                which = k < VIEWS ? TEXT : k == VIEWS ? LOOKUP : k == VIEWS + 1 ? FRAMES : CHECK;
                view = k < VIEWS ? views[k] : 0;
                size_t bytes = used();
                if (most[which] < bytes)
                    most[which] = bytes, at[which] = levels;
                uint64_t want = (uint64_t)(levels > 64 || which == CHECK  ? 0
                                           : which == LOOKUP && open > 0 ? open - 1
                                                                         : open);
                if (number != (levels > 64 ? GSYM_TOO_DEEP : GSYM_FOUND) || (which != TEXT && count != want)) {
                    printf("stack.c: %d of %d levels open gave %d, and %d records or entry %d\n", open, levels,
                           (int)number, (int)count, (int)count);
                    return 1;
                }
            }
        }
    printf("stack: gsym_lookup %zu bytes (%d levels), gsym_block_frames %zu (%d), gsym_answer_text %zu (%d), "
           "gsym_check %zu (%d), others %zu, GSYM_STACK %d\n",
           most[LOOKUP], at[LOOKUP], most[FRAMES], at[FRAMES], most[TEXT], at[TEXT], most[CHECK], at[CHECK],
           most[OTHERS], GSYM_STACK);
    for (int k = 0; k < 5; k++)
        if (most[k] >= said[k] || GSYM_STACK < said[k] + MARGIN)
            return 1;
    return 0;
}
