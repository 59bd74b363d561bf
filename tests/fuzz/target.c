/*
 * target.c - the library under libFuzzer. An input is a head of 16 bytes, which chooses what is asked, and then the
 * bytes of a file. Each input is checked by gsym_check and asked by gsym_lookup, and its bytes, or those of an inline
 * item in it, as a block by gsym_block_frames; gsym_report has some addresses of it, a word is answered as text by
 * gsym_answer_text, and rows that are made of its bytes, and those of a file that passes, are written by gsym_write;
 * checks.h, report.h and write.h judge every answer. mutate.h changes inputs by what is known of the format.
 *
 * The head:
 *   0       how the address is chosen: raw, near the base, near an entry, inside a symbol, at a symbol's end, border
 *   1       options (low two bits), and which part is the block (the next two)
 *   2 to 3  which entry of the address table
 *   4 to 5  a distance
 *   6       room, modulo 81
 *   7       bit 0: file and list end at a page without access, else they begin at one
 *   8 to 15 a raw address; of the text its view (8, 9), its base (10, where bit 0 of 11 is set), and whether the word
 *           is the address in digits or the file's last bytes (bit 1 of 11), and how many of these (12); of the report
 *           how many addresses less than seven (13), which comes first (14), and how many zeros behind it (15); of the
 *           rows where in the file the bytes begin of which they are made, modulo its length
 */
#include "checks.h"
#include "head.h"
#include "mutate.h"
#include "report.h"
#include "write.h"

/* the bytes asked as a block: the file's, what follows its header, or an inline item's of the chosen entry */
static bytes block_of(const uint8_t *head, bytes file)
{
    shape s = shape_of(file);
    if ((head[1] >> 2 & 3) == 0 || file.len < HEADER)
        return file;
    if (s.entries > 0 && (head[1] >> 2 & 3) != 1) {
        size_t at = data_at(file, s, number_at(head + 2, 2) % s.entries) + 8;
        for (item i = item_at(file, at); i.fits; i = item_at(file, i.next))
            if (i.type == 2)
                return (bytes){file.at + i.start, i.next - i.start};
    }
    return (bytes){file.at + HEADER, file.len - HEADER};
}

/* the word that is answered as text: the address, base and all, in digits, or the last bytes of the file */
static bytes word_of(const uint8_t *head, bytes file, uint64_t addr, uint64_t base)
{
    static char digits[32];
    if ((head[11] & 2) == 0)
        return (bytes){(const uint8_t *)digits,
                       (size_t)snprintf(digits, sizeof digits, head[12] & 1 ? "0x%llX" : "%llx",
                                        (unsigned long long)(addr + base))};
    size_t len = head[12] < file.len ? head[12] : file.len;
    return (bytes){file.at + file.len - len, len};
}

static uint64_t calls, looks[16], lists[16], found[25], unchecked, reports, longer, wrote[35], rewrote;

/* A check reads a list once for each entry that names it. A file whose entries name more bytes than this, some fifteen
 * times what the longest input has, is not checked: one of 70,000 bytes can be made to take 0.3 seconds, and more under
 * counters. */
enum { MOST_NAMED = 1 << 20 };

/* said at the end: how many calls were judged, and how often the chosen one gave each number */
static void say_numbers(void)
{
    fprintf(stderr, "numbers: %llu calls; of lookups", (unsigned long long)calls);
    for (int i = 0; i < 16; i++)
        fprintf(stderr, "%s %d: %llu", i == 0 ? "" : ",", i, (unsigned long long)looks[i]);
    fprintf(stderr, "; of blocks 0: %llu", (unsigned long long)lists[0]);
    for (int i = 10; i < 16; i++)
        fprintf(stderr, ", %d: %llu", i, (unsigned long long)lists[i]);
    fprintf(stderr, "; of checks 0: %llu", (unsigned long long)found[0]);
    for (int i = 1; i < 25; i++)
        if (i < 7 ? i > 1 : i > 8 && (i < 14 || i == 15 || i > 19))
            fprintf(stderr, ", %d: %llu", i, (unsigned long long)found[i]);
    fprintf(stderr, ", unchecked: %llu", (unsigned long long)unchecked);
    fprintf(stderr, "; of reports that fit: %llu, longer: %llu", (unsigned long long)(reports - longer),
            (unsigned long long)longer);
    fprintf(stderr, "; of rows 0: %llu", (unsigned long long)wrote[0]);
    for (int i = 21; i < 35; i++)
        if (i < 23 || i > 28)
            fprintf(stderr, ", %d: %llu", i, (unsigned long long)wrote[i]);
    fprintf(stderr, "; files written anew: %llu\n", (unsigned long long)rewrote);
}

int LLVMFuzzerInitialize(int *n, char ***words);

int LLVMFuzzerInitialize(int *n, char ***words)
{
    (void)n, (void)words;
    make_rooms();
    make_row_rooms();
    return atexit(say_numbers);
}

int LLVMFuzzerTestOneInput(const uint8_t *data, size_t size);

int LLVMFuzzerTestOneInput(const uint8_t *data, size_t size)
{
    HOLDS(gsym_version() == GSYM_VERSION, "the library's version is the header's");
    if (size < HEAD || size - HEAD > FILE_ROOM)
        return 0;
    int at_end = data[7] & 1;
    size_t room = data[6] % (MOST_FRAMES + 1);
    bytes input = {data + HEAD, size - HEAD};
    uint64_t addr = address_of(data, input);

    bytes file = lend_file(input.at, input.len, at_end);
    passed = 0;
    if (named_bytes(file, MOST_NAMED) <= MOST_NAMED)
        found[check_whole(file, at_end, &calls).number]++;
    else
        unchecked++;
    int good = passed;
    looked l = look_all_ways(file, addr, data[1] & ALL_OPTIONS, room, at_end, &calls);
    static uint64_t addresses[MOST_ADDRESSES];
    size_t count = addresses_of(data, file, addresses);
    longer += report_all_ways(file, addresses, count, number_at(data + 4, 2), at_end, &calls) > LIST_ROOM;
    reports++;

    bytes part = block_of(data, input);
    bytes block = lend_file(part.at, part.len, at_end);
    uint64_t symbol = l.a.number == 0 ? l.a.addr : number_at(data + 8, 8);
    listed with = list_all_ways(block, symbol, addr, room, at_end, &calls);
    listed near = list_all_ways(block, 0, number_at(data + 4, 2), room, at_end, &calls);
    looks[l.a.number]++, lists[with.a.number]++, lists[near.a.number]++;

    uint64_t base = data[11] & 1 ? data[10] : 0;
    bytes again = lend_file(input.at, input.len, at_end);
    bytes word = word_of(data, input, addr, base);
    uint32_t view = (uint32_t)number_at(data + 8, 2);
    tell_all_ways(again, view, base, word, number_at(data + 4, 2) % LIST_ROOM, at_end, &calls);
    check_words((bytes){input.at, input.len < 512 ? input.len : 512}, &calls);

    size_t from = input.len == 0 ? 0 : number_at(data + 8, 8) % input.len;
    rows made = rows_of_input((bytes){input.at + from, input.len - from});
    wrote[write_all_ways(&made, number_at(data + 4, 2), at_end, &calls).number]++;
    rewrote += good && rewrite(input, addr, number_at(data + 4, 2), at_end, &calls);
    return 0;
}
