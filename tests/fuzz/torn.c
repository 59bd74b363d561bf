/*
 * torn.c - symbol files cut short: `torn FILE...`. Each prefix of each file, from 0 bytes to the whole, ends at a page
 * without access, is checked, and is asked at 20 addresses, with all options and room for 64 frames, with code info
 * alone, and with nothing: every lookup ends in an answer or in a refusal from 1 to 15, judged by checks.h (so a
 * refusal leaves the list as it was). Without code info a prefix answers as the whole file does, or refuses with 2 or
 * 5; 9 to 15, for an item, it gives where the whole file does alone. A check finds in a prefix what it finds in the
 * whole file, or 2, 5 or 24 of no later entry: 2 exactly where a table is cut. A prefix passes exactly where the whole
 * file does and tables and lists are in it, each list up to the type 0 that ends it, whose length is not judged. Prints
 * how often each number came; a failed check aborts.
 */
#include "head.h"

enum { ADDRESSES = 20 };

static uint8_t whole[FILE_ROOM];
static uint64_t times[16], found[25], prefixes, lookups;

/* what is known of the whole file */
typedef struct whole_file {
    bytes f;
    gsym_finding finding;
    size_t tables, needed; /* the ends of the tables, and of all that a file that passes needs */
    uint64_t addresses[ADDRESSES];
    gsym_answer answers[ADDRESSES];
    uint32_t numbers[ADDRESSES]; /* with all options */
} whole_file;

static size_t later(size_t a, size_t b) { return a < b ? b : a; }

/* where the tables end, and where tables and lists do, each up to the type 0 that ends it */
static void measure(whole_file *w)
{
    bytes f = w->f;
    shape s = shape_of(f);
    w->tables = later(s.files + 4 + 8 * read_at(f, s.files, 4), read_at(f, 20, 4) + read_at(f, 24, 4));
    w->needed = w->tables;
    for (size_t i = 0; i < s.entries; i++) {
        item one = item_at(f, data_at(f, s, i) + 8);
        while (one.fits)
            one = item_at(f, one.next);
        w->needed = later(w->needed, one.start - 4);
    }
}

/* starts, middles, last bytes and ends of symbols spread over the table, and addresses no symbol is likely to have */
static void choose(bytes f, uint64_t *addresses)
{
    shape s = shape_of(f);
    addresses[0] = 0, addresses[1] = UINT64_MAX, addresses[2] = s.base - 1, addresses[3] = s.base;
    for (size_t i = 4; i < ADDRESSES; i++) {
        size_t entry = s.entries == 0 ? 0 : (i - 4) * s.entries / (ADDRESSES - 4);
        uint64_t start = s.base + entry_at(f, s, entry), size = read_at(f, data_at(f, s, entry), 4);
        uint64_t past[] = {size / 2, size - (size > 0), size / 3, size};
        addresses[i] = start + (i % 8 == 7 ? 0 : past[i % 4]);
    }
}

static void tear_check(const whole_file *w, bytes f)
{
    static uint64_t calls;
    gsym_finding all = w->finding, cut = check_whole(f, 1, &calls);
    found[cut.number]++;
    int same = cut.number == all.number && cut.entry == all.entry;
    HOLDS(same || cut.number == 2 || cut.number == 5 || cut.number == 24,
          "a prefix has the whole file's finding, or 2, 5 or 24");
    HOLDS(all.number == 0 || cut.number == 2 || cut.entry <= all.entry, "an entry that is told is no later one");
    if (all.number >= 2 && all.number <= 4)
        return;
    HOLDS((cut.number == 2) == (f.len < w->tables), "2 is given exactly where a table is cut");
    HOLDS((cut.number == 0) == (all.number == 0 && f.len >= w->needed),
          "a prefix passes exactly where the whole file does and tables and lists are in it");
}

static void tear(const whole_file *w, size_t len)
{
    bytes f = lend_file(w->f.at, len, 1);
    prefixes++;
    tear_check(w, f);
    for (int i = 0; i < ADDRESSES; i++) {
        looked all = look(f, w->addresses[i], ALL_OPTIONS, GSYM_MAX_FRAMES, 1);
        looked code = look(f, w->addresses[i], GSYM_CODE_INFO, 1, 1);
        looked plain = look(f, w->addresses[i], 0, 0, 1);
        times[all.a.number]++, times[code.a.number]++, times[plain.a.number]++;
        lookups += 3;
        gsym_answer a = plain.a, b = w->answers[i];
        HOLDS(a.number == 2 || a.number == 5 ||
                  (a.number == b.number && a.addr == b.addr && a.size == b.size && same_text(a.name, b.name)),
              "without code info a prefix answers as the whole file does, or 2 or 5");
        HOLDS(all.a.number < 9 || all.a.number == w->numbers[i], "9 to 15 are given in a prefix as in the whole file");
        HOLDS(all.a.number != 0 || (code.a.number == 0 && code.a.addr == all.a.addr && code.a.size == all.a.size),
              "a lookup succeeds without inlining where one with it does");
        HOLDS(code.a.number != 0 || (a.number == 0 && a.addr == code.a.addr && a.size == code.a.size),
              "a lookup succeeds without code info where one with it does");
    }
}

int main(int n, char **words)
{
    make_rooms();
    for (int k = 1; k < n; k++) {
        static uint64_t calls;
        FILE *in = fopen(words[k], "rb");
        size_t len = in == 0 ? 0 : fread(whole, 1, FILE_ROOM, in);
        if (in == 0 || fclose(in) != 0 || len == FILE_ROOM) {
            fprintf(stderr, "torn: can't read %s, or it is too long\n", words[k]);
            return 2;
        }
        static whole_file w;
        w.f = (bytes){whole, len};
        choose(w.f, w.addresses);
        measure(&w);
        bytes f = lend_file(whole, len, 1);
        w.finding = check_whole(f, 1, &calls);
        for (int i = 0; i < ADDRESSES; i++) {
            w.answers[i] = look(f, w.addresses[i], 0, 0, 1).a;
            w.numbers[i] = look(f, w.addresses[i], ALL_OPTIONS, GSYM_MAX_FRAMES, 1).a.number;
        }
        for (size_t cut = 0; cut <= len; cut++)
            tear(&w, cut);
    }
    printf("torn: %d files, %llu prefixes, %llu lookups, all well; times of each number:", n - 1,
           (unsigned long long)prefixes, (unsigned long long)lookups);
    for (uint32_t i = 0; i <= 15; i++)
        if (times[i] > 0)
            printf("%s %u: %llu", i == 0 ? "" : ",", i, (unsigned long long)times[i]);
    printf("; of checks");
    for (uint32_t i = 0; i <= 24; i++)
        if (found[i] > 0)
            printf("%s %u: %llu", i == 0 ? "" : ",", i, (unsigned long long)found[i]);
    printf("\n");
    return 0;
}
