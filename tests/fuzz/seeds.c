/*
 * seeds.c - the first inputs of the fuzzing target: `seeds FOLDER FILE...`. Of each symbol file: lookups inside symbols
 * spread over its table, at their starts and past their ends, with room for all and for few frames, the inline items of
 * these symbols as blocks of their own, and its first bytes alone. A large file gives fewer inputs than a small one,
 * and a small one some in which an entry of its address table is the same as the one before it, some in which an
 * entry's line table or inline tree has a number that is too wide, or cut before its tenth byte, and one whose strings
 * have control bytes. Besides inputs of random bytes, of which rows are made.
 */
#include "head.h"

static uint8_t input[HEAD + FILE_ROOM];
static const char *folder;
static unsigned made;

static void write_seed(size_t len)
{
    char name[4096];
    snprintf(name, sizeof name, "%s/%04u", folder, made++);
    FILE *out = fopen(name, "wb");
    if (out == 0 || fwrite(input, 1, HEAD + len, out) != HEAD + len || fclose(out) != 0) {
        fprintf(stderr, "seeds: can't write %s\n", name);
        exit(2);
    }
}

static void set_head(int kind, int options, size_t entry, unsigned distance, int room, int at_end, uint64_t raw)
{
    memset(input, 0, HEAD);
    input[0] = (uint8_t)kind, input[1] = (uint8_t)options, input[6] = (uint8_t)room, input[7] = (uint8_t)at_end;
    input[2] = (uint8_t)entry, input[3] = (uint8_t)(entry >> 8);
    input[4] = (uint8_t)distance, input[5] = (uint8_t)(distance >> 8);
    for (int i = 0; i < 8; i++)
        input[8 + i] = (uint8_t)(raw >> (8 * i));
}

/* the inline items of an entry, each as a block at an address inside it */
static void block_seeds(bytes f, shape s, size_t entry)
{
    static uint8_t kept[FILE_ROOM];
    for (item i = item_at(f, data_at(f, s, entry) + 8); i.fits; i = item_at(f, i.next)) {
        size_t len = i.next - i.start;
        if (i.type != 2 || len == 0)
            continue;
        memcpy(kept, f.at, f.len);
        memmove(input + HEAD, f.at + i.start, len);
        uint64_t start = s.base + read_at((bytes){kept, f.len}, HEADER + entry * s.width, (int)s.width);
        set_head(0, 3, 0, 5, 80, 1, start);
        write_seed(len);
        memcpy(input + HEAD, kept, f.len);
    }
}

/* an entry as the one before it, and lookups at both, past them and where the first of them ends */
static void twin_seeds(bytes f, shape s, size_t entry)
{
    uint8_t kept[8], *at = input + HEAD + HEADER + entry * s.width;
    memcpy(kept, at, s.width);
    memcpy(at, at - s.width, s.width);
    for (int options = 0; options <= 3; options += 3) {
        set_head(4, options, entry, 0, 80, 1, 0);
        write_seed(f.len);
        set_head(4, options, entry, 1, 80, 1, 0);
        write_seed(f.len);
        set_head(6, options, entry - 1, 0, 80, 1, 0);
        write_seed(f.len);
        set_head(6, options, entry, 255, 80, 1, 0); /* one below the end of the second */
        write_seed(f.len);
    }
    memcpy(at, kept, s.width);
}

/* an entry whose list, behind the file's end, has one item with a number of ten bytes that is too wide, or of nine that
 * are cut: asked with all options and with code info alone, and the item as a block */
static void wide_seeds(bytes f, shape s, size_t entry)
{
    static const struct {
        uint8_t kind, len, front[10];
    } items[] = {{1, 0, {0}},
                 {1, 2, {0, 0}},
                 {2, 0, {0}},
                 {2, 1, {1}},
                 {2, 9, {1, 0, 32, 0, 1, 0, 0, 0, 1}},
                 {2, 10, {1, 0, 32, 1, 0, 0, 0, 0, 1, 1}}};
    static uint8_t kept[FILE_ROOM];
    uint64_t start = s.base + entry_at(f, s, entry), size = 16, name = read_at(f, data_at(f, s, entry) + 4, 4);
    memcpy(kept, f.at, f.len);
    for (size_t k = 0; k < 2 * sizeof items / sizeof items[0]; k++) {
        uint8_t front = items[k / 2].len, len = (uint8_t)(front + 9 + k % 2), *at = input + HEAD + f.len;
        uint64_t numbers[] = {size, name, items[k / 2].kind, len};
        for (int i = 0; i < 16; i++)
            at[i] = (uint8_t)(numbers[i / 4] >> (8 * (i % 4)));
        memcpy(at + 16, items[k / 2].front, front);
        memset(at + 16 + front, 0x80, len - front);
        memset(at + 16 + len, 0, 8);
        for (int i = 0; i < 4; i++)
            input[HEAD + s.offsets + 4 * entry + (size_t)i] = (uint8_t)(f.len >> (8 * i));
        for (int options = 1; options <= 3; options += 2) {
            set_head(4, options, entry, 3, 80, 1, 0);
            write_seed(f.len + 16 + len + 8);
        }
        memmove(input + HEAD, at + 16, len);
        set_head(0, 3, 0, 3, 80, 1, start);
        write_seed(len);
        memcpy(input + HEAD, kept, f.len);
    }
}

/* control bytes and a C1 control in every string of six bytes or more, behind its first one */
static void control_seed(bytes f)
{
    static const char put[] = "\x7f\n\xc2\x9b\x1f";
    static uint8_t kept[FILE_ROOM];
    uint64_t table = read_at(f, 20, 4), end = table + read_at(f, 24, 4);
    memcpy(kept, f.at, f.len);
    for (uint64_t at = table; at < end && end <= f.len;) {
        const uint8_t *text = input + HEAD + at, *zero = memchr(text, 0, (size_t)(end - at));
        size_t len = zero == 0 ? (size_t)(end - at) : (size_t)(zero - text);
        if (len >= sizeof put)
            memcpy(input + HEAD + at + 1, put, sizeof put - 1);
        at += len + 1;
    }
    set_head(5, 3, 0, 1, 80, 1, 0);
    write_seed(f.len);
    memcpy(input + HEAD, kept, f.len);
}

/* bytes of which rows are made, from their start on */
static void row_seeds(void)
{
    uint64_t dice = 0x2545f4914f6cdd1d;
    for (int k = 0; k < 96; k++) {
        size_t len = 60 + 6 * (size_t)k;
        set_head(0, 0, 0, (unsigned)k * 997, 80, k % 2, 0);
        for (size_t i = 0; i < len; i++) {
            dice ^= dice << 13, dice ^= dice >> 7, dice ^= dice << 17;
            input[HEAD + i] = (uint8_t)(dice >> 24);
        }
        /* at times the first address is near the highest */
        if (k % 4 == 0)
            input[HEAD] = 0;
        write_seed(len);
    }
}

int main(int n, char **words)
{
    if (n < 3) {
        fprintf(stderr, "usage: seeds FOLDER FILE...\n");
        return 2;
    }
    folder = words[1];
    row_seeds();
    for (int w = 2; w < n; w++) {
        FILE *in = fopen(words[w], "rb");
        size_t len = in == 0 ? 0 : fread(input + HEAD, 1, FILE_ROOM, in);
        if (in == 0 || fclose(in) != 0) {
            fprintf(stderr, "seeds: can't read %s\n", words[w]);
            return 2;
        }
        bytes f = {input + HEAD, len};
        shape s = shape_of(f);
        size_t wanted = len > 20000 ? 4 : len > 4000 ? 8 : 13, step = s.entries > wanted ? s.entries / wanted : 1;
        for (size_t i = 0; i < s.entries; i += step) {
            set_head(5, 3, i, 9 + (unsigned)i * 7, 80, 1, 0);
            write_seed(len);
            if (len < 4000) {
                set_head(3, 3, i, 4, 2, 0, 0);
                write_seed(len);
                set_head(6, 1, i, 0, 80, 1, 0);
                write_seed(len);
            }
            if (len < 4000 && i > 0)
                twin_seeds(f, s, i);
            if (len < 4000 && i == 0) {
                wide_seeds(f, s, i);
                control_seed(f);
            }
            block_seeds(f, s, i);
        }
        set_head(0, 0, 0, 0, 0, 1, s.base);
        write_seed(len);
        static const size_t cuts[] = {0, 3, 5, 6, 47, 60};
        for (size_t i = 0; i < sizeof cuts / sizeof cuts[0] && w == 2; i++)
            write_seed(cuts[i] < len ? cuts[i] : len);
    }
    printf("%u\n", made);
    return 0;
}
