/* The check and lookups of several libraries in one process, the code of each at four places in memory, in turn:
 * `places PASSES FILE..`. places.sh makes `libraries.h`, a line `LIBRARY(NAME)` for each, and links the code of each
 * four times, with the names NAME_check_0, NAME_lookup_0, NAME_check_1 and so on. Prints `FILE, WHAT | NAME | RATIO at
 * each place | RATIO of their mean`: medians of the passes to that of the first library at its first place, and their
 * mean to the first library's. Where two don't answer alike it says so, and exits with 1.
 */
#include "gsym.h"

#include <inttypes.h>
#include <stdio.h>
#include <stdlib.h>
#include <string.h>
#include <time.h>

typedef gsym_finding check(const uint8_t *, size_t);
typedef gsym_answer lookup(const uint8_t *, size_t, uint64_t, uint32_t, gsym_frame *, size_t);

#define LIBRARY(name)                                                                                                  \
    check name##_check_0, name##_check_1, name##_check_2, name##_check_3;                                              \
    lookup name##_lookup_0, name##_lookup_1, name##_lookup_2, name##_lookup_3;
#include "libraries.h"
#undef LIBRARY

enum { PLACES = 4, ADDRESSES = 20000 };

static const struct {
    const char *name;
    check *check[PLACES];
    lookup *lookup[PLACES];
} libraries[] = {
#define LIBRARY(name)                                                                                                  \
    {#name,                                                                                                            \
     {name##_check_0, name##_check_1, name##_check_2, name##_check_3},                                                 \
     {name##_lookup_0, name##_lookup_1, name##_lookup_2, name##_lookup_3}},
#include "libraries.h"
#undef LIBRARY
};

enum { LIBRARIES = sizeof libraries / sizeof libraries[0] };

static uint64_t addresses[ADDRESSES];
static gsym_frame frames[64];

static double now(void)
{
    struct timespec time;
    clock_gettime(CLOCK_MONOTONIC, &time);
    return (double)time.tv_sec * 1e3 + (double)time.tv_nsec / 1e6;
}

static int by_size(const void *a, const void *b)
{
    double x = *(const double *)a, y = *(const double *)b;
    return (x > y) - (x < y);
}

/* The file's bytes, which stay allocated to the end. */
static uint8_t *bytes_of(const char *path, size_t *len)
{
    FILE *file = fopen(path, "rb");
    if (file == 0 || fseek(file, 0, SEEK_END) != 0) {
        perror(path);
        exit(2);
    }
    *len = (size_t)ftell(file);
    rewind(file);
    uint8_t *bytes = aligned_alloc(4096, (*len + 4096) / 4096 * 4096);
    if (bytes == 0 || fread(bytes, 1, *len, file) != *len) {
        perror(path);
        exit(2);
    }
    fclose(file);
    return bytes;
}

/* Rising addresses, spread over all symbols and between each and the next. */
static void spread(const uint8_t *file)
{
    uint64_t base, entry, next;
    uint32_t count;
    size_t size = file[6];
    memcpy(&base, file + 8, 8);
    memcpy(&count, file + 16, 4);
    for (uint64_t i = 0; i < ADDRESSES; i++) {
        uint64_t k = i * count / ADDRESSES;
        entry = next = 0;
        memcpy(&entry, file + 48 + k * size, size);
        if (k + 1 < count)
            memcpy(&next, file + 48 + (k + 1) * size, size);
        addresses[i] = base + entry + (next > entry ? i * 2654435761u % (next - entry) : 0);
    }
}

/* One pass, and what its answers come to. `options` above 3: the check. */
static uint64_t pass(int library, int place, const uint8_t *file, size_t len, uint32_t options)
{
    if (options > 3) {
        gsym_finding finding = libraries[library].check[place](file, len);
        return finding.number * 31u + finding.entry;
    }
    lookup *asked = libraries[library].lookup[place];
    uint64_t sum = 0;
    for (int i = 0; i < ADDRESSES; i++) {
        gsym_answer answer = asked(file, len, addresses[i], options, frames, 64);
        sum = sum * 31 + answer.number + answer.addr + answer.line + answer.name.place + answer.count;
    }
    return sum;
}

static int row(const char *file_name, const char *what, const uint8_t *file, size_t len, uint32_t options, int passes)
{
    static double times[LIBRARIES][PLACES][1000];
    uint64_t sum = pass(0, 0, file, len, options);
    for (int p = 0; p < passes; p++)
        for (int turn = 0; turn < LIBRARIES * PLACES; turn++) {
            int k = (turn + p) % (LIBRARIES * PLACES), library = k / PLACES, place = k % PLACES;
            double start = now();
            uint64_t got = pass(library, place, file, len, options);
            times[library][place][p] = now() - start;
            if (got != sum) {
                printf("%s, %s: %s answers otherwise than %s\n", file_name, what, libraries[library].name,
                       libraries[0].name);
                return 1;
            }
        }
    double first = 0, first_mean = 0;
    for (int library = 0; library < LIBRARIES; library++) {
        double mean = 0;
        printf("%s, %s | %s |", file_name, what, libraries[library].name);
        for (int place = 0; place < PLACES; place++) {
            qsort(times[library][place], (size_t)passes, sizeof(double), by_size);
            double median = times[library][place][passes / 2];
            if (first == 0)
                first = median;
            mean += median / PLACES;
            printf(" %.3f", median / first);
        }
        if (first_mean == 0)
            first_mean = mean;
        printf(" | %.3f\n", mean / first_mean);
    }
    return 0;
}

int main(int count, char **words)
{
    int passes = count > 2 ? atoi(words[1]) : 0, wrong = 0;
    if (passes < 1 || passes > 1000) {
        fprintf(stderr, "places PASSES FILE..: from 1 to 1,000 passes\n");
        return 2;
    }
    for (int i = 2; i < count; i++) {
        size_t len;
        uint8_t *file = bytes_of(words[i], &len);
        const char *slash = strrchr(words[i], '/'), *name = slash ? slash + 1 : words[i];
        spread(file);
        wrong |= row(name, "check", file, len, 4, passes);
        wrong |= row(name, "name", file, len, 0, passes);
        wrong |= row(name, "code info", file, len, GSYM_CODE_INFO, passes);
        wrong |= row(name, "inlining", file, len, GSYM_CODE_INFO | GSYM_INLINING, passes);
    }
    return wrong;
}
