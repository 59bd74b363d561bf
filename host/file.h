/* A symbol file's bytes, mapped or read; and how trouble is told. */
#ifndef GSYM_HOST_FILE_H
#define GSYM_HOST_FILE_H

#include <stddef.h>
#include <stdbool.h>
#include <stdint.h>
#include <stdio.h>

enum { TROUBLE = 2 };

struct lent {
    const uint8_t *at;
    size_t len;
};

/* Tells what was in trouble, a file or a word of the user's, and why, and ends with status 2. */
_Noreturn void trouble(const char *what, const char *why);

/* Writes any bytes as they may be shown on a terminal, piece by piece: however many they are, it takes no memory. */
void show(FILE *out, const void *bytes, size_t len);

/* The bytes of a symbol file, whose header and tables read; anything else is told, and ends with status 2. */
struct lent open_symbols(const char *name);

/* Ends where the first bytes of a file show that it is none. */
typedef void judge(const char *name, struct lent start);

/* All bytes of an open file; above the limit that is told, and ends. The first bytes are judged before all are read. */
struct lent read_all(int fd, const char *name, size_t limit, const char *above, judge *judge);

#endif
