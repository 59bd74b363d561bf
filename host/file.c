/* A regular file is mapped. What can't be mapped (a pipe, a file of /proc) is read, up to a limit, and is judged as
 * soon as its magic and version are there: an endless one ends at once. */
#define _GNU_SOURCE /* O_CLOEXEC */
#include "file.h"

#include <errno.h>
#include <fcntl.h>
#include <stdio.h>
#include <stdlib.h>
#include <string.h>
#include <sys/mman.h>
#include <sys/stat.h>
#include <unistd.h>

#include "gsym.h"

/* the most that is read of what can't be mapped; man/gsym-addr2line.1 says it */
#define MOST ((size_t)1 << 30)

void show(FILE *out, const void *bytes, size_t len)
{
    const uint8_t *at = bytes;
    uint8_t text[1024];
    while (len > 0) {
        size_t piece = len;
        if (piece > sizeof text) {
            piece = sizeof text;
            /* no character is parted: one that goes on behind the piece starts at most three bytes before its end */
            for (size_t back = 1; back <= 3 && (at[piece] & 0xc0) == 0x80; back++)
                piece = sizeof text - back;
        }
        /* what is shown of a character has no more bytes than the character */
        fwrite(text, 1, (size_t)gsym_shown_text(at, piece, text, sizeof text), out);
        at += piece;
        len -= piece;
    }
}

_Noreturn void trouble(const char *what, const char *why)
{
    fputs("gsym-addr2line: ", stderr);
    show(stderr, what, strlen(what));
    fprintf(stderr, ": %s\n", why);
    exit(TROUBLE);
}

static _Noreturn void refused(const char *name, uint32_t number)
{
    uint8_t why[128];
    uint64_t len = gsym_refusal_text(number, why, sizeof why);
    fputs("gsym-addr2line: ", stderr);
    show(stderr, name, strlen(name));
    fprintf(stderr, ": refused: %u, %.*s\n", number, (int)(len < sizeof why ? len : sizeof why), (const char *)why);
    exit(TROUBLE);
}

/* Magic and version, of which a lookup says 3 or 4 as soon as they are there, whatever else is missing. */
static void judge_start(const char *name, struct lent file)
{
    static const char elf[4] = "\177ELF", swapped[4] = "GSYM";
    gsym_answer answer = gsym_lookup(file.at, file.len, 0, 0, NULL, 0);
    if (answer.number == GSYM_WRONG_MAGIC && memcmp(file.at, elf, sizeof elf) == 0)
        trouble(name, "an ELF file; make the symbol file with llvm-gsymutil --convert");
    if (answer.number == GSYM_WRONG_MAGIC && memcmp(file.at, swapped, sizeof swapped) == 0)
        trouble(name, "refused: 3, a GSYM file of the other byte order");
    if (answer.number == GSYM_WRONG_MAGIC || answer.number == GSYM_WRONG_VERSION)
        refused(name, answer.number);
}

struct lent read_all(int fd, const char *name, size_t limit, const char *above, judge *judge)
{
    size_t room = 1 << 16, len = 0;
    uint8_t *all = malloc(room);
    for (bool judged = judge == NULL;;) {
        if (all == NULL)
            trouble(name, strerror(ENOMEM));
        ssize_t n = read(fd, all + len, room - len);
        if (n < 0 && errno == EINTR)
            continue;
        if (n < 0)
            trouble(name, strerror(errno));
        len += (size_t)n;
        if (!judged && (n == 0 || len >= 6)) {
            judge(name, (struct lent){all, len});
            judged = true;
        }
        if (len > limit)
            trouble(name, above);
        if (n == 0)
            return (struct lent){all, len};
        if (len == room) {
            room = room * 2 < limit ? room * 2 : limit + 1;
            all = realloc(all, room);
        }
    }
}

static struct lent bytes_of(const char *name)
{
    int fd = open(name, O_RDONLY | O_CLOEXEC);
    struct stat st;
    if (fd < 0 || fstat(fd, &st) != 0)
        trouble(name, strerror(errno));
    if (S_ISDIR(st.st_mode))
        trouble(name, strerror(EISDIR));
    struct lent file;
    /* files of /proc say that they are empty, and some files can't be mapped */
    void *at = S_ISREG(st.st_mode) && st.st_size > 0
                   ? mmap(NULL, (size_t)st.st_size, PROT_READ, MAP_PRIVATE, fd, 0)
                   : MAP_FAILED;
    if (at != MAP_FAILED)
        file = (struct lent){at, (size_t)st.st_size};
    else
        file = read_all(fd, name, MOST, "more than 1 GiB, and it can't be mapped: give a file of a disk", judge_start);
    close(fd);
    return file;
}

struct lent open_symbols(const char *name)
{
    struct lent file = bytes_of(name);
    if (file.len == 0)
        trouble(name, "the file is empty");
    judge_start(name, file);
    /* the tables, once and for all: an address alone is refused with 1 or 5 and up */
    gsym_answer answer = gsym_lookup(file.at, file.len, 0, 0, NULL, 0);
    if (answer.number == GSYM_TOO_FEW_BYTES)
        refused(name, answer.number);
    return file;
}
