/*
 * gsym-addr2line - turns addresses into functions and source positions, by a GSYM symbol file of any size.
 * man/gsym-addr2line.1 is its manual. Exit status: 0 all addresses are known, 1 one is not or was refused, 2 no answer
 * could be given (usage, no file, not a GSYM file, input that can't be read, output that can't be written).
 */
#define _GNU_SOURCE /* getopt_long, getline */
#include <errno.h>
#include <fcntl.h>
#include <getopt.h>
#include <signal.h>
#include <stdio.h>
#include <stdlib.h>
#include <string.h>
#include <sys/stat.h>
#include <unistd.h>

#include "file.h"
#include "gsym.h"

/* What is asked of each address. */
struct asked {
    struct lent file;
    uint32_t view;
    uint64_t base;
};

/* The mapped file shrank under us: nothing more can be answered. Only calls that are safe in a handler. */
static void on_bus(int signal)
{
    (void)signal;
    static const char text[] = "gsym-addr2line: the file became shorter while it was read\n";
    if (write(STDERR_FILENO, text, sizeof text - 1) < 0)
        _exit(TROUBLE);
    _exit(TROUBLE);
}

/* ---- answers ---- */

/* Prints the answer to a word, which may have any bytes in it; false where it is not known. */
static bool resolve(const struct asked *asked, const void *word, size_t len)
{
    static uint8_t *room;
    static size_t room_len;
    gsym_printed text;
    for (;;) {
        text = gsym_answer_text(asked->file.at, asked->file.len, asked->view, asked->base, word, len, room, room_len);
        if (text.len <= room_len)
            break;
        room_len = (size_t)text.len < 4096 ? 4096 : (size_t)text.len;
        free(room);
        room = malloc(room_len);
        if (room == NULL)
            trouble("an answer", strerror(ENOMEM));
    }
    if (text.number == GSYM_NO_ADDRESS) {
        fputs("gsym-addr2line: '", stderr);
        show(stderr, word, len);
        fputs("' is no address\n", stderr);
    }
    fwrite(room, 1, (size_t)text.len, stdout);
    return text.number == GSYM_FOUND;
}

/* Addresses from standard input, each answered as soon as its line is there, for callers at the other end of a pipe.
 * Words are taken by length, so that a zero byte drops none. */
static bool resolve_input(const struct asked *asked)
{
    char *line = NULL;
    size_t room = 0;
    bool all = true;
    ssize_t len;
    while (!ferror(stdout) && (len = getline(&line, &room, stdin)) >= 0) {
        const uint8_t *rest = (const uint8_t *)line;
        size_t left = (size_t)len;
        for (gsym_text word; (word = gsym_next_word(rest, left)).len != 0;) {
            all &= resolve(asked, rest + word.place, (size_t)word.len);
            rest += word.place + word.len;
            left -= (size_t)(word.place + word.len);
        }
        fflush(stdout);
    }
    if (!ferror(stdout) && !feof(stdin))
        trouble("standard input", strerror(errno));
    free(line);
    return all;
}

/* ---- options ---- */

#define LETTERS "e:afipsChHvV"
/* the options that have no letter */
enum { FIRST_LONG = 256, REFUSALS = FIRST_LONG, JSON, BASE, RETURN_ADDRESSES };

/* a list of arguments that grows */
struct list {
    char **at;
    int count;
    int room;
};

static void append(struct list *list, char *word)
{
    if (list->count + 1 >= list->room) {
        list->room = list->room == 0 ? 64 : list->room * 2;
        list->at = realloc(list->at, (size_t)list->room * sizeof *list->at);
        if (list->at == NULL)
            trouble("the arguments", strerror(ENOMEM));
    }
    list->at[list->count++] = word;
    list->at[list->count] = NULL;
}

/* The arguments in a text: parted by white space; quotes keep it, and a backslash keeps the byte behind it. */
static void append_words(struct list *list, char *text, size_t len)
{
    char *to = text, *start = text, quote = 0;
    bool open = false;
    for (size_t i = 0; i <= len; i++) {
        char c = i < len ? text[i] : 0;
        bool ends = i == len || (quote == 0 && (c == ' ' || (c >= '\t' && c <= '\r')));
        if (ends && open) {
            *to++ = 0;
            append(list, start);
            start = to;
            open = false;
        }
        if (ends)
            continue;
        open = true;
        if (c == '\\' && i + 1 < len)
            *to++ = text[++i];
        else if (quote != 0 ? c == quote : c == '\'' || c == '"')
            quote = quote != 0 ? 0 : c;
        else
            *to++ = c;
    }
}

/* The arguments with those of each @FILE in its place, as addr2line has it: one that can't be opened stays a word. */
static struct list expand(int argc, char **argv)
{
    struct list list = {0};
    for (int i = 0; i < argc; i++) {
        int fd = i > 0 && argv[i][0] == '@' ? open(argv[i] + 1, O_RDONLY | O_CLOEXEC) : -1;
        if (fd < 0) {
            append(&list, argv[i]);
            continue;
        }
        struct lent text = read_all(fd, argv[i], 1 << 24, "more than 16 MiB of arguments", NULL);
        close(fd);
        /* no word can have one */
        if (text.len != 0 && memchr(text.at, 0, text.len) != NULL)
            trouble(argv[i], "a zero byte among the arguments");
        /* a byte more than was read, for the end of the last word */
        char *words = malloc(text.len + 1);
        if (words == NULL)
            trouble(argv[i], strerror(ENOMEM));
        memcpy(words, text.at, text.len);
        append_words(&list, words, text.len);
    }
    return list;
}

static void usage(FILE *out)
{
    fputs("usage: gsym-addr2line -e FILE [-a] [-f] [-i] [-p] [-s] [-C] [--base ADDRESS] [--return-addresses]\n"
          "                      [--refusals] [--json] [@FILE] [ADDRESS...]\n"
          "  -e, --exe FILE          the GSYM symbol file\n"
          "  -a, --addresses         print each address first\n"
          "  -f, --functions         print function names\n"
          "  -i, --inlines           print inlined calls too, from the innermost outwards\n"
          "  -p, --pretty-print      one line a frame\n"
          "  -s, --basenames         print files without their directories\n"
          "  -C, --demangle[=STYLE]  accepted, and names are printed as they stand in the file\n"
          "      --base ADDRESS      where the program was loaded: subtracted from each address first\n"
          "      --return-addresses  look up the address before each one, where the call stands\n"
          "      --refusals          print a refusal's number and name instead of ??\n"
          "      --json              one JSON object a line, with all frames\n"
          "  @FILE                   read arguments from FILE\n"
          "  -h, -H, --help          print this\n"
          "  -v, -V, --version       print the version\n"
          "Addresses are hexadecimal; without any they are read from standard input.\n",
          out);
}

/* Ends after a text that was asked for. */
static _Noreturn void done(void)
{
    if (fflush(stdout) != 0)
        trouble("standard output", strerror(errno));
    exit(0);
}

/* Says what was wrong in the options, and how they are. */
static _Noreturn void misused(const char *why, const char *word)
{
    fprintf(stderr, "gsym-addr2line: %s '", why);
    show(stderr, word, strlen(word));
    fputs("'\n", stderr);
    usage(stderr);
    exit(TROUBLE);
}

/* The same of a word that is missing. */
static _Noreturn void missing(const char *why)
{
    fprintf(stderr, "gsym-addr2line: %s\n", why);
    usage(stderr);
    exit(TROUBLE);
}

/* The option that getopt stopped at. In `optopt` is its letter, or of a long option what it is short for, or 0. */
static _Noreturn void unknown_option(int c, char **argv)
{
    const char small[3] = {'-', (char)optopt, 0};
    if (c == ':')
        misused("an option without its argument:", optopt < FIRST_LONG ? small : argv[optind - 1]);
    /* a letter that is an option stands for a long one, with a value that it doesn't take */
    bool is_letter = optopt == ':' || (optopt != 0 && optopt < FIRST_LONG && strchr(LETTERS, optopt) == NULL);
    misused("no such option:", is_letter ? small : argv[optind - 1]);
}

static uint64_t base_of(const char *word)
{
    gsym_number base = gsym_address_of((const uint8_t *)word, strlen(word));
    if (!base.is_number)
        misused("--base wants an address, and this is none:", word);
    return base.value;
}

/* The name of the file that is asked, and the rest in `asked`. */
static const char *parse_options(int argc, char **argv, struct asked *asked)
{
    static const struct option options[] = {
        {"exe", required_argument, NULL, 'e'},
        {"addresses", no_argument, NULL, 'a'},
        {"functions", no_argument, NULL, 'f'},
        {"inlines", no_argument, NULL, 'i'},
        {"pretty", no_argument, NULL, 'p'},
        {"pretty-print", no_argument, NULL, 'p'},
        {"basenames", no_argument, NULL, 's'},
        {"demangle", optional_argument, NULL, 'C'},
        {"base", required_argument, NULL, BASE},
        {"return-addresses", no_argument, NULL, RETURN_ADDRESSES},
        {"refusals", no_argument, NULL, REFUSALS},
        {"json", no_argument, NULL, JSON},
        {"help", no_argument, NULL, 'h'},
        {"version", no_argument, NULL, 'v'},
        {NULL, 0, NULL, 0},
    };
    /* what each adds to the view */
    static const struct {
        int option;
        uint32_t view;
    } views[] = {
        {'a', GSYM_VIEW_ADDRESSES},  {'f', GSYM_VIEW_FUNCTIONS},
        {'i', GSYM_VIEW_INLINES},    {'p', GSYM_VIEW_PRETTY},
        {'s', GSYM_VIEW_BASE_NAMES}, {RETURN_ADDRESSES, GSYM_VIEW_RETURN_ADDRESSES},
        {JSON, GSYM_VIEW_JSON},      {REFUSALS, GSYM_VIEW_REFUSALS},
    };
    const char *name = NULL;
    opterr = 0;
    for (int c; (c = getopt_long(argc, argv, ":" LETTERS, options, NULL)) != -1;) {
        for (size_t k = 0; k < sizeof views / sizeof views[0]; k++)
            asked->view |= c == views[k].option ? views[k].view : 0;
        if (c == 'e') {
            name = optarg;
        } else if (c == BASE) {
            asked->base = base_of(optarg);
        } else if (c == 'h' || c == 'H') {
            usage(stdout);
            done();
        } else if (c == 'v' || c == 'V') {
            printf("gsym-addr2line %d.%d.%d\n", GSYM_VERSION_MAJOR, GSYM_VERSION_MINOR, GSYM_VERSION_PATCH);
            done();
        } else if (c == '?' || c == ':') {
            unknown_option(c, argv);
        }
    }
    if (name == NULL)
        missing("-e FILE is missing");
    return name;
}

int main(int argc, char **argv)
{
    signal(SIGPIPE, SIG_IGN);
    signal(SIGBUS, on_bus);
    struct asked asked = {0};
    struct list words = expand(argc, argv);
    const char *name = parse_options(words.count, words.at, &asked);
    asked.file = open_symbols(name);
    bool all = true;
    if (optind == words.count)
        all = resolve_input(&asked);
    for (int i = optind; i < words.count && !ferror(stdout); i++)
        all &= resolve(&asked, words.at[i], strlen(words.at[i]));
    if (fflush(stdout) != 0 || ferror(stdout)) {
        /* a closed pipe is no news: whoever read it had enough */
        if (errno != EPIPE)
            fprintf(stderr, "gsym-addr2line: standard output: %s\n", strerror(errno));
        return TROUBLE;
    }
    return all ? 0 : 1;
}
