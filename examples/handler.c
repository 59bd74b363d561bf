/*
 * handler.c - a crash handler that says in which function the program died, by its symbol file.
 *
 *   cc -O2 -g -Wl,-z,now -o handler handler.c -lgsym
 *   llvm-gsymutil --convert handler -o handler.gsym
 *   ./handler handler.gsym
 *
 * says that it died in spoil, inlined into lose_order. All that may fail or take a lock is done before: the file is
 * mapped, the handler's stack is there, and every call is bound (-z now: else the handler's first calls run the dynamic
 * linker, on the handler's stack). In the handler nothing is called but what POSIX calls async-signal-safe, and
 * gsym_lookup. With an ADDRESS, counted as the file counts them, that one is told instead of the one of the crash:
 * `./handler FILE ADDRESS`.
 */
#define _GNU_SOURCE /* REG_RIP, mmap, dl_iterate_phdr */
#include <fcntl.h>
#include <link.h>
#include <signal.h>
#include <stdio.h>
#include <stdlib.h>
#include <string.h>
#include <sys/auxv.h>
#include <sys/mman.h>
#include <sys/stat.h>
#include <ucontext.h>
#include <unistd.h>

#include "gsym.h"

/* what the handler's own frames take: its list of 64 records is 3,584 bytes of that */
enum { OWN_FRAMES = 8192 };

static const uint8_t *file;
static size_t file_len;
static uint64_t told;
/* what has to be subtracted from an address of this running program: 0 where it isn't position independent */
static uint64_t base;

static void say(const char *bytes, size_t len)
{
    while (len > 0) {
        ssize_t n = write(STDERR_FILENO, bytes, len);
        if (n <= 0)
            return;
        bytes += n;
        len -= (size_t)n;
    }
}

static void say_words(const char *words)
{
    say(words, strlen(words));
}

/* printf may take a lock */
static void say_number(uint32_t number)
{
    char digits[10], *at = digits + sizeof digits;
    do
        *--at = (char)('0' + number % 10);
    while ((number /= 10) != 0);
    say(at, (size_t)(digits + sizeof digits - at));
}

static void say_text(gsym_text text)
{
    gsym_part part = gsym_text_at(file, file_len, text);
    say(part.at, part.len);
}

/* As the tool prints a line of a frame: no slash behind an empty directory, and a line 0 is none. The file is this
 * program's own; of one that others made gsym_shown_text shows each text without what would steer a terminal. */
static void say_frame(gsym_text name, gsym_text dir, gsym_text source, uint32_t line)
{
    say_words("  ");
    say_text(name);
    say_words(" at ");
    say_text(dir);
    say_words(dir.len != 0 ? "/" : "");
    say_text(source);
    say_words(":");
    if (line != 0)
        say_number(line);
    else
        say_words("?");
    say_words("\n");
}

/* A symbol whose position is not known. */
static void say_name(gsym_text name)
{
    say_words("  ");
    say_text(name);
    say_words(" at ??:?\n");
}

static void on_crash(int signal, siginfo_t *info, void *context)
{
    (void)info;
    gsym_frame frames[GSYM_MAX_FRAMES];
    uint64_t pc = (uint64_t)((ucontext_t *)context)->uc_mcontext.gregs[REG_RIP];
    /* of a return address, one from the stack, one would have to be subtracted: the call stands before it */
    uint64_t addr = told != 0 ? told : pc - base;
    gsym_answer a = gsym_lookup(file, file_len, addr, GSYM_CODE_INFO | GSYM_INLINING, frames, GSYM_MAX_FRAMES);
    if (a.number != GSYM_FOUND) {
        const char *why = gsym_refusal_name(a.number);
        say_words("died, and the symbol file has no answer: ");
        say_words(why != 0 ? why : "a refusal of a later library");
        say_words("\n");
    } else {
        say_words("died in\n");
        for (uint64_t k = a.count; k > 0; k--)
            say_frame(frames[k - 1].name, frames[k - 1].dir, frames[k - 1].file, frames[k - 1].line);
        if (a.has_code)
            say_frame(a.name, a.dir, a.file, a.line);
        else
            say_name(a.name);
    }
    /* SA_RESETHAND: the signal now does what it does without a handler, also where another process had sent it */
    raise(signal);
}

/* What the system puts on a handler's stack; a C library of before 2021 doesn't say it, and the kernel does. */
static size_t signal_frame(void)
{
#ifdef _SC_MINSIGSTKSZ
    return (size_t)sysconf(_SC_MINSIGSTKSZ);
#else
    unsigned long bytes = getauxval(51); /* AT_MINSIGSTKSZ */
    return bytes != 0 ? bytes : MINSIGSTKSZ;
#endif
}

/* The first that is told of is the program itself. */
static int set_base(struct dl_phdr_info *program, size_t size, void *unused)
{
    (void)size;
    (void)unused;
    base = program->dlpi_addr;
    return 1;
}

/* The handler's stack: just what include/gsym.h asks for, on whole pages, below a page that can't be touched. */
static void set_stack(void)
{
    size_t page = (size_t)sysconf(_SC_PAGESIZE);
    size_t need = GSYM_STACK + signal_frame() + OWN_FRAMES;
    size_t pages = (need + page - 1) / page * page;
    char *low = mmap(0, pages + page, PROT_READ | PROT_WRITE, MAP_PRIVATE | MAP_ANONYMOUS, -1, 0);
    if (low == MAP_FAILED || mprotect(low, page, PROT_NONE) != 0) {
        perror("handler: stack");
        exit(2);
    }
    /* the stack grows down, towards the page: so none of what was rounded up is used */
    stack_t stack = {.ss_sp = low + page, .ss_size = need};
    struct sigaction action = {.sa_sigaction = on_crash, .sa_flags = SA_SIGINFO | SA_ONSTACK | (int)SA_RESETHAND};
    sigemptyset(&action.sa_mask);
    if (sigaltstack(&stack, 0) != 0 || sigaction(SIGSEGV, &action, 0) != 0) {
        perror("handler: signal");
        exit(2);
    }
}

/* ---- what goes wrong */

static int *volatile last_order;

__attribute__((always_inline)) static inline void spoil(int order)
{
    *(volatile int *)last_order = order;
}

/* there is no order, and so it writes where nothing is */
__attribute__((noinline)) static void lose_order(int order)
{
    spoil(order);
}

int main(int argc, char **argv)
{
    struct stat st;
    int fd = argc > 1 ? open(argv[1], O_RDONLY | O_CLOEXEC) : -1;
    if (fd < 0 || fstat(fd, &st) != 0) {
        fprintf(stderr, "usage: handler FILE [ADDRESS]\n");
        return 2;
    }
    void *at = mmap(0, (size_t)st.st_size, PROT_READ, MAP_PRIVATE, fd, 0);
    if (at == MAP_FAILED) {
        perror("handler: map");
        return 2;
    }
    file = at;
    file_len = (size_t)st.st_size;
    told = argc > 2 ? strtoull(argv[2], 0, 16) : 0;
    dl_iterate_phdr(set_base, 0);
    set_stack();
    lose_order(argc);
    return 0;
}
