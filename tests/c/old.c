/*
 * old.c - a program of before layouts had a number: its records are those of the header of version 0.1.0, whose `line`
 * had 64 bits, and it calls gsym_lookup by its plain name. It must not link: tests/c/run.sh.
 */
#include <stddef.h>
#include <stdint.h>

typedef struct gsym_text {
    uint64_t place, len;
} gsym_text;

typedef struct gsym_answer {
    uint32_t number, has_code;
    uint64_t addr;
    uint32_t size, line;
    gsym_text name, dir, file;
    uint64_t count;
} gsym_answer;

typedef struct gsym_frame {
    gsym_text name, dir, file;
    uint64_t line;
} gsym_frame;

gsym_answer gsym_lookup(const uint8_t *file, size_t file_len, uint64_t addr, uint32_t options, gsym_frame *frames,
                        size_t frames_len);

int main(void)
{
    gsym_frame frames[64];
    return (int)gsym_lookup((const uint8_t *)"", 0, 0, 3, frames, 64).number;
}
