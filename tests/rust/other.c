/* A library of another version, as bindings/rust may come to be linked with: a newer one of the same layout, which
 * refuses for a reason that the binding has no name for, and one that is wrong in what it counts. tests/rust.sh links
 * other.rs with it. With OTHER_LAYOUT its calls have the names of another layout. */
#include "gsym.h"

#ifdef OTHER_LAYOUT
#undef gsym_lookup
#undef gsym_block_frames
#undef gsym_check
#define gsym_lookup gsym_lookup_3
#define gsym_block_frames gsym_block_frames_3
#define gsym_check gsym_check_3
#endif

gsym_answer gsym_lookup(const uint8_t *file, size_t file_len, uint64_t addr, uint32_t options, gsym_frame *frames,
                        size_t frames_len)
{
    gsym_answer answer = {0};
    (void)file, (void)file_len, (void)options, (void)frames, (void)frames_len;
    if (addr == 0)
        answer.number = GSYM_UNKNOWN_ADDRESS;
    else if (addr == 1)
        answer.number = 16;
    else if (addr == 2)
        answer.number = UINT32_MAX;
    else
        answer = (gsym_answer){0, 7, addr, 1, 2, {UINT64_MAX, 2}, {3, UINT64_MAX}, {1, 1}, UINT64_MAX};
    return answer;
}

gsym_listed gsym_block_frames(const uint8_t *block, size_t block_len, uint64_t symbol, uint64_t addr,
                              gsym_inline_frame *frames, size_t frames_len)
{
    (void)block, (void)block_len, (void)symbol, (void)frames, (void)frames_len;
    return (gsym_listed){addr == 1 ? 0 : UINT64_MAX, addr == 1 ? 99 : 0};
}

/* finds by the file's length */
gsym_finding gsym_check(const uint8_t *file, size_t file_len)
{
    (void)file;
    return (gsym_finding){file_len == 4 ? UINT32_MAX : (uint32_t)file_len, UINT32_MAX};
}

uint32_t gsym_version(void)
{
    static uint32_t asked;
    return 300 + asked++;
}
