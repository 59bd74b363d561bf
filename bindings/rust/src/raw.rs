//! The library as include/gsym.h has it, layout 2: a library of another layout has no calls of these names, so that
//! nothing is linked that would write other records.
use super::{Frame, InlineFrame, Text};
use core::mem::size_of;

#[repr(C)]
pub struct RawAnswer {
    pub number: u32,
    pub has_code: u32,
    pub addr: u64,
    pub size: u32,
    pub line: u32,
    pub name: Text,
    pub dir: Text,
    pub file: Text,
    pub count: u64,
}

#[repr(C)]
pub struct RawListed {
    pub count: u64,
    pub number: u32,
}

#[repr(C)]
pub struct RawFinding {
    pub number: u32,
    pub entry: u32,
}

const _: () = assert!(size_of::<usize>() == 8);
const _: () = assert!(size_of::<RawAnswer>() == 80 && size_of::<RawListed>() == 16 && size_of::<RawFinding>() == 8);
const _: () = assert!(size_of::<Frame>() == 56 && size_of::<InlineFrame>() == 12 && size_of::<Text>() == 16);

extern "C" {
    #[link_name = "gsym_lookup_2"]
    pub fn gsym_lookup(
        file: *const u8,
        file_len: usize,
        addr: u64,
        options: u32,
        frames: *mut Frame,
        frames_len: usize,
    ) -> RawAnswer;

    #[link_name = "gsym_block_frames_2"]
    pub fn gsym_block_frames(
        block: *const u8,
        block_len: usize,
        symbol: u64,
        addr: u64,
        frames: *mut InlineFrame,
        frames_len: usize,
    ) -> RawListed;

    #[link_name = "gsym_check_2"]
    pub fn gsym_check(file: *const u8, file_len: usize) -> RawFinding;

    pub fn gsym_version() -> u32;
}
