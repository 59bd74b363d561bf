// A block of 64 levels, the deepest that is read, on a thread with little stack: `stack BYTES open|closed`. Open: every
// node contains the address; closed: none does, and all are passed over. The program is killed where it is too little.
#[repr(C)]
#[derive(Clone, Copy, Default)]
struct InlineFrame {
    name: u32,
    call_file: u32,
    call_line: u32,
}

#[repr(C)]
struct BlockAnswer {
    count: usize,
    number: u8,
}

extern "C" {
    fn gsym_block(
        block: *const u8,
        len: usize,
        symbol: u64,
        addr: u64,
        frames: *mut InlineFrame,
        room: usize,
    ) -> BlockAnswer;
}

fn chain() -> Vec<u8> {
    let mut out = Vec::new();
    for level in 1..=64u8 {
        out.extend([1, 0, 0x20, u8::from(level < 64), level, 0, 0, 0, 1, 1]);
    }
    out.extend([0; 63]);
    out
}

fn main() {
    let args: Vec<String> = std::env::args().collect();
    let bytes: usize = args[1].parse().unwrap();
    let addr = if args[2] == "open" { 0x1001 } else { 0x2000 };
    let read = move || {
        let block = chain();
        let mut frames = vec![InlineFrame::default(); 64];
        let a = unsafe { gsym_block(block.as_ptr(), block.len(), 0x1000, addr, frames.as_mut_ptr(), frames.len()) };
        assert_eq!((a.number, a.count), (0, if addr == 0x1001 { 64 } else { 0 }));
        println!("a block of 64 levels ({}) is read on a thread with {bytes} bytes of stack", args[2]);
    };
    std::thread::Builder::new().stack_size(bytes).spawn(read).unwrap().join().unwrap();
}
