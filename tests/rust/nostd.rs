//! A program without std and without a heap that looks an address up and checks a file.
#![no_std]
#![no_main]
use gsym::{check, lookup, Fault, Finding, Frame, Options, Refusal};

static FILE: &[u8] = include_bytes!("../../host/sample/connector.gsym");

#[panic_handler]
fn on_panic(_: &core::panic::PanicInfo) -> ! {
    loop {}
}

/// That std's core is built to unwind; nothing does here.
#[no_mangle]
pub extern "C" fn rust_eh_personality() {}

#[no_mangle]
pub extern "C" fn main() -> i32 {
    let mut frames = [Frame::default(); 64];
    let names = ["send_request", "post_order", "sync_orders"];
    let known = match lookup(FILE, 0x1155, Options::ALL, &mut frames) {
        Ok(answer) => answer.calls(FILE, &frames).map(|call| call.name).eq(names),
        Err(_) => false,
    };
    let found = Finding::Entry { index: 4, fault: Fault::Refused(Refusal::UnreadName) };
    let unknown = lookup(FILE, 1, Options::NAME, &mut []) == Err(Refusal::UnknownAddress);
    i32::from(!known || !unknown || check(FILE) != Err(found))
}
