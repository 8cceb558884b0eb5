//! A program that asks the package jellyplain and has neither `std` nor an allocator: it has a panic handler of its own, beside which the compiler takes no `std`, and links only where nothing
//! allocates. Its exit status is 0 where the boom of examples/swing.txt has the expected cover.

#![no_std]
#![no_main]

use core::panic::PanicInfo;
use jellyplain::{Chain, MoveFile, TEXT};

const FILE: &[u8] = include_bytes!("../../examples/swing.txt");
const COVER: [u32; 6] = [0x4118e820, 0x408fd400, 0x3fdfc800, 0x420827dc, 0x41d0886c, 0x40302400];

// memcpy and memset, and abort for the panic handler.
#[link(name = "c")]
extern "C" {
    fn abort() -> !;
}

#[panic_handler]
fn panic(_: &PanicInfo) -> ! {
    unsafe { abort() }
}

// Both are built where they stand, and neither passes over the stack.
static mut PLACES: (MoveFile, Chain) = (MoveFile::EMPTY, Chain::EMPTY);

fn as_expected((file, chain): &mut (MoveFile, Chain)) -> bool {
    let Ok(()) = file.read_from(FILE) else { return false };
    let Ok(()) = chain.build(&file.poses) else { return false };
    let Ok(cover) = chain.cover(&file.bounds, 10) else { return false };
    let written = chain.write(&file.bounds, &mut [0; TEXT]).map(str::len);
    written == Ok(381) && cover.p_min.iter().chain(&cover.p_max).map(|x| x.to_bits()).eq(COVER)
}

#[no_mangle]
pub extern "C" fn main() -> i32 {
    let places = &raw mut PLACES;
    // SAFETY: this thread is the only one, and the reference the only one to the places.
    if jellyplain::compatible() && as_expected(unsafe { &mut *places }) {
        0
    } else {
        1
    }
}
