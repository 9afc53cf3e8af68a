//! Two threads: the first starts the second, and yields to it; then it divides by what is 0.
#![no_std]
#![no_main]

use core::hint::black_box;

tp::program!(main);

extern "C" fn second(letter: u32) {
    tp::println!("second {}", char::from_u32(letter).unwrap_or('?'));
}

fn main() -> u32 {
    static mut STACK: [u8; 2048] = [0; 2048];
    // SAFETY: it is used here alone, and once.
    let stack = unsafe { &mut *(&raw mut STACK) };
    let started = tp::start_thread(second, u32::from(b'x'), stack);
    tp::yield_now();
    tp::println!(
        "first {started:?} {}",
        black_box(1_000_000_007_u64) * black_box(1_000_000_007) / black_box(65_521)
    );
    black_box(1) / black_box(0)
}
