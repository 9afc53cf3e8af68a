//! Says hello, and ends with the code 0.
#![no_std]
#![no_main]

tp::program!(main);

fn main() -> u32 {
    let before = tp::cycle();
    tp::println!("hello, {}", 42);
    tp::println!("{:?}", tp::alloc(64, tp::Kind::Page));
    u32::from(tp::cycle() < before)
}
