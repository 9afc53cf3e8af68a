//! A spy that primes and probes: it fills both ways of the sixteen sets of its first-level data
//! cache, rests until its slot is over, and takes the time of loading each set again.
#![no_std]
#![no_main]

use core::ptr::addr_of;

const SETS: usize = 16;
const WAYS: usize = 2;
const LOOKS: usize = 8;
/// Longer than a slot, in cycles.
const REST: u32 = 12_000;

/// A page's lines of 64 bytes, the first `WAYS * SETS` of which are loaded.
#[repr(align(4096))]
struct Lines([[u32; 16]; WAYS * SETS]);

// (mutable, so that it takes pages and no bytes of the file; nothing writes it)
static mut LINES: Lines = Lines([[0; 16]; WAYS * SETS]);

tp::program!(main);

fn load(set: usize) {
    for way in 0..WAYS {
        // SAFETY: nothing writes it, and the place is in it.
        unsafe { addr_of!(LINES.0[way * SETS + set][0]).read_volatile() };
    }
}

fn main() -> u32 {
    for _ in 0..LOOKS {
        (0..SETS).for_each(load);
        tp::rest(REST);
        for set in 0..SETS {
            tp::cycle();
            load(set);
            tp::cycle();
        }
    }
    0
}
