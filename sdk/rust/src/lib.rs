//! The kernel's calls, one function each, for programs in Rust: what `tp.h` is for C.
//! docs/IMAGE.md, 'Kernel calls', tells what each does and by which error it is refused.
//!
//! A `slot` is one of the domain's 64 capability slots, 0 to 63; those that `caps` of the
//! description fill are the first, in their order. Times are in cycles.
#![no_std]

use core::arch::{asm, global_asm};
use core::fmt::{self, Write};
use core::panic::PanicInfo;

// (`_start`, which calls `main`, and where a thread begins)
global_asm!(include_str!("../../c/crt0.S"));

/// Makes a function, `fn() -> u32`, the program's beginning. What it returns is the domain's
/// exit code.
#[macro_export]
macro_rules! program {
    ($main:path) => {
        #[unsafe(export_name = "main")]
        extern "C" fn begun() -> u32 {
            let main: fn() -> u32 = $main;
            main()
        }
    };
}

/// Why a call is refused; nothing is changed then.
#[derive(Clone, Copy, Debug, PartialEq, Eq)]
#[repr(u32)]
pub enum Error {
    /// No such call, or one that the domain's `calls` leave out.
    BadCall = 1,
    BadSlot = 2,
    Empty = 3,
    Used = 4,
    WrongKind = 5,
    BadRights = 6,
    BadAddress = 7,
    Mapped = 8,
    NoTable = 9,
    NoFrame = 10,
    OutputFull = 11,
    InUse = 12,
    NoThread = 13,
    /// The box is not from this domain ([`send`]), or not to it ([`recv`]).
    NoBox = 14,
    BoxFull = 15,
    NoMail = 16,
}

impl Error {
    const ALL: [Self; 16] = [
        Self::BadCall,
        Self::BadSlot,
        Self::Empty,
        Self::Used,
        Self::WrongKind,
        Self::BadRights,
        Self::BadAddress,
        Self::Mapped,
        Self::NoTable,
        Self::NoFrame,
        Self::OutputFull,
        Self::InUse,
        Self::NoThread,
        Self::NoBox,
        Self::BoxFull,
        Self::NoMail,
    ];
}

/// What ALLOC makes of a frame.
#[derive(Clone, Copy, Debug, PartialEq, Eq)]
#[repr(u32)]
pub enum Kind {
    Page = 0,
    PageTable = 1,
}

/// Rights to a page: a sum of these, of which 1, 3, 4, 5 and 7 are good.
pub const READ: u32 = 1;
pub const WRITE: u32 = 2;
pub const EXECUTE: u32 = 4;

/// Makes the call of a number, and answers its value.
///
/// # Safety
///
/// The call takes from the program no page that it still uses.
#[inline(always)]
pub unsafe fn call(number: u32, a: u32, b: u32, c: u32) -> Result<u32, Error> {
    let (code, value): (u32, u32);
    // SAFETY: a call changes no other register, and what it does to pages is the caller's to know.
    unsafe {
        asm!("ecall", inlateout("a0") a => code, inlateout("a1") b => value, in("a2") c, in("a7") number,
             options(nostack));
    }
    match code.checked_sub(1) {
        None => Ok(value),
        Some(at) => Err(Error::ALL[at as usize]),
    }
}

/// Ends the domain. (Where its `calls` leave EXIT out it is stopped by an EBREAK.)
pub fn exit(code: u32) -> ! {
    let _ = unsafe { call(0, code, 0, 0) };
    abort()
}

/// Stops the domain by an EBREAK (exception 3).
pub fn abort() -> ! {
    unsafe { asm!("ebreak", options(noreturn, nomem, nostack)) }
}

/// Prints a byte; a domain can print 4,096.
#[inline(always)]
pub fn put(byte: u8) -> Result<(), Error> {
    unsafe { call(1, byte.into(), 0, 0) }.map(drop)
}

/// Takes a frame of the domain that is free, and zeroes it; the slot, which is empty, names it:
/// as a page with all rights, mapped nowhere, or as a page table, installed nowhere.
pub fn alloc(slot: u32, kind: Kind) -> Result<(), Error> {
    unsafe { call(2, slot, kind as u32, 0) }.map(drop)
}

/// Installs the slot's page table for the 4 MiB at an address, a multiple of 0x400000. Those of
/// the program's segments are there from the beginning.
pub fn table(slot: u32, address: usize) -> Result<(), Error> {
    unsafe { call(3, slot, address as u32, 0) }.map(drop)
}

/// Maps the slot's page at an address, a multiple of 4,096 at which nothing is, with rights
/// that it has.
pub fn map(slot: u32, address: usize, rights: u32) -> Result<(), Error> {
    unsafe { call(4, slot, address as u32, rights) }.map(drop)
}

/// Unmaps the slot's page, where it is mapped through this slot.
///
/// # Safety
///
/// The program uses the page no more.
pub unsafe fn unmap(slot: u32) -> Result<(), Error> {
    unsafe { call(5, slot, 0, 0) }.map(drop)
}

/// Slot `to`, which is empty, names what slot `from` does: a line, or a page, with rights that
/// it has, mapped nowhere.
pub fn copy(from: u32, to: u32, rights: u32) -> Result<(), Error> {
    unsafe { call(6, from, to, rights) }.map(drop)
}

/// Empties the slot. What was mapped or installed through it no longer is, and a frame that no
/// slot names any more is free.
///
/// # Safety
///
/// The program uses what was mapped through it no more.
pub unsafe fn delete(slot: u32) -> Result<(), Error> {
    unsafe { call(7, slot, 0, 0) }.map(drop)
}

/// Deletes every other slot that names the same; answers how many.
///
/// # Safety
///
/// The program uses what was mapped through those no more.
pub unsafe fn revoke(slot: u32) -> Result<u32, Error> {
    unsafe { call(8, slot, 0, 0) }
}

/// Whether an interrupt of the slot's line had come, which is then taken.
pub fn poll(slot: u32) -> Result<bool, Error> {
    unsafe { call(9, slot, 0, 0) }.map(|it| it == 1)
}

/// Waits for an interrupt of the slot's line, where none has come yet.
pub fn wait(slot: u32) -> Result<(), Error> {
    unsafe { call(10, slot, 0, 0) }.map(drop)
}

/// Does what an interrupt of the slot's line would.
pub fn signal(slot: u32) -> Result<(), Error> {
    unsafe { call(11, slot, 0, 0) }.map(drop)
}

/// The domain's next thread that is ready runs.
pub fn yield_now() {
    let _ = unsafe { call(13, 0, 0, 0) };
}

/// Puts a word into a box of the image's `mail`, by its place there from 0; it goes off as the slot
/// ends. A slot can put in 16, whether or not the receiver has taken earlier ones.
pub fn send(at: u32, word: u32) -> Result<(), Error> {
    unsafe { call(19, at, word, 0) }.map(drop)
}

/// Takes the first word that is left in a box. Words come in as a slot begins, in the place of those
/// that were not taken.
pub fn recv(at: u32) -> Result<u32, Error> {
    unsafe { call(20, at, 0, 0) }
}

/// Starts a thread that runs a function on a stack of its own, and ends as it returns; answers
/// its number, 0 to 7. (Its stack has 32 bytes at least, else there is a panic.)
pub fn start_thread(
    function: extern "C" fn(u32),
    argument: u32,
    stack: &'static mut [u8],
) -> Result<u32, Error> {
    unsafe extern "C" {
        fn tp_thread_entry(); // (in crt0.S)
    }
    assert!(stack.len() >= 32, "a thread's stack is too small");
    let top = (stack.as_mut_ptr_range().end as usize - 16) & !15;
    let begun_with = top as *mut [u32; 2];
    // SAFETY: the stack is the thread's alone, and the 16 bytes below its end are in it.
    unsafe {
        begun_with.write([function as usize as u32, argument]);
        call(12, tp_thread_entry as *const () as usize as u32, top as u32, 0)
    }
}

macro_rules! counters {
    ($($(#[$told:meta])* $name:ident = $csr:literal)*) => {$(
        $(#[$told])*
        #[inline(always)]
        pub fn $name() -> u32 {
            let value: u32;
            // (no `nomem`: what is timed stays between two readings)
            unsafe { asm!(concat!("csrr {}, ", $csr), out(reg) value, options(nostack)) };
            value
        }
    )*};
}

// Each value that is read of these is one of the domain's readings in the report, which counts all
// and keeps the first 256.
counters! {
    /// The low half of the clock, in cycles, which goes on while others run.
    cycle = "cycle"
    /// The high half of the clock.
    cycle_high = "cycleh"
    /// The low half of the number of instructions that the domain has retired.
    instret = "instret"
    /// The high half of that number.
    instret_high = "instreth"
}

/// How many cycles a turn of [`rest`] takes: two instructions that are in the cache, each
/// `base + l1 + tlb` of the costs of sdk/c/machine.toml.
pub const REST_TURN: u32 = 6;

/// Rests for about so many cycles, in turns of a loop: it reads no clock, since what a spin
/// reads would fill the readings that are kept. They are cycles in which the domain runs: where
/// its slot ends meanwhile, what is left is rested in its next one.
pub fn rest(cycles: u32) {
    let mut turns = cycles / REST_TURN;
    while turns != 0 {
        turns -= 1;
        unsafe { asm!("", options(nomem, nostack, preserves_flags)) };
    }
}

/// The domain's output, for `write!`. An error means that it is full.
pub struct Output;

impl Write for Output {
    fn write_str(&mut self, text: &str) -> fmt::Result {
        text.bytes().try_for_each(put).map_err(|_| fmt::Error)
    }
}

/// Prints as `format!` does; what goes beyond the output's end is lost.
#[macro_export]
macro_rules! print {
    ($($it:tt)*) => {{
        let _ = core::fmt::Write::write_fmt(&mut $crate::Output, format_args!($($it)*));
    }};
}

/// Prints as [`print!`] does, and a new line.
#[macro_export]
macro_rules! println {
    () => { $crate::print!("\n") };
    ($($it:tt)*) => {{
        $crate::print!($($it)*);
        $crate::print!("\n");
    }};
}

/// Prints where there was a panic and why, and stops the domain.
#[panic_handler]
fn panic(info: &PanicInfo) -> ! {
    println!("{info}");
    abort()
}
