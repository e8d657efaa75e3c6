//! The label package where there is nothing else: no std, no C library, no heap. A picture goes into a record and comes
//! out of it, whole and cut; the program ends with 0 if all was as it should be, else with the number of the step that
//! was not.

#![no_std]
#![no_main]

use core::arch::{asm, global_asm};
use core::panic::PanicInfo;
use label::{Edition, Refusal, BLOCK_BYTES, MOST_PLANES, PAYLOAD_BYTES};

const K: u32 = 5;
const L: u32 = 2;
const LABEL: &[u8; 8] = b"00000417";
const EDITION: Edition = Edition::Two { arm: 1, mount: 70_123 };
const PLACES: usize = label::places(K);
const BLOCKS: usize = label::most_blocks(K, MOST_PLANES);

/// Takes a picture there and back. Gives the step that went wrong, or 0.
fn journey() -> Result<u8, Refusal> {
    let mut picture = [0; PLACES];
    for (place, grey) in picture.iter_mut().enumerate() {
        *grey = (place * place / 7) as u8;
    }
    let mut numbers = [0; PLACES];
    let mut bytes = [0; label::most_bytes(K, MOST_PLANES)];
    let mut record = [0; BLOCKS * BLOCK_BYTES];
    label::forward(K, L, &picture, &mut numbers)?;
    let coded = label::code(K, L, &numbers, usize::MAX, &mut bytes)?;
    let blocks = label::write(K, L, coded.n, EDITION, LABEL, &bytes, coded.bits, &mut record)?;
    if blocks < 2 {
        return Ok(2);
    }
    for count in 1..=blocks {
        let mut payload = [0; BLOCKS * PAYLOAD_BYTES];
        let (mut shown, mut room) = ([0; PLACES], [0; PLACES]);
        label::check(&record[(count - 1) * BLOCK_BYTES..count * BLOCK_BYTES])?;
        let kept = label::read(&record[..count * BLOCK_BYTES], LABEL, &mut payload)?;
        let settled = label::decode(kept.k, kept.levels, kept.n, &mut numbers, &payload, kept.bits)?;
        label::inverse(kept.k, kept.levels, &numbers, &mut shown, &mut room)?;
        let limit = label::grey_limit(kept.levels, settled.unfinished);
        if (settled.unfinished == 0) != (count == blocks) || kept.edition != EDITION {
            return Ok(3);
        }
        if settled.place >= PLACES || (settled.unfinished == 0 && settled.place != 0) {
            return Ok(6);
        }
        if picture
            .iter()
            .zip(&shown)
            .any(|(grey, shown)| grey.abs_diff(*shown) > limit)
        {
            return Ok(4);
        }
        let (p, place) = (settled.unfinished, settled.place);
        label::display(kept.k, kept.levels, p, place, &numbers, &mut shown, &mut room)?;
        if picture
            .iter()
            .zip(&shown)
            .any(|(grey, shown)| grey.abs_diff(*shown) > limit)
        {
            return Ok(7);
        }
    }
    if label::read(&record, b"00000418", &mut [0; BLOCKS * PAYLOAD_BYTES]) != Err(Refusal::Turn) {
        return Ok(5);
    }
    Ok(0)
}

fn end(status: u8) -> ! {
    // SAFETY: the call `exit` of Linux on x86-64 does not come back
    unsafe { asm!("syscall", in("rax") 60, in("rdi") u64::from(status), options(noreturn)) }
}

// where a program begins if nothing comes before it
global_asm!(".globl _start", "_start:", "xor ebp, ebp", "and rsp, -16", "call {begin}", "ud2", begin = sym begin);

extern "C" fn begin() -> ! {
    end(match journey() {
        Ok(step) => step,
        Err(refusal) => 100 + refusal.number() as u8,
    })
}

#[panic_handler]
fn panicked(_: &PanicInfo) -> ! {
    end(99)
}

// What the archive and core ask of a C library, in single instructions, which no compiler turns into calls of themselves.

/// # Safety
/// As in C.
#[unsafe(no_mangle)]
unsafe extern "C" fn memcpy(to: *mut u8, from: *const u8, count: usize) -> *mut u8 {
    // SAFETY: the caller's
    unsafe { asm!("rep movsb", inout("rcx") count => _, inout("rdi") to => _, inout("rsi") from => _) };
    to
}

/// # Safety
/// As in C.
#[unsafe(no_mangle)]
unsafe extern "C" fn memset(to: *mut u8, byte: i32, count: usize) -> *mut u8 {
    // SAFETY: the caller's
    unsafe { asm!("rep stosb", inout("rcx") count => _, inout("rdi") to => _, in("al") byte as u8) };
    to
}

// core comes compiled for programs that unwind, and names this; here nothing unwinds
#[unsafe(no_mangle)]
extern "C" fn rust_eh_personality() {}
