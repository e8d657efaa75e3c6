//! The nine calls with the plain answers of `label.h`: a refusal's number beside the rest, which is 0 where that
//! number is not.
//!
//! The calls of the package itself say the same as a [`Result`]; these are for a caller that compares answers field by
//! field, or hands them on to C. They are safe too: the archive asks nothing of what it is given but that a slice is
//! one, and that no slice which it writes to overlaps another. Rust's borrows are that.

use crate::edition::Edition;
use crate::refusal::{judged, Refusal};

/// What [`forward`] answers.
#[repr(C)]
#[derive(Clone, Copy, Debug, Default, PartialEq, Eq, Hash)]
#[must_use]
pub struct Planes {
    /// 0, or 1, 2, 3.
    pub refusal: u32,
    /// The planes that the numbers need.
    pub n: u32,
}

/// What [`code`] answers.
#[repr(C)]
#[derive(Clone, Copy, Debug, Default, PartialEq, Eq, Hash)]
#[must_use]
pub struct Written {
    /// 0, or 1, 2, 3, 4.
    pub refusal: u32,
    /// The bits written.
    pub bits: usize,
    /// The planes that the numbers need.
    pub n: u32,
}

/// What [`decode`] answers.
#[repr(C)]
#[derive(Clone, Copy, Debug, Default, PartialEq, Eq, Hash)]
#[must_use]
pub struct Settled {
    /// 0, or 1, 2, 3, 5, 6.
    pub refusal: u32,
    /// The planes that are not finished.
    pub unfinished: u32,
    /// The bits read.
    pub read: usize,
    /// The lowest Z place not yet settled in the plane that is running; 0 where none is running or none of it is settled.
    pub place: usize,
}

/// What [`write()`] answers.
#[repr(C)]
#[derive(Clone, Copy, Debug, Default, PartialEq, Eq, Hash)]
#[must_use]
pub struct Blocks {
    /// 0, or 1, 2, 5, 6, 7, 9.
    pub refusal: u32,
    /// The blocks written.
    pub blocks: usize,
}

/// What [`read`] answers.
#[repr(C)]
#[derive(Clone, Copy, Debug, Default, PartialEq, Eq, Hash)]
#[must_use]
pub struct Kept {
    /// 0, or 6, 7, 8, 9, 10.
    pub refusal: u32,
    /// The side is 2^k.
    pub k: u32,
    /// The levels.
    pub levels: u32,
    /// The planes.
    pub n: u32,
    /// The blocks kept.
    pub blocks: usize,
    /// The bits that they hold.
    pub bits: usize,
    /// The number that ended the run, 8, 9 or 10; 0 if none did.
    pub ended: u32,
    /// The edition, 1 or 2.
    pub edition: u32,
    /// The arm, 1 or 2; 0 in edition 1.
    pub arm: u32,
    /// The mount number; 0 in edition 1.
    pub mount: u32,
}

impl Planes {
    /// The planes, or the refusal by name.
    ///
    /// # Errors
    /// The refusal, where its number is not 0.
    ///
    /// # Panics
    /// If `refusal` is a number that no [`Refusal`] has, and no answer of the archive. So do the others.
    pub const fn result(self) -> Result<u32, Refusal> {
        judged(self.refusal, self.n)
    }
}

impl Written {
    /// The bits and planes, or the refusal by name.
    ///
    /// # Errors
    /// The refusal, where its number is not 0.
    pub const fn result(self) -> Result<crate::Coded, Refusal> {
        let coded = crate::Coded {
            bits: self.bits,
            n: self.n,
        };
        judged(self.refusal, coded)
    }
}

impl Settled {
    /// The unfinished planes, the bits read and the place where the cut fell, or the refusal by name.
    ///
    /// # Errors
    /// The refusal, where its number is not 0.
    pub const fn result(self) -> Result<crate::Settled, Refusal> {
        let settled = crate::Settled {
            unfinished: self.unfinished,
            read: self.read,
            place: self.place,
        };
        judged(self.refusal, settled)
    }
}

impl Blocks {
    /// The blocks written, or the refusal by name.
    ///
    /// # Errors
    /// The refusal, where its number is not 0.
    pub const fn result(self) -> Result<usize, Refusal> {
        judged(self.refusal, self.blocks)
    }
}

impl Kept {
    /// What was kept, or the refusal by name.
    ///
    /// # Errors
    /// The refusal, where its number is not 0.
    ///
    /// # Panics
    /// If `edition` is neither 1 nor 2 where nothing was refused, too.
    pub const fn result(self) -> Result<crate::Kept, Refusal> {
        // a refused answer has no edition
        if let Err(refusal) = judged(self.refusal, ()) {
            return Err(refusal);
        }
        Ok(crate::Kept {
            k: self.k,
            levels: self.levels,
            n: self.n,
            edition: Edition::named(self.edition, self.arm, self.mount),
            blocks: self.blocks,
            bits: self.bits,
            ended: match judged(self.ended, ()) {
                Ok(()) => None,
                Err(refusal) => Some(refusal),
            },
        })
    }
}

/// The archive's functions: a slice crosses as a pointer and a count of elements.
mod archive {
    use super::{Blocks, Kept, Planes, Settled, Written};

    // SAFETY: these are the declarations of label.h
    unsafe extern "C" {
        pub(super) fn label_forward(
            k: u32,
            levels: u32,
            picture: *const u8,
            picture_count: usize,
            numbers: *mut i32,
            numbers_count: usize,
        ) -> Planes;
        pub(super) fn label_code(
            k: u32,
            levels: u32,
            numbers: *const i32,
            numbers_count: usize,
            limit: usize,
            bytes: *mut u8,
            bytes_count: usize,
        ) -> Written;
        pub(super) fn label_decode(
            k: u32,
            levels: u32,
            n: u32,
            numbers: *mut i32,
            numbers_count: usize,
            bytes: *const u8,
            bytes_count: usize,
            b: usize,
        ) -> Settled;
        pub(super) fn label_inverse(
            k: u32,
            levels: u32,
            numbers: *const i32,
            numbers_count: usize,
            picture: *mut u8,
            picture_count: usize,
            room: *mut i32,
            room_count: usize,
        ) -> u32;
        pub(super) fn label_thumbnail(
            k: u32,
            levels: u32,
            halvings: u32,
            numbers: *const i32,
            numbers_count: usize,
            picture: *mut u8,
            picture_count: usize,
            room: *mut i32,
            room_count: usize,
        ) -> u32;
        pub(super) fn label_display(
            k: u32,
            levels: u32,
            unfinished: u32,
            place: usize,
            numbers: *const i32,
            numbers_count: usize,
            picture: *mut u8,
            picture_count: usize,
            room: *mut i32,
            room_count: usize,
        ) -> u32;
        pub(super) fn label_write(
            k: u32,
            levels: u32,
            n: u32,
            edition: u32,
            arm: u32,
            mount: u32,
            label: *const u8,
            label_count: usize,
            bytes: *const u8,
            bytes_count: usize,
            b: usize,
            room: *mut u8,
            room_count: usize,
        ) -> Blocks;
        pub(super) fn label_read(
            blocks: *const u8,
            blocks_count: usize,
            label: *const u8,
            label_count: usize,
            room: *mut u8,
            room_count: usize,
        ) -> Kept;
        pub(super) fn label_block_check(block: *const u8, block_count: usize) -> u32;
    }
}

// Why each call below is safe: a pointer and a count come from one slice, so they are what the archive takes for one,
// the pointer of an empty slice too, which is not null. A slice that is written to is borrowed by the call alone; two
// that are only read may be parts of one another. The archive keeps none of them and its calls ask nothing else.

/// Greys to numbers: see [`forward`](crate::forward).
pub fn forward(k: u32, levels: u32, picture: &[u8], numbers: &mut [i32]) -> Planes {
    // SAFETY: as above
    unsafe {
        archive::label_forward(
            k,
            levels,
            picture.as_ptr(),
            picture.len(),
            numbers.as_mut_ptr(),
            numbers.len(),
        )
    }
}

/// Numbers to bits: see [`code`](crate::code).
pub fn code(k: u32, levels: u32, numbers: &[i32], limit: usize, bytes: &mut [u8]) -> Written {
    // SAFETY: as above
    unsafe {
        archive::label_code(
            k,
            levels,
            numbers.as_ptr(),
            numbers.len(),
            limit,
            bytes.as_mut_ptr(),
            bytes.len(),
        )
    }
}

/// Bits to numbers: see [`decode`](crate::decode).
pub fn decode(k: u32, levels: u32, n: u32, numbers: &mut [i32], bytes: &[u8], b: usize) -> Settled {
    // SAFETY: as above
    unsafe {
        archive::label_decode(
            k,
            levels,
            n,
            numbers.as_mut_ptr(),
            numbers.len(),
            bytes.as_ptr(),
            bytes.len(),
            b,
        )
    }
}

/// Numbers to greys: see [`inverse`](crate::inverse). Gives the refusal's number, 0, 1, 2, 3 or 4.
#[must_use]
pub fn inverse(k: u32, levels: u32, numbers: &[i32], picture: &mut [u8], room: &mut [i32]) -> u32 {
    // SAFETY: as above
    unsafe {
        archive::label_inverse(
            k,
            levels,
            numbers.as_ptr(),
            numbers.len(),
            picture.as_mut_ptr(),
            picture.len(),
            room.as_mut_ptr(),
            room.len(),
        )
    }
}

/// Numbers to a thumbnail's greys: see [`thumbnail`](crate::thumbnail). Gives the refusal's number, judged in the order
/// 1, 2, 13, 3, 4; 0 if none.
#[must_use]
pub fn thumbnail(k: u32, levels: u32, halvings: u32, numbers: &[i32], picture: &mut [u8], room: &mut [i32]) -> u32 {
    // SAFETY: as above
    unsafe {
        archive::label_thumbnail(
            k,
            levels,
            halvings,
            numbers.as_ptr(),
            numbers.len(),
            picture.as_mut_ptr(),
            picture.len(),
            room.as_mut_ptr(),
            room.len(),
        )
    }
}

/// Numbers to a softer picture's greys: see [`display`](crate::display). Gives the refusal's number, judged in the order 1,
/// 2, 3, 4, 5, 11; 0 if none.
#[must_use]
pub fn display(
    k: u32,
    levels: u32,
    unfinished: u32,
    place: usize,
    numbers: &[i32],
    picture: &mut [u8],
    room: &mut [i32],
) -> u32 {
    // SAFETY: as above
    unsafe {
        archive::label_display(
            k,
            levels,
            unfinished,
            place,
            numbers.as_ptr(),
            numbers.len(),
            picture.as_mut_ptr(),
            picture.len(),
            room.as_mut_ptr(),
            room.len(),
        )
    }
}

/// Bits to blocks: see [`write`](crate::write). An edition that is neither 1 nor 2 is 9, judged just before 6; in edition
/// 2 so is an arm that is neither 1 nor 2, or a mount number above [`MOST_MOUNT`](crate::MOST_MOUNT), judged after 7. In
/// edition 1 arm and mount are ignored.
#[allow(clippy::too_many_arguments)] // they are label.h's
pub fn write(
    k: u32,
    levels: u32,
    n: u32,
    edition: u32,
    arm: u32,
    mount: u32,
    label: &[u8],
    bytes: &[u8],
    b: usize,
    room: &mut [u8],
) -> Blocks {
    // SAFETY: as above
    unsafe {
        archive::label_write(
            k,
            levels,
            n,
            edition,
            arm,
            mount,
            label.as_ptr(),
            label.len(),
            bytes.as_ptr(),
            bytes.len(),
            b,
            room.as_mut_ptr(),
            room.len(),
        )
    }
}

/// Blocks to bits: see [`read`](crate::read).
pub fn read(blocks: &[u8], label: &[u8], room: &mut [u8]) -> Kept {
    // SAFETY: as above
    unsafe {
        archive::label_read(
            blocks.as_ptr(),
            blocks.len(),
            label.as_ptr(),
            label.len(),
            room.as_mut_ptr(),
            room.len(),
        )
    }
}

/// Judges one block: see [`check`](crate::check). Gives the refusal's number, 0, 6, 8 or 9.
#[must_use]
pub fn check(block: &[u8]) -> u32 {
    // SAFETY: as above
    unsafe { archive::label_block_check(block.as_ptr(), block.len()) }
}
