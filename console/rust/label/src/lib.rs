//! Grey label pictures, their bits and their blocks.
//!
//! A picture has S x S greys of one byte, S = 2^k, k from 3 to 8, row by row. [`forward`] makes wavelet numbers of
//! them, [`code`] makes bits of the numbers, the most significant plane first, and [`write()`] makes 512-byte blocks of
//! the bits: the record. A record may be cut anywhere. [`read`] takes its longest run of good blocks, [`decode`] what
//! their bits settle, and [`inverse`] makes greys of that, or [`thumbnail`] those of a smaller picture, or [`display`]
//! those of a softer one, for the eye. [`check`] judges one block by itself.
//!
//! The S x S numbers stand in Z order: the place of row r, column c has the bits of r and c by turns, the lowest bit of
//! c lowest. The levels, L, go from 1 to the smaller of 5 and k - 1; the bit planes, n, from 0 to 18. A label is eight
//! ASCII characters, each 0 to 9 or A to Z. It is never a number: leading zeros count. Small letters and spaces are
//! refused. A record is of one of two editions, and the second names the arm and the mount: see [`Edition`].
//!
//! ```
//! use label::{Edition, BLOCK_BYTES, PAYLOAD_BYTES, MOST_PLANES};
//!
//! const K: u32 = 3; // side 8
//! const L: u32 = 2;
//! const PLACES: usize = label::places(K);
//! const BLOCKS: usize = label::most_blocks(K, MOST_PLANES);
//!
//! # fn main() -> Result<(), label::Refusal> {
//! // a picture into a record
//! let picture: [u8; PLACES] = std::array::from_fn(|place| (3 * place) as u8);
//! let mut numbers = [0; PLACES];
//! let mut bytes = [0; label::most_bytes(K, MOST_PLANES)];
//! let mut record = [0; BLOCKS * BLOCK_BYTES];
//! label::forward(K, L, &picture, &mut numbers)?;
//! let coded = label::code(K, L, &numbers, usize::MAX, &mut bytes)?;
//! let edition = Edition::Two { arm: 1, mount: 70_123 };
//! let blocks = label::write(K, L, coded.n, edition, b"00000417", &bytes, coded.bits, &mut record)?;
//! let record = &record[..blocks * BLOCK_BYTES];
//!
//! // and out of it
//! let mut payload = [0; BLOCKS * PAYLOAD_BYTES];
//! let (mut shown, mut room) = ([0; PLACES], [0; PLACES]);
//! let kept = label::read(record, b"00000417", &mut payload)?;
//! let settled = label::decode(kept.k, kept.levels, kept.n, &mut numbers, &payload, kept.bits)?;
//! label::inverse(kept.k, kept.levels, &numbers, &mut shown, &mut room)?;
//! assert_eq!(label::grey_limit(kept.levels, settled.unfinished), 0);
//! assert_eq!((kept.edition, shown), (edition, picture));
//! # Ok(())
//! # }
//! ```
//!
//! # What a call does
//! Every call takes whatever it is given and ends. What it can't do it refuses, for the first reason that applies (see
//! [`Refusal`]), and then it has changed nothing that it was lent. Nothing is allocated and nothing is kept between
//! calls. That the code of the archive does its jobs is proved, for every input; that this package declares what the
//! archive exports is not, and is tried by its tests.
//!
//! # What a cut picture is worth
//! With p planes unfinished no wavelet number's magnitude is above the true one, none is short by more than 2^p - 1,
//! none that isn't zero has the wrong sign, and no grey is off by more than [`grey_limit`]. With p = 0 it is the very
//! picture. The numbers before [`Settled::place`], where the cut fell, have a plane more and are short by at most
//! 2^(p - 1) - 1. A thumbnail of r halvings is, with p = 0, the low band that r levels leave of the picture, plus 128
//! and set into 0 to 255; else no grey is further from that than `grey_limit(levels - halvings, unfinished)`.
//!
//! A softer picture shows each number that isn't zero moved up in magnitude by half of what is still unknown of it. With u
//! of its bits unread, u at least 1, it is within 2^(u - 1) of the true one; with u = 0 it is the true one. No grey is off
//! by more than [`grey_limit`], as in the plain picture; it is not promised to be nearer to the truth than that.
//!
//! All this is about bits of one coding: blocks of two shots under one label with the same k, L and n fit together
//! unnoticed in edition 1, and in edition 2 only if arm and mount number are the same too; what they show was never shot.
//!
//! # Linking
//! The archive is x86-64 code for ELF, as on Linux, and calls `memcpy` and `memset`, nothing else. `build.rs` looks for
//! `liblabel.a` or `libconsole.a` in the folder that `LABEL_LIB_DIR` names; if that is not set, in `../../../lib`, where
//! it stands beside the installed package, and in `../../../crates/console/out`, where the source tree has it.

#![no_std]
#![deny(missing_docs)]
#![deny(unsafe_code)]

#[cfg(not(all(
    target_arch = "x86_64",
    target_pointer_width = "64",
    not(any(windows, target_vendor = "apple"))
)))]
compile_error!("label: the archive is x86-64 code for ELF, as on Linux: build with --target x86_64-unknown-linux-gnu");

mod edition;
#[allow(unsafe_code)]
pub mod raw;
mod refusal;
mod sizes;

pub use edition::Edition;
pub use refusal::Refusal;
pub use sizes::{blocks, blocks_of, grey_limit, most_bits, most_blocks, most_bytes, most_levels, payload_bits_of};
pub use sizes::{places, side, thumbnail_places, thumbnail_side};
pub use sizes::{BLOCK_BYTES, LABEL_BYTES, LEAST_K, MOST_K, MOST_LEVELS, MOST_MOUNT, MOST_PLANES, NUMBER_LIMIT};
pub use sizes::{PAYLOAD_BITS, PAYLOAD_BYTES};

/// What [`code`] wrote.
#[derive(Clone, Copy, Debug, PartialEq, Eq, Hash)]
pub struct Coded {
    /// The bits written.
    pub bits: usize,
    /// The planes that the numbers need, cut or not.
    pub n: u32,
}

/// What [`decode`] settled.
#[derive(Clone, Copy, Debug, PartialEq, Eq, Hash)]
pub struct Settled {
    /// p, the planes that are not finished: 0 is the very picture. What [`grey_limit`] asks for.
    pub unfinished: u32,
    /// The bits read; those behind them, if any, say nothing.
    pub read: usize,
    /// Where the cut fell: the lowest place, in Z order, that is not yet settled in the plane that is running. It is below
    /// [`places`], and 0 where no plane is running or none of it is settled. The numbers before it are short by at most
    /// 2^(p - 1) - 1, the others by at most 2^p - 1.
    pub place: usize,
}

/// What [`read`] kept.
#[derive(Clone, Copy, Debug, PartialEq, Eq, Hash)]
pub struct Kept {
    /// The side is 2^k.
    pub k: u32,
    /// The levels, L.
    pub levels: u32,
    /// The planes of the whole coding, n.
    pub n: u32,
    /// The edition, with the arm and the mount that all blocks kept name in edition 2.
    pub edition: Edition,
    /// The blocks kept.
    pub blocks: usize,
    /// The bits that they hold. Where this is [`payload_bits_of`] the edition for each block, there may have been more
    /// blocks.
    pub bits: usize,
    /// Why the block behind them was not kept: [`Refusal::Damaged`], [`Refusal::Fields`] or [`Refusal::Turn`]. None
    /// where no block came, or the last one kept was not full.
    pub ended: Option<Refusal>,
}

/// Greys to wavelet numbers: fills `numbers`, and gives n, the planes that they need.
///
/// # Errors
/// [`Side`](Refusal::Side), [`Levels`](Refusal::Levels), [`Length`](Refusal::Length).
///
/// ```
/// let mut numbers = [7; 64];
/// assert_eq!(label::forward(3, 2, &[128; 64], &mut numbers), Ok(0)); // a flat picture has no plane
/// assert_eq!(numbers, [0; 64]);
/// assert_eq!(label::forward(3, 2, &[128; 63], &mut numbers), Err(label::Refusal::Length));
/// ```
pub fn forward(k: u32, levels: u32, picture: &[u8], numbers: &mut [i32]) -> Result<u32, Refusal> {
    raw::forward(k, levels, picture, numbers).result()
}

/// Wavelet numbers to bits: writes the first of `limit`, 8 x `bytes.len()` and all, whichever is least.
///
/// Spare bits of the last byte written are 0, later bytes untouched. The coding may have been cut where as many bits
/// were written as `limit` or as the bytes have; with [`most_bytes`] of room and no limit (`usize::MAX`) it never is.
///
/// # Errors
/// [`Side`](Refusal::Side), [`Levels`](Refusal::Levels), [`Length`](Refusal::Length), [`Number`](Refusal::Number).
///
/// ```
/// let mut numbers = [0; 64];
/// numbers[0] = 5;
/// let mut bytes = [0xFF; 4];
/// assert_eq!(label::code(3, 2, &numbers, usize::MAX, &mut bytes), Ok(label::Coded { bits: 17, n: 3 }));
/// assert_eq!(bytes, [0xC0, 0x08, 0x00, 0xFF]);
/// ```
pub fn code(k: u32, levels: u32, numbers: &[i32], limit: usize, bytes: &mut [u8]) -> Result<Coded, Refusal> {
    raw::code(k, levels, numbers, limit, bytes).result()
}

/// Bits to wavelet numbers: writes all S x S numbers, those that the first `b` bits settle and 0 elsewhere, whatever
/// the slice held. Gives the planes that are not finished, the bits read, and the place where the cut fell.
///
/// Of the plane that is running, a closed set or a closed rest settles all its places, an open one none, and a 1 whose
/// sign is missing does not settle its number.
///
/// # Errors
/// [`Side`](Refusal::Side), [`Levels`](Refusal::Levels), [`Length`](Refusal::Length), [`Planes`](Refusal::Planes),
/// [`Room`](Refusal::Room).
///
/// ```
/// let bytes = [0xC0, 0x08, 0x00];
/// let mut numbers = [9; 64];
/// let settled = label::decode(3, 2, 3, &mut numbers, &bytes, 7).unwrap();
/// assert_eq!((settled.unfinished, numbers[0]), (2, 4)); // of 5, with 7 of 17 bits
/// assert_eq!(settled.place, 0); // one plane is finished, and none of the next is settled
/// let settled = label::decode(3, 2, 3, &mut numbers, &bytes, 10).unwrap();
/// assert_eq!((settled.unfinished, settled.place), (2, 3)); // three numbers of the next are
/// assert_eq!(label::decode(3, 2, 3, &mut numbers, &bytes, 25), Err(label::Refusal::Room));
/// ```
pub fn decode(k: u32, levels: u32, n: u32, numbers: &mut [i32], bytes: &[u8], b: usize) -> Result<Settled, Refusal> {
    raw::decode(k, levels, n, numbers, bytes, b).result()
}

/// Wavelet numbers to greys: fills the picture.
///
/// `room` ends with the greys before they are set into 0 to 255, in Z order.
///
/// # Errors
/// [`Side`](Refusal::Side), [`Levels`](Refusal::Levels), [`Length`](Refusal::Length), [`Number`](Refusal::Number).
///
/// ```
/// let (mut picture, mut room) = ([0; 64], [0; 64]);
/// label::inverse(3, 2, &[0; 64], &mut picture, &mut room).unwrap();
/// assert_eq!(picture, [128; 64]);
/// ```
pub fn inverse(k: u32, levels: u32, numbers: &[i32], picture: &mut [u8], room: &mut [i32]) -> Result<(), Refusal> {
    refusal::judged(raw::inverse(k, levels, numbers, picture, room), ())
}

/// Wavelet numbers to the greys of a thumbnail, the side halved `halvings` times, from 1 to `levels`: fills the picture.
///
/// `numbers` are all S x S, of which the first [`thumbnail_places`] are used; `picture` and `room` are that long. `room`
/// ends with the greys before they are set into 0 to 255, in Z order. No grey is off by more than
/// [`grey_limit`]`(levels - halvings, unfinished)` from the low band that so many levels leave of the picture.
///
/// # Errors
/// In this order: [`Side`](Refusal::Side), [`Levels`](Refusal::Levels), [`Halvings`](Refusal::Halvings),
/// [`Length`](Refusal::Length), [`Number`](Refusal::Number).
///
/// ```
/// let mut numbers = [0; 64];
/// numbers[0] = 5;
/// let (mut picture, mut room) = ([0; label::thumbnail_places(3, 1)], [0; label::thumbnail_places(3, 1)]);
/// label::thumbnail(3, 2, 1, &numbers, &mut picture, &mut room).unwrap();
/// assert_eq!(picture[..8], [133, 130, 128, 128, 130, 129, 128, 128]); // two of its four rows
/// label::thumbnail(3, 2, 2, &numbers, &mut picture[..4], &mut room[..4]).unwrap();
/// assert_eq!(picture[..4], [133, 128, 128, 128]);
/// assert_eq!(label::thumbnail(3, 2, 3, &numbers, &mut [], &mut []), Err(label::Refusal::Halvings));
/// ```
pub fn thumbnail(
    k: u32,
    levels: u32,
    halvings: u32,
    numbers: &[i32],
    picture: &mut [u8],
    room: &mut [i32],
) -> Result<(), Refusal> {
    refusal::judged(raw::thumbnail(k, levels, halvings, numbers, picture, room), ())
}

/// Wavelet numbers to the greys of a softer picture, for the eye: fills the picture.
///
/// `numbers` are as [`decode`] left them, `unfinished` and `place` as it gave them; any others that are not refused are
/// taken too. Then nothing is promised, and no refusal tells: p or place of another decoding, p forgotten as 0, p and place
/// exchanged. Each number that isn't 0 is shown moved up in magnitude by 2^(u - 1) where u, how many of its bits are
/// unread, is at least 1: u is `unfinished` less 1 before the place and `unfinished` from it on; with `unfinished` 0
/// nothing is moved. The numbers lent are not changed, and they alone are judged: of numbers that no decoding left so, what
/// is moved may pass [`NUMBER_LIMIT`] and reach 393,215. `room` ends with the greys before they are set into 0 to 255, in
/// Z order.
///
/// No grey is off by more than [`grey_limit`]`(levels, unfinished)`, as in the picture of [`inverse`]. It is not promised
/// to be nearer to the truth than that one. It is for the eye: to measure or to keep, take the plain picture, of whose
/// numbers more is proved.
///
/// # Errors
/// [`Side`](Refusal::Side), [`Levels`](Refusal::Levels), [`Length`](Refusal::Length), [`Number`](Refusal::Number),
/// [`Planes`](Refusal::Planes) (`unfinished` above [`MOST_PLANES`]), [`State`](Refusal::State) (a place that is not below
/// [`places`], whatever `unfinished` is).
///
/// ```
/// let (mut numbers, mut picture, mut room) = ([0; 64], [0; 64], [0; 64]);
/// let settled = label::decode(3, 2, 3, &mut numbers, &[0xC0, 0x08, 0x00], 8).unwrap();
/// assert_eq!((settled.unfinished, settled.place, numbers[0]), (2, 1, 4)); // of 5: its last bit is unread
/// label::display(3, 2, settled.unfinished, settled.place, &numbers, &mut picture, &mut room).unwrap();
/// assert_eq!((numbers[0], room[0]), (4, 128 + 5)); // shown as 5
/// label::inverse(3, 2, &numbers, &mut picture, &mut room).unwrap();
/// assert_eq!(room[0], 128 + 4);
/// assert_eq!(label::display(3, 2, 2, 64, &numbers, &mut picture, &mut room), Err(label::Refusal::State));
/// ```
pub fn display(
    k: u32,
    levels: u32,
    unfinished: u32,
    place: usize,
    numbers: &[i32],
    picture: &mut [u8],
    room: &mut [i32],
) -> Result<(), Refusal> {
    refusal::judged(raw::display(k, levels, unfinished, place, numbers, picture, room), ())
}

/// Bits to blocks: writes the record of the first `b` bits at the front of `room`, in this edition, and gives its count
/// of blocks.
///
/// It takes [`BLOCK_BYTES`] for each of [`blocks_of`]`(edition, b)`; what lies behind is untouched.
///
/// # Errors
/// [`Side`](Refusal::Side), [`Levels`](Refusal::Levels), [`Planes`](Refusal::Planes), [`Room`](Refusal::Room) (more
/// bits than the bytes have or than n planes can have, or too little room), [`Label`](Refusal::Label),
/// [`Fields`](Refusal::Fields) (an arm that is neither 1 nor 2, or a mount number above [`MOST_MOUNT`]).
///
/// ```
/// use label::{Edition, Refusal};
///
/// let mut record = [0; 512];
/// assert_eq!(label::write(3, 2, 0, Edition::One, b"00000417", &[], 0, &mut record), Ok(1));
/// assert_eq!(record[508..], [0x01, 0x92, 0x0D, 0x54]);
/// assert_eq!(label::write(3, 2, 0, Edition::One, b"0417AAL6", &[], 0, &mut record), Ok(1));
/// assert_eq!(label::write(3, 2, 0, Edition::One, b"0417aal6", &[], 0, &mut record), Err(Refusal::Label));
/// assert_eq!(label::write(3, 2, 0, Edition::One, b"417", &[], 0, &mut record), Err(Refusal::Label));
///
/// let edition = Edition::Two { arm: 2, mount: 70_123 };
/// assert_eq!(label::write(3, 2, 0, edition, b"0417AAL6", &[], 0, &mut record), Ok(1));
/// assert_eq!((record[0], &record[16..20]), (2, &[2, 0x01, 0x11, 0xEB][..]));
/// let edition = Edition::Two { arm: 3, mount: 70_123 };
/// assert_eq!(label::write(3, 2, 0, edition, b"0417AAL6", &[], 0, &mut record), Err(Refusal::Fields));
/// ```
#[allow(clippy::too_many_arguments)] // as many as the job has
pub fn write(
    k: u32,
    levels: u32,
    n: u32,
    edition: Edition,
    label: &[u8],
    bytes: &[u8],
    b: usize,
    room: &mut [u8],
) -> Result<usize, Refusal> {
    let (number, arm, mount) = (edition.number(), edition.arm(), edition.mount());
    raw::write(k, levels, n, number, arm, mount, label, bytes, b, room).result()
}

/// Blocks to bits: keeps the longest run of good blocks from the front, and puts their payload at the front of `room`.
///
/// `room` takes [`PAYLOAD_BYTES`] for each whole block of `blocks`, in either edition. Whatever stands behind the run
/// counts for nothing; what ended it is told by [`Kept::ended`]. The label is the one expected, and may be part of the
/// blocks themselves.
///
/// The run is of one record as far as blocks can tell: same edition, k, L, n and label, in edition 2 same arm and mount
/// too, numbered in turn. Blocks of another shot may have all of these, and then nobody can tell.
///
/// # Errors
/// [`Room`](Refusal::Room) (under 512 bytes, or too little room), [`Label`](Refusal::Label), and where block 0 can't be
/// kept [`Damaged`](Refusal::Damaged), [`Fields`](Refusal::Fields) or [`Turn`](Refusal::Turn).
///
/// ```
/// use label::{Edition, Refusal};
///
/// let mut record = [0; 512];
/// let edition = Edition::Two { arm: 2, mount: 70_123 };
/// label::write(3, 2, 3, edition, b"00000417", &[0xC0, 0x08, 0x00], 17, &mut record).unwrap();
/// let mut room = [0; label::PAYLOAD_BYTES];
/// let kept = label::read(&record, b"00000417", &mut room).unwrap();
/// assert_eq!((kept.k, kept.levels, kept.n, kept.edition), (3, 2, 3, edition));
/// assert_eq!((kept.blocks, kept.bits, kept.ended), (1, 17, None));
/// assert_eq!(label::read(&record, b"00000418", &mut room), Err(Refusal::Turn));
/// record[16] ^= 1;
/// assert_eq!(label::read(&record, b"00000417", &mut room), Err(Refusal::Damaged));
/// ```
pub fn read(blocks: &[u8], label: &[u8], room: &mut [u8]) -> Result<Kept, Refusal> {
    raw::read(blocks, label, room).result()
}

/// Judges one block, of either edition, but neither its number nor whose label it has. If its checks were right, and one
/// or two of its bytes were changed in place since, or two unequal ones exchanged, it is always
/// [`Damaged`](Refusal::Damaged).
///
/// # Errors
/// [`Room`](Refusal::Room) (not 512 bytes), [`Damaged`](Refusal::Damaged), [`Fields`](Refusal::Fields).
///
/// ```
/// assert_eq!(label::check(&[0; 511]), Err(label::Refusal::Room));
/// assert_eq!(label::check(&[0; 512]), Err(label::Refusal::Fields)); // its checks are right: there is no edition 0
/// ```
pub fn check(block: &[u8]) -> Result<(), Refusal> {
    refusal::judged(raw::check(block), ())
}

/// The examples of the README run too.
#[cfg(doctest)]
#[doc = include_str!("../README.md")]
struct Readme;
