//! The nine jobs: each makes the checks it has inputs for, lowest refusal
//! number first (but 13 before 3, and the edition's 9 before 6), and touches
//! lent memory only when none of them refuses.

use crate::bits;
use crate::block::{self, Heading};
use crate::edition::{Edition, Origin};
use crate::places::ZPlace;
use crate::record::{self, Kept};
use crate::refusal::Refusal;
use crate::sizes::{self, Sizes};
use crate::transform;
use crate::walk;

/// Fills the wavelet numbers and gives n.
pub fn forward(k: u32, levels: u32, picture: &[u8], numbers: &mut [i32]) -> Result<u32, Refusal> {
    let sizes = Sizes::new(k, levels)?;
    sizes.check_length(picture.len())?;
    sizes.check_length(numbers.len())?;
    transform::forward(sizes, picture, numbers);
    Ok(sizes::plane_count(numbers))
}

#[derive(Clone, Copy, Debug, Default, PartialEq, Eq)]
pub struct Coded {
    pub bits: u64,
    pub planes: u32,
}

/// Writes the first bits of the coding and gives their count and n.
pub fn coding(
    k: u32,
    levels: u32,
    numbers: &[i32],
    limit: u64,
    bytes: &mut [u8],
) -> Result<Coded, Refusal> {
    let sizes = Sizes::new(k, levels)?;
    sizes.check_length(numbers.len())?;
    sizes::check_magnitudes(numbers)?;
    let planes = sizes::plane_count(numbers);
    let bits = walk::code(sizes, planes, numbers, limit, bytes);
    Ok(Coded { bits, planes })
}

#[derive(Clone, Copy, Debug, Default, PartialEq, Eq)]
pub struct Decoded {
    pub unfinished: u32,
    pub bits_read: u64,
    /// The lowest place not yet settled in the running plane; 0 where no plane
    /// is running or none of it is settled.
    pub place: ZPlace,
}

/// Writes all numbers that the first `count` bits settle.
pub fn decoding(
    k: u32,
    levels: u32,
    planes: u32,
    numbers: &mut [i32],
    bytes: &[u8],
    count: u64,
) -> Result<Decoded, Refusal> {
    let sizes = Sizes::new(k, levels)?;
    sizes.check_length(numbers.len())?;
    sizes::check_planes(planes)?;
    Refusal::Room.when(!bits::hold(bytes, count))?;
    let (unfinished, bits_read, place) = walk::decode(sizes, planes, numbers, bytes, count);
    Ok(Decoded {
        unfinished,
        bits_read,
        place,
    })
}

/// Fills the picture, and the room with the greys before they are set into 0
/// to 255.
pub fn inverse(
    k: u32,
    levels: u32,
    numbers: &[i32],
    picture: &mut [u8],
    room: &mut [i32],
) -> Result<(), Refusal> {
    let sizes = Sizes::new(k, levels)?;
    for length in [numbers.len(), picture.len(), room.len()] {
        sizes.check_length(length)?;
    }
    sizes::check_magnitudes(numbers)?;
    transform::inverse(sizes, numbers, picture, room);
    Ok(())
}

/// Fills the picture of side S/2^r from the first (S/2^r)² numbers alone, and
/// the room with its greys before they are set into 0 to 255.
pub fn thumbnail(
    k: u32,
    levels: u32,
    halvings: u32,
    numbers: &[i32],
    picture: &mut [u8],
    room: &mut [i32],
) -> Result<(), Refusal> {
    let sizes = Sizes::new(k, levels)?;
    sizes.check_halvings(halvings)?;
    sizes.check_length(numbers.len())?;
    let places = sizes.halved_places(halvings);
    Refusal::Length.when(picture.len() != places || room.len() != places)?;
    let first = &numbers[..places];
    sizes::check_magnitudes(first)?;
    transform::thumbnail(sizes, halvings, first, picture, room);
    Ok(())
}

/// Fills the picture for display, and the room with its greys before they are
/// set into 0 to 255, from numbers that a decoding left with so many planes
/// unfinished at this place.
pub fn display(
    k: u32,
    levels: u32,
    unfinished: u32,
    place: u64,
    numbers: &[i32],
    picture: &mut [u8],
    room: &mut [i32],
) -> Result<(), Refusal> {
    let sizes = Sizes::new(k, levels)?;
    for length in [numbers.len(), picture.len(), room.len()] {
        sizes.check_length(length)?;
    }
    sizes::check_magnitudes(numbers)?;
    sizes::check_planes(unfinished)?;
    let stopped = sizes.check_place(place)?;
    let shown = transform::softened(numbers, unfinished, stopped);
    transform::inverse(sizes, &shown, picture, room);
    Ok(())
}

/// Writes the record of the first `count` bits and gives its blocks.
#[allow(clippy::too_many_arguments)]
pub fn record_writing(
    k: u32,
    levels: u32,
    planes: u32,
    origin: Origin,
    label: &[u8],
    bytes: &[u8],
    count: u64,
    room: &mut [u8],
) -> Result<u32, Refusal> {
    let sizes = Sizes::new(k, levels)?;
    sizes::check_planes(planes)?;
    let edition = Edition::new(origin.edition)?;
    Refusal::Room.when(!bits::hold(bytes, count) || count > sizes.most_bits(planes))?;
    let wanted = record::block_count(edition, count) as usize * block::LENGTH;
    Refusal::Room.when(room.len() < wanted)?;
    Refusal::Label.when(!block::is_label(label))?;
    let heading = Heading::new(sizes, planes, origin, label)?;
    Ok(record::write(&heading, bytes, count, room))
}

/// Keeps what can be kept of a record's blocks.
pub fn record_reading(blocks: &[u8], label: &[u8], room: &mut [u8]) -> Result<Kept, Refusal> {
    let whole = blocks.len() / block::LENGTH;
    Refusal::Room.when(whole == 0 || room.len() / record::READER_ROOM < whole)?;
    Refusal::Label.when(!block::is_label(label))?;
    record::read(blocks, label, room)
}

/// Judges one block by itself: 6, 8 or 9.
pub fn block_check(block: &[u8]) -> Result<(), Refusal> {
    Refusal::Room.when(block.len() != block::LENGTH)?;
    block::check(block)
}
