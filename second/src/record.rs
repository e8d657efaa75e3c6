//! A record: the blocks that hold one coding, written in turn and read back as
//! far as they can be kept.

use crate::bits;
use crate::block::{self, Heading};
use crate::edition::{Edition, Origin};
use crate::refusal::Refusal;

/// The room that a reader wants for each whole block, of either edition.
pub const READER_ROOM: usize = 492;

/// max(1, ceil(b / payload bits)), the blocks of a record of b bits.
pub fn block_count(edition: Edition, count: u64) -> u64 {
    let full = u64::from(edition.payload_bits());
    (count / full + u64::from(count % full != 0)).max(1)
}

/// Writes the blocks of the first `count` bits at the front of the room, and
/// gives how many they are.
pub fn write(heading: &Heading, bytes: &[u8], count: u64, room: &mut [u8]) -> u32 {
    let edition = heading.edition();
    let blocks = block_count(edition, count);
    let mut left = count;
    let places = room.chunks_exact_mut(block::LENGTH);
    for (number, place) in (0..blocks).zip(places) {
        let here = left.min(edition.payload_bits().into());
        let from = number as usize * edition.payload_length();
        let block = block::build(heading, number as u16, here as u16, &bytes[from..]);
        place.copy_from_slice(&block);
        left -= here;
    }
    blocks as u32
}

/// What a reader keeps of the blocks it was lent.
#[derive(Clone, Copy, Debug, Default, PartialEq, Eq)]
pub struct Kept {
    pub k: u32,
    pub levels: u32,
    pub planes: u32,
    pub origin: Origin,
    pub blocks: u32,
    pub bits: u64,
    /// 8, 9 or 10 of the block that ended the run, else 0.
    pub ended: u32,
}

/// Judges 8, 9 and 10 of the block that lies at this turn.
fn judge(block: &[u8], turn: usize, first: &[u8], label: &[u8]) -> Result<(), Refusal> {
    block::check(block)?;
    let in_turn = usize::from(block::field(block, block::NUMBER)) == turn;
    let like_first =
        block[block::SHARED] == first[block::SHARED] && Origin::of(block) == Origin::of(first);
    let as_expected = block[block::LABEL] == *label;
    Refusal::Turn.when(!(in_turn && like_first && as_expected))
}

/// Keeps the longest run of blocks from the front, with its payload at the
/// front of the room. At least one whole block is lent.
pub fn read(blocks: &[u8], label: &[u8], room: &mut [u8]) -> Result<Kept, Refusal> {
    let first = &blocks[..block::LENGTH];
    judge(first, 0, first, label)?;
    let edition = Edition::new(first[0].into())?;
    let [k, levels, planes] = block::sizes_field(first);
    let mut kept = Kept {
        k,
        levels,
        planes,
        origin: Origin::of(first),
        ..Kept::default()
    };
    let turns = blocks.chunks_exact(block::LENGTH).enumerate();
    let places = room.chunks_exact_mut(edition.payload_length());
    for ((turn, block), place) in turns.zip(places) {
        if let Err(refusal) = judge(block, turn, first, label) {
            kept.ended = refusal.number();
            break;
        }
        let count = block::field(block, block::COUNT);
        let used = bits::bytes_for(count.into());
        place[..used].copy_from_slice(&block[edition.payload()][..used]);
        kept.blocks += 1;
        kept.bits += u64::from(count);
        if count < edition.payload_bits() {
            break;
        }
    }
    Ok(kept)
}
