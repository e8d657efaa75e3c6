//! The 512-byte block: its fields, its payload and its two checks.

use crate::bits;
use crate::edition::{Edition, Origin};
use crate::refusal::Refusal;
use crate::sizes::{self, Sizes};
use std::ops::Range;

pub const LENGTH: usize = 512;
pub const LABEL: Range<usize> = 4..12;
/// Bytes 0 to 11, which all blocks of a record share.
pub const SHARED: Range<usize> = 0..12;
pub const NUMBER: Range<usize> = 12..14;
pub const COUNT: Range<usize> = 14..16;
pub const CHECK_A: Range<usize> = 508..510;
pub const CHECK_B: Range<usize> = 510..512;

const MODULUS: u64 = 65_521;

pub type Block = [u8; LENGTH];

/// Whether these bytes are a label: eight characters, each 0 to 9 or A to Z.
pub fn is_label(label: &[u8]) -> bool {
    let is_character = |byte: &u8| matches!(byte, b'0'..=b'9' | b'A'..=b'Z');
    label.len() == LABEL.len() && label.iter().all(is_character)
}

/// What all blocks of a record share: a block under construction that has their
/// bytes 0 to 11 and, in edition 2, the arm and the mount number.
#[derive(Clone, Copy)]
pub struct Heading {
    edition: Edition,
    block: Block,
}

impl Heading {
    /// Judges 9 of the origin. The planes and the label are in their ranges.
    pub fn new(
        sizes: Sizes,
        planes: u32,
        origin: Origin,
        label: &[u8],
    ) -> Result<Heading, Refusal> {
        let edition = Edition::new(origin.edition)?;
        origin.check_names()?;
        let mut block = [0; LENGTH];
        block[0] = edition.number() as u8;
        block[1] = sizes.k() as u8;
        block[2] = sizes.levels() as u8;
        block[3] = planes as u8;
        block[LABEL].copy_from_slice(label);
        let names = &mut block[edition.names()];
        names.copy_from_slice(&origin.names()[..names.len()]);
        Ok(Heading { edition, block })
    }

    /// That of a block, in range or not. Where its edition is neither, the
    /// block is laid out as in edition 1.
    pub fn of(block: &[u8]) -> Heading {
        let edition = Edition::new(block[0].into()).unwrap_or(Edition::One);
        let mut shared = [0; LENGTH];
        for places in [SHARED, edition.names()] {
            shared[places.clone()].copy_from_slice(&block[places]);
        }
        Heading {
            edition,
            block: shared,
        }
    }

    pub fn edition(&self) -> Edition {
        self.edition
    }
}

/// A whole block holding the first `count` bits of `payload`.
pub fn build(heading: &Heading, number: u16, count: u16, payload: &[u8]) -> Block {
    let mut block = heading.block;
    block[NUMBER].copy_from_slice(&number.to_be_bytes());
    block[COUNT].copy_from_slice(&count.to_be_bytes());
    let used = bits::bytes_for(count.into());
    let place = &mut block[heading.edition.payload()][..used];
    place.copy_from_slice(&payload[..used]);
    if count % 8 != 0 {
        // The bits after the last count as 0, whatever the bytes held.
        place[used - 1] &= 0xFF << (8 - count % 8);
    }
    write_checks(&mut block);
    block
}

/// A and B of a block's bytes 0 to 507.
pub fn checks(block: &[u8]) -> [u16; 2] {
    let bytes = || (1..).zip(&block[..CHECK_A.start]);
    let a: u64 = bytes().map(|(_, byte)| u64::from(*byte)).sum();
    let b: u64 = bytes()
        .map(|(weight, byte)| weight * u64::from(*byte))
        .sum();
    [(a % MODULUS) as u16, (b % MODULUS) as u16]
}

pub fn write_checks(block: &mut [u8]) {
    let [a, b] = checks(block);
    block[CHECK_A].copy_from_slice(&a.to_be_bytes());
    block[CHECK_B].copy_from_slice(&b.to_be_bytes());
}

/// Two bytes of a block, high byte first.
pub fn field(block: &[u8], place: Range<usize>) -> u16 {
    u16::from_be_bytes([block[place.start], block[place.start + 1]])
}

/// k, L and n as the block says them.
pub fn sizes_field(block: &[u8]) -> [u32; 3] {
    [block[1].into(), block[2].into(), block[3].into()]
}

fn fields_are_right(block: &[u8], edition: Edition) -> bool {
    let [k, levels, planes] = sizes_field(block);
    let count = field(block, COUNT);
    let full = edition.payload_bits();
    let payload = &block[edition.payload()];
    Sizes::new(k, levels).is_ok()
        && sizes::check_planes(planes).is_ok()
        && is_label(&block[LABEL])
        && Origin::of(block).check_names().is_ok()
        && count <= full
        && (count..full).all(|place| !bits::bit_at(payload, place.into()))
}

/// Judges 8 and 9 of a block that is 512 bytes long.
pub fn check(block: &[u8]) -> Result<(), Refusal> {
    let stored = [field(block, CHECK_A), field(block, CHECK_B)];
    Refusal::Check.when(stored != checks(block))?;
    let edition = Edition::new(block[0].into())?;
    Refusal::Field.when(!fields_are_right(block, edition))
}
