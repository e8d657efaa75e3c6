//! Records as a drive may deliver them: whole, damaged, out of order or mixed,
//! with their checks repaired or not.

use crate::bits;
use crate::block::{self, Block, Heading};
use crate::block::{CHECK_A, CHECK_B, COUNT, LABEL, LENGTH, NUMBER};
use crate::edition::Edition;
use crate::random::Random;
use crate::record;
use crate::samples;
use std::ops::Range;

/// A whole record and its label. The payload need not be a coding, since a
/// reader judges none.
pub fn whole_record(random: &mut Random, largest: u32) -> (Vec<Block>, Vec<u8>) {
    let sizes = samples::sizes(random, largest);
    let planes = samples::planes(random);
    let label = samples::label(random);
    let most_blocks = if random.one_in(300) {
        400
    } else {
        random.pick(&[1, 1, 2, 2, 3, 4, 6, 8, 12, 40])
    };
    let edition = samples::edition(random);
    let origin = samples::origin(random, edition);
    let full = u64::from(edition.payload_bits());
    let count = match random.below(4) {
        0 => full * (1 + random.below(most_blocks)),
        1 => full * random.below(most_blocks) + random.below(9),
        _ => random.below(full * most_blocks + 1),
    };
    let bytes = samples::payload(random, bits::bytes_for(count));
    let mut room = vec![0; record::block_count(edition, count) as usize * LENGTH];
    let heading = Heading::new(sizes, planes, origin, &label).expect("the origin is in its ranges");
    record::write(&heading, &bytes, count, &mut room);
    let written = room.chunks_exact(LENGTH);
    (written.map(block_of).collect(), label)
}

fn block_of(bytes: &[u8]) -> Block {
    let mut block = [0; LENGTH];
    block.copy_from_slice(bytes);
    block
}

/// The layout of a block, damaged or not.
fn edition_of(block: &Block) -> Edition {
    Heading::of(block).edition()
}

/// The block built anew with the same heading and number, but other bits.
fn with_payload(block: &Block, count: u16, payload: &[u8]) -> Block {
    let number = block::field(block, NUMBER);
    block::build(&Heading::of(block), number, count, payload)
}

fn set_field(block: &mut Block, place: Range<usize>, value: u16) {
    block[place].copy_from_slice(&value.to_be_bytes());
}

/// Gives a field that 9 judges a value out of its range.
fn spoil_field(random: &mut Random, block: &mut Block) {
    match random.below(6) {
        0 => block[0] = random.pick(&[0, 1, 2, 3, 0x81, 0x82, 255]),
        1 => block[1] = random.pick(&[0, 1, 2, 9, 10, 0x83, 255]),
        2 => block[2] = random.pick(&[0, block[1], 6, 7, 0x81, 255]),
        3 => block[3] = random.pick(&[19, 20, 32, 0x80, 255]),
        4 => samples::spoil_label(random, &mut block[LABEL]),
        _ => {
            let full = edition_of(block).payload_bits();
            let over = random.pick(&[full + 1, full + 8, 0x8000, 0xFFFF]);
            set_field(block, COUNT, over);
        }
    }
}

/// Sets a bit after the payload's last. A full block first loses some bits from
/// its count, though not from its payload.
fn set_unused_bit(random: &mut Random, block: &mut Block) {
    let edition = edition_of(block);
    let full = edition.payload_bits();
    let fewer = full - 1 - random.below(20) as u16;
    let count = block::field(block, COUNT).min(fewer);
    set_field(block, COUNT, count);
    let unused = u64::from(full - count);
    let anywhere = random.below(unused);
    let place = u64::from(count) + random.pick(&[0, unused - 1, anywhere]);
    block[edition.payload()][(place / 8) as usize] |= 0x80 >> (place % 8);
}

/// A full block whose A is below 15, stored 65,521 too high: equal to the sum
/// of the bytes modulo 65,521, and yet not the check.
fn raise_check(random: &mut Random, block: &mut Block) {
    let edition = edition_of(block);
    let filler = random.bytes(edition.payload_length());
    *block = with_payload(block, edition.payload_bits(), &filler);
    let wanted = 65_521 + random.below(15) as i64;
    let sum: i64 = block[..CHECK_A.start]
        .iter()
        .map(|byte| i64::from(*byte))
        .sum();
    let mut missing = wanted - sum;
    for byte in &mut block[edition.payload()] {
        let moved = (i64::from(*byte) + missing).clamp(0, 255);
        missing -= moved - i64::from(*byte);
        *byte = moved as u8;
    }
    block::write_checks(block);
    set_field(block, CHECK_A, wanted as u16);
}

/// Changes a byte of the arm and the mount number; in edition 1 it is one of
/// the payload.
fn change_name(random: &mut Random, block: &mut Block) {
    let names = &mut block[Edition::Two.names()];
    match random.index(8) {
        place @ 1..=3 => names[place] ^= 1 + random.below(255) as u8,
        _ => names[0] = random.pick(&[0, 0, 1, 2, 3, 3, 255]),
    }
}

/// Makes a block of the other edition, with any bits: sound if its heading is.
fn change_edition(random: &mut Random, block: &mut Block) {
    let edition = edition_of(block).other();
    let origin = samples::origin(random, edition);
    block[0] = edition.number() as u8;
    block[Edition::Two.names()].copy_from_slice(&origin.names());
    let full = edition.payload_bits();
    let shorter = random.below(full.into()) as u16;
    let count = random.pick(&[full, full, shorter]);
    let payload = samples::payload(random, edition.payload_length());
    *block = with_payload(block, count, &payload);
}

/// A count at the limit of either edition, or next above.
fn count_at_limit(random: &mut Random) -> u16 {
    random.pick(&Edition::BOTH).payload_bits() + random.below(2) as u16
}

/// Damages one block in one of many ways.
pub fn damage_block(random: &mut Random, block: &mut Block) {
    let edition = edition_of(block);
    let place = random.index(LENGTH);
    match random.below(20) {
        0 | 1 => {
            block[place] ^= 1 + random.below(255) as u8;
            return;
        }
        2 => block[place] ^= 1 + random.below(255) as u8,
        3 => block[LABEL].copy_from_slice(&samples::label(random)),
        4 => {
            let shorter = random.below(edition.payload_bits().into()) as u16;
            let payload = samples::payload(random, edition.payload_length());
            *block = with_payload(block, shorter, &payload);
        }
        5 => set_unused_bit(random, block),
        6 => spoil_field(random, block),
        7 => {
            let number = block::field(block, NUMBER);
            let by = random.pick(&[1, 2, 256, 0xFFFF]);
            set_field(block, NUMBER, number.wrapping_add(by));
        }
        8 => {
            let check = random.pick(&[&CHECK_A, &CHECK_B]).clone();
            let stored = block::field(block, check.clone());
            set_field(
                block,
                check,
                stored.wrapping_add(random.pick(&[1, 15, 0xFFFF])),
            );
            return;
        }
        9 => return raise_check(random, block),
        10..=13 => change_name(random, block),
        14 | 15 => change_edition(random, block),
        _ => set_field(block, COUNT, count_at_limit(random)),
    }
    block::write_checks(block);
}

/// Gives the blocks from one place on another arm or mount number, as if of
/// another shot; in edition 1 they get the other edition.
fn splice(random: &mut Random, blocks: &mut [Block]) {
    let origin = samples::origin(random, Edition::Two);
    for block in blocks {
        match edition_of(block) {
            Edition::One => change_edition(random, block),
            Edition::Two => {
                block[Edition::Two.names()].copy_from_slice(&origin.names());
                block::write_checks(block);
            }
        }
    }
}

/// Damages a record: one of its blocks, or their order, or their company.
pub fn damage_record(random: &mut Random, largest: u32, blocks: &mut Vec<Block>) {
    if blocks.is_empty() {
        return;
    }
    let one = random.index(blocks.len());
    let other = random.index(blocks.len());
    match random.below(16) {
        0 => blocks.swap(one, other),
        1 => blocks.insert(one, blocks[other]),
        2 => {
            blocks.remove(one);
        }
        3 => {
            let (strangers, _) = whole_record(random, largest);
            blocks.truncate(one);
            blocks.extend(strangers.iter().skip(one));
        }
        4 => {
            // Full blocks, then one of 0 bits: not what a writer gives.
            let edition = edition_of(&blocks[one]);
            let payload = samples::payload(random, edition.payload_length());
            blocks.truncate(one + 1);
            blocks[one] = with_payload(&blocks[one], edition.payload_bits(), &payload);
            let mut empty = with_payload(&blocks[one], 0, &[]);
            set_field(&mut empty, NUMBER, one as u16 + 1);
            block::write_checks(&mut empty);
            blocks.push(empty);
        }
        5 | 6 => splice(random, &mut blocks[one..]),
        _ => damage_block(random, &mut blocks[one]),
    }
}
