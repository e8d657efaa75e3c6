//! A picture into a record, and what each first part of the record is worth: `cargo run --example cut`.

use label::{Edition, Refusal, Settled, BLOCK_BYTES, MOST_PLANES, PAYLOAD_BYTES};

const K: u32 = 6; // side 64
const L: u32 = 2;
const LABEL: &[u8; 8] = b"00000417";
const EDITION: Edition = Edition::Two { arm: 1, mount: 70_123 };
const PLACES: usize = label::places(K);
const BLOCKS: usize = label::most_blocks(K, MOST_PLANES);

/// A ramp with bars across its upper half, as on a label.
fn drawn() -> [u8; PLACES] {
    let side = label::side(K);
    std::array::from_fn(|place| {
        let (row, column) = (place / side, place % side);
        let bar = row < side / 2 && column * 7 % 11 < 4;
        if bar {
            20
        } else {
            (120 + row + column) as u8
        }
    })
}

/// The record of a picture, in as many blocks as it takes.
fn record_of(picture: &[u8], room: &mut [u8]) -> Result<usize, Refusal> {
    let mut numbers = [0; PLACES];
    let mut bytes = [0; label::most_bytes(K, MOST_PLANES)];
    label::forward(K, L, picture, &mut numbers)?;
    let coded = label::code(K, L, &numbers, usize::MAX, &mut bytes)?;
    label::write(K, L, coded.n, EDITION, LABEL, &bytes, coded.bits, room)
}

/// What a record shows: what its bits settle, of how many planes, and how far off a grey can be.
fn shown(record: &[u8], picture: &mut [u8]) -> Result<(Settled, u32, u8), Refusal> {
    let mut payload = [0; BLOCKS * PAYLOAD_BYTES];
    let (mut numbers, mut room) = ([0; PLACES], [0; PLACES]);
    let kept = label::read(record, LABEL, &mut payload)?;
    let settled = label::decode(kept.k, kept.levels, kept.n, &mut numbers, &payload, kept.bits)?;
    label::inverse(kept.k, kept.levels, &numbers, picture, &mut room)?;
    let limit = label::grey_limit(kept.levels, settled.unfinished);
    Ok((settled, kept.n, limit))
}

fn main() -> Result<(), Refusal> {
    let picture = drawn();
    let mut record = [0; BLOCKS * BLOCK_BYTES];
    let blocks = record_of(&picture, &mut record)?;
    for count in 1..=blocks {
        let mut cut = [0; PLACES];
        let (settled, n, limit) = shown(&record[..count * BLOCK_BYTES], &mut cut)?;
        let off = picture
            .iter()
            .zip(&cut)
            .map(|(grey, shown)| grey.abs_diff(*shown))
            .max();
        println!(
            "{count} of {blocks} blocks: {} of {n} planes unfinished, greys off by {}, promised {limit}",
            settled.unfinished,
            off.unwrap_or(0)
        );
        if settled.unfinished > 0 {
            println!("  the cut fell at place {} of {PLACES}", settled.place);
        }
    }
    match label::read(&record, b"00000418", &mut [0; BLOCKS * PAYLOAD_BYTES]) {
        Err(refusal) => println!("asked for 00000418: {refusal} ({})", refusal.number()),
        Ok(_) => unreachable!("the record is labelled 00000417"),
    }
    Ok(())
}
