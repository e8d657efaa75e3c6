//! For the demo alone, and WRONG ON PURPOSE: a viewer with the old slip of
//! skipping zeros when numbers are written. What a cut record has not settled
//! keeps the number that the last label had there, so that its digits show
//! through. No job uses this; the true decoder writes every number.

use crate::block;
use crate::jobs;
use crate::record::{Kept, READER_ROOM};
use crate::refusal::Refusal;

/// What the viewer holds: the side and the levels of the record it has seen
/// last, and its numbers.
pub struct Held {
    k: u32,
    levels: u32,
    numbers: Vec<i32>,
}

/// The numbers as the slip writes them: the settled ones over the last
/// label's, but for the zeros among them.
pub fn leave_in_place(last: &[i32], settled: &[i32]) -> Vec<i32> {
    let pairs = last.iter().zip(settled);
    pairs
        .map(|(last, settled)| if *settled == 0 { *last } else { *settled })
        .collect()
}

/// What a record settles, decoded truly. The viewer asks for no label: it
/// takes the one that stands in block 0.
pub fn seen(record: &[u8]) -> Result<Held, Refusal> {
    let label = record.get(block::LABEL).unwrap_or_default();
    let mut room = vec![0; record.len() / block::LENGTH * READER_ROOM];
    let kept = jobs::record_reading(record, label, &mut room)?;
    let Kept {
        k, levels, planes, ..
    } = kept;
    let mut numbers = vec![0; 1 << (2 * k)];
    jobs::decoding(k, levels, planes, &mut numbers, &room, kept.bits)?;
    Ok(Held { k, levels, numbers })
}

/// The viewer after the next record; none if that has another side or other
/// levels, of which the slip has nothing to say.
pub fn look(last: &Held, next: &Held) -> Option<Held> {
    let alike = (last.k, last.levels) == (next.k, next.levels);
    alike.then(|| Held {
        numbers: leave_in_place(&last.numbers, &next.numbers),
        ..*next
    })
}

impl Held {
    pub fn numbers(&self) -> &[i32] {
        &self.numbers
    }

    /// The picture as a PGM, which says in a comment what it is.
    pub fn pgm(&self) -> Result<Vec<u8>, Refusal> {
        let side = 1 << self.k;
        let mut picture = vec![0; side * side];
        let mut room = vec![0; side * side];
        jobs::inverse(self.k, self.levels, &self.numbers, &mut picture, &mut room)?;
        let comment = "# WRONG ON PURPOSE: numbers of the last label left in place";
        let mut pgm = format!("P5\n{}\n{} {}\n255\n", comment, side, side).into_bytes();
        pgm.extend(picture);
        Ok(pgm)
    }
}
