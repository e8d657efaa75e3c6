//! The reversible 5/3 transform: lines first, then the levels of a square, rows
//! before columns.

use crate::places::{self, ZPlace};
use crate::sizes::Sizes;

/// What is taken from each grey before the first level, and added at the end.
const MIDDLE_GREY: i32 = 128;

/// floor((x[2i] + x[2i+2]) / 2), where x[m] means x[m-2]. With a positive
/// divisor `div_euclid` rounds towards minus infinity.
fn between_lows(x: &[i32], i: usize) -> i32 {
    let next = if 2 * i + 2 == x.len() {
        x[2 * i]
    } else {
        x[2 * i + 2]
    };
    (x[2 * i] + next).div_euclid(2)
}

/// floor((high[i-1] + high[i] + 2) / 4), where high[-1] means high[0].
fn between_highs(high: &[i32], i: usize) -> i32 {
    (high[i.saturating_sub(1)] + high[i] + 2).div_euclid(4)
}

/// A line of even length turned into its lows, then its highs.
pub fn forward_line(x: &[i32]) -> Vec<i32> {
    let half = x.len() / 2;
    let high: Vec<i32> = (0..half)
        .map(|i| x[2 * i + 1] - between_lows(x, i))
        .collect();
    let low = (0..half).map(|i| x[2 * i] + between_highs(&high, i));
    low.chain(high.iter().copied()).collect()
}

/// The line whose lows, then highs, are given.
pub fn inverse_line(line: &[i32]) -> Vec<i32> {
    let (low, high) = line.split_at(line.len() / 2);
    let mut x = vec![0; line.len()];
    for i in 0..low.len() {
        x[2 * i] = low[i] - between_highs(high, i);
    }
    for i in 0..high.len() {
        x[2 * i + 1] = high[i] + between_lows(&x, i);
    }
    x
}

#[derive(Clone, Copy)]
enum Lines {
    Rows,
    Columns,
}

/// Changes each row or each column of the upper left square of side m.
fn each_line(
    values: &mut [i32],
    side: usize,
    m: usize,
    lines: Lines,
    change: fn(&[i32]) -> Vec<i32>,
) {
    let (to_next_line, to_next_value) = match lines {
        Lines::Rows => (side, 1),
        Lines::Columns => (1, side),
    };
    for line in 0..m {
        let places = (0..m).map(move |i| line * to_next_line + i * to_next_value);
        let before: Vec<i32> = places.clone().map(|place| values[place]).collect();
        for (place, value) in places.zip(change(&before)) {
            values[place] = value;
        }
    }
}

/// A picture of this side, 128 less, after so many levels, in raster order.
fn transformed(side: usize, levels: u32, picture: &[u8]) -> Vec<i32> {
    let greys = picture.iter().map(|grey| i32::from(*grey) - MIDDLE_GREY);
    let mut values: Vec<i32> = greys.collect();
    for level in 0..levels {
        let m = side >> level;
        each_line(&mut values, side, m, Lines::Rows, forward_line);
        each_line(&mut values, side, m, Lines::Columns, forward_line);
    }
    values
}

/// Fills the wavelet numbers, in Z order, from the greys of a picture.
pub fn forward(sizes: Sizes, picture: &[u8], numbers: &mut [i32]) {
    let values = transformed(sizes.side(), sizes.levels(), picture);
    places::into_z_order(&values, sizes.k(), numbers);
}

/// A value as a grey: set into 0 to 255.
pub fn grey(value: i32) -> u8 {
    value.clamp(0, 255) as u8
}

/// Undoes so many levels of a square of side 2^k whose numbers are in Z order:
/// fills the picture, and the room with the greys, in Z order, as they are
/// before they are set into 0 to 255.
fn undo(k: u32, levels: u32, numbers: &[i32], picture: &mut [u8], room: &mut [i32]) {
    let side = 1 << k;
    let mut values = places::from_z_order(numbers, k);
    for level in (0..levels).rev() {
        let m = side >> level;
        each_line(&mut values, side, m, Lines::Columns, inverse_line);
        each_line(&mut values, side, m, Lines::Rows, inverse_line);
    }
    for (value, shown) in values.iter_mut().zip(picture) {
        *value += MIDDLE_GREY;
        *shown = grey(*value);
    }
    places::into_z_order(&values, k, room);
}

/// Fills the picture and the room from the wavelet numbers.
pub fn inverse(sizes: Sizes, numbers: &[i32], picture: &mut [u8], room: &mut [i32]) {
    undo(sizes.k(), sizes.levels(), numbers, picture, room);
}

/// How many bits of the number at this place are unread where the walk has
/// stopped: those of all p planes at and after the place where it did, and of one
/// fewer before it, where the running plane has been read.
fn unread(place: ZPlace, unfinished: u32, stopped: ZPlace) -> u32 {
    if place < stopped {
        unfinished.saturating_sub(1)
    } else {
        unfinished
    }
}

/// A number for display: unless it is zero it moves up in magnitude by half of
/// what so many unread bits leave unknown.
fn softer(number: i32, unread: u32) -> i32 {
    match unread {
        0 => number,
        _ => number + number.signum() * (1 << (unread - 1)),
    }
}

/// The numbers for display, of a walk that stopped with so many planes
/// unfinished at this place. Of numbers that no decoding left so they may pass the
/// limit of stored numbers.
pub fn softened(numbers: &[i32], unfinished: u32, stopped: ZPlace) -> Vec<i32> {
    let places = (0..numbers.len()).map(ZPlace);
    let unread = places.map(|place| unread(place, unfinished, stopped));
    let pairs = numbers.iter().zip(unread);
    pairs
        .map(|(number, unread)| softer(*number, unread))
        .collect()
}

/// Fills a picture of side S/2^r and its room from the first (S/2^r)² numbers,
/// which in Z order are the upper left square of that side, with the other
/// L - r levels in it.
pub fn thumbnail(sizes: Sizes, halvings: u32, first: &[i32], picture: &mut [u8], room: &mut [i32]) {
    let (k, levels) = (sizes.k() - halvings, sizes.levels() - halvings);
    undo(k, levels, first, picture, room);
}

/// What a thumbnail of a whole record is held to, from the picture and not from
/// its numbers: the low band of r levels, plus 128, in raster order, before it
/// is set into 0 to 255.
pub fn low_band(sizes: Sizes, halvings: u32, picture: &[u8]) -> Vec<i32> {
    let side = sizes.side();
    let values = transformed(side, halvings, picture);
    let rows = values.chunks_exact(side).take(side >> halvings);
    rows.flat_map(|row| &row[..side >> halvings])
        .map(|value| value + MIDDLE_GREY)
        .collect()
}

#[cfg(test)]
mod tests {
    use super::*;
    use crate::random::Random;

    #[test]
    fn every_line_comes_back() {
        let mut random = Random::new(1, 0);
        for m in (2..=256).step_by(2) {
            let line: Vec<i32> = (0..m).map(|_| random.below(511) as i32 - 255).collect();
            assert_eq!(inverse_line(&forward_line(&line)), line);
        }
    }
}
