//! The jobs called with buffers that fit, for tests that want only the result.

use second::jobs::{self, Decoded};
use second::refusal::Refusal;
use second::samples::{self, Bits};
use second::sizes::Sizes;

/// Every pair of k and L that is within its range.
pub fn all_sizes() -> Vec<Sizes> {
    let ks = 3..=8;
    ks.flat_map(|k| (1..=5).filter_map(move |levels| Sizes::new(k, levels).ok()))
        .collect()
}

pub fn sizes(k: u32, levels: u32) -> Sizes {
    Sizes::new(k, levels).expect("k and L are within their ranges")
}

/// More pictures for small sides, so that each size takes about as long.
pub fn pictures_of(sizes: Sizes) -> u64 {
    [200, 100, 40, 16, 6, 2][sizes.k() as usize - 3]
}

/// Numbers that are zero but at one place.
pub fn one_number(sizes: Sizes, place: usize, number: i32) -> Vec<i32> {
    let mut numbers = vec![0; sizes.places()];
    numbers[place] = number;
    numbers
}

pub fn forward(sizes: Sizes, picture: &[u8]) -> (Vec<i32>, u32) {
    let mut numbers = vec![-1; sizes.places()];
    let planes = jobs::forward(sizes.k(), sizes.levels(), picture, &mut numbers);
    (numbers, planes.expect("the lengths fit"))
}

/// All bits of a picture's coding.
pub fn code_picture(sizes: Sizes, picture: &[u8]) -> Bits {
    samples::coding(sizes, &forward(sizes, picture).0)
}

/// The numbers that the first `count` bits settle, written over others.
pub fn decode(sizes: Sizes, bits: &Bits, count: u64) -> (Vec<i32>, Decoded) {
    let mut numbers = vec![-1; sizes.places()];
    let decoded = jobs::decoding(
        sizes.k(),
        sizes.levels(),
        bits.planes,
        &mut numbers,
        &bits.bytes,
        count,
    );
    (numbers, decoded.expect("the lengths fit"))
}

/// The picture, and the greys in Z order before they are set into 0 to 255.
pub fn inverse(sizes: Sizes, numbers: &[i32]) -> Result<(Vec<u8>, Vec<i32>), Refusal> {
    let mut picture = vec![1; sizes.places()];
    let mut room = vec![-1; sizes.places()];
    jobs::inverse(sizes.k(), sizes.levels(), numbers, &mut picture, &mut room)?;
    Ok((picture, room))
}

/// The thumbnail, and its greys in Z order before they are set into 0 to 255.
pub fn thumbnail(
    sizes: Sizes,
    halvings: u32,
    numbers: &[i32],
) -> Result<(Vec<u8>, Vec<i32>), Refusal> {
    let greys = sizes.halved_places(halvings);
    let (mut picture, mut room) = (vec![1; greys], vec![-1; greys]);
    let (k, levels) = (sizes.k(), sizes.levels());
    jobs::thumbnail(k, levels, halvings, numbers, &mut picture, &mut room)?;
    Ok((picture, room))
}

/// The picture for display, and its greys in Z order before they are set into 0
/// to 255.
pub fn display(
    sizes: Sizes,
    unfinished: u32,
    place: u64,
    numbers: &[i32],
) -> Result<(Vec<u8>, Vec<i32>), Refusal> {
    let (mut picture, mut room) = (vec![1; sizes.places()], vec![-1; sizes.places()]);
    let (k, levels) = (sizes.k(), sizes.levels());
    jobs::display(
        k,
        levels,
        unfinished,
        place,
        numbers,
        &mut picture,
        &mut room,
    )?;
    Ok((picture, room))
}

/// The greys that the first `count` bits give.
pub fn decode_picture(sizes: Sizes, bits: &Bits, count: u64) -> Vec<u8> {
    let (numbers, _) = decode(sizes, bits, count);
    inverse(sizes, &numbers).expect("decoded numbers fit").0
}
