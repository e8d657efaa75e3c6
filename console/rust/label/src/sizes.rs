//! Limits, and how much a caller has to lend. All of it can be worked out when a program is compiled.

use crate::edition::Edition;

/// The least k of a side 2^k.
pub const LEAST_K: u32 = 3;
/// The largest k of a side 2^k.
pub const MOST_K: u32 = 8;
/// The most levels, whatever the side.
pub const MOST_LEVELS: u32 = 5;
/// The most bit planes.
pub const MOST_PLANES: u32 = 18;
/// The largest magnitude of a wavelet number.
pub const NUMBER_LIMIT: i32 = 262_143;
/// The bytes of a label.
pub const LABEL_BYTES: usize = 8;
/// The bytes of a block.
pub const BLOCK_BYTES: usize = 512;
/// The bytes of a block of edition 1 that hold bits of the coding, and the room that [`read`](crate::read) takes for each
/// whole block, of whichever edition.
pub const PAYLOAD_BYTES: usize = 492;
/// The bits of the coding that a full block of edition 1 holds: see [`payload_bits_of`].
pub const PAYLOAD_BITS: usize = 8 * PAYLOAD_BYTES;
/// The largest mount number.
pub const MOST_MOUNT: u32 = 16_777_215;

/// S, the side of a picture, 2^k; 0 where k is out of its range.
#[must_use]
pub const fn side(k: u32) -> usize {
    if k >= LEAST_K && k <= MOST_K {
        1 << k
    } else {
        0
    }
}

/// S x S, the greys of a picture and its numbers; 0 where k is out of its range.
///
/// ```
/// static PICTURE: [u8; label::places(6)] = [128; label::places(6)];
///
/// assert_eq!(PICTURE.len(), 64 * 64);
/// ```
#[must_use]
pub const fn places(k: u32) -> usize {
    side(k) * side(k)
}

/// The most levels that a side allows, the smaller of 5 and k - 1; 0 where k is out of its range.
#[must_use]
pub const fn most_levels(k: u32) -> u32 {
    if side(k) == 0 {
        0
    } else if k > MOST_LEVELS {
        MOST_LEVELS
    } else {
        k - 1
    }
}

/// The side of a thumbnail, S halved so many times; 0 where k is out of its range, or the halvings are, 1 to
/// [`most_levels`].
#[must_use]
pub const fn thumbnail_side(k: u32, halvings: u32) -> usize {
    if halvings >= 1 && halvings <= most_levels(k) {
        side(k) >> halvings
    } else {
        0
    }
}

/// The greys of a thumbnail, its side squared: what [`thumbnail`](crate::thumbnail) is lent for them, and for its room.
///
/// ```
/// assert_eq!((label::thumbnail_side(6, 2), label::thumbnail_places(6, 2)), (16, 256));
/// assert_eq!(label::thumbnail_places(3, 3), 0); // side 8 has two levels at most
/// ```
#[must_use]
pub const fn thumbnail_places(k: u32, halvings: u32) -> usize {
    thumbnail_side(k, halvings) * thumbnail_side(k, halvings)
}

/// The most bits that a coding of n planes has, n(4S² - 1)/3 + S²; 0 where k or n is out of its range.
///
/// Numbers of any kind have at most [`MOST_PLANES`] planes. A caller that knows n already, from
/// [`forward`](crate::forward), may lend less.
#[must_use]
pub const fn most_bits(k: u32, n: u32) -> usize {
    if side(k) == 0 || n > MOST_PLANES {
        return 0;
    }
    n as usize * ((4 * places(k) - 1) / 3) + places(k)
}

/// The bytes that the most bits fill: what [`code`](crate::code) is lent so that its room cuts nothing off.
#[must_use]
pub const fn most_bytes(k: u32, n: u32) -> usize {
    most_bits(k, n).div_ceil(8)
}

/// The bits of the coding that a full block holds: 3,936 in edition 1, 3,904 in edition 2.
#[must_use]
pub const fn payload_bits_of(edition: Edition) -> usize {
    match edition {
        Edition::One => PAYLOAD_BITS,
        Edition::Two { .. } => PAYLOAD_BITS - 8 * 4, // arm and mount take four bytes
    }
}

/// Of edition 1 alone: the blocks of its record of so many bits. For any edition take [`blocks_of`].
///
/// It is one at least, and one for each 3,936 bits begun. As room for [`Edition::Two`] it may fall a block short, as at
/// 3,905 to 3,936 bits.
#[must_use]
pub const fn blocks(bits: usize) -> usize {
    blocks_of(Edition::One, bits)
}

/// The blocks of a record of so many bits: one at least, and one for each [`payload_bits_of`] begun.
///
/// ```
/// let edition = label::Edition::Two { arm: 1, mount: 70_123 };
/// assert_eq!((label::blocks(3936), label::blocks_of(edition, 3936)), (1, 2));
/// ```
#[must_use]
pub const fn blocks_of(edition: Edition, bits: usize) -> usize {
    if bits == 0 {
        1
    } else {
        bits.div_ceil(payload_bits_of(edition))
    }
}

/// The most blocks of a record of n planes, in either edition; 0 where k or n is out of its range.
///
/// Its record takes [`BLOCK_BYTES`] for each of them, and the room to read it [`PAYLOAD_BYTES`].
///
/// ```
/// const BLOCKS: usize = label::most_blocks(6, label::MOST_PLANES);
/// let record = [0; BLOCKS * label::BLOCK_BYTES];
///
/// assert_eq!(record.len(), 27 * 512);
/// ```
#[must_use]
pub const fn most_blocks(k: u32, n: u32) -> usize {
    if most_bits(k, n) == 0 {
        0
    } else {
        // in edition 2 a block holds less
        blocks_of(Edition::Two { arm: 1, mount: 0 }, most_bits(k, n))
    }
}

/// What a picture is worth with p planes unfinished: no grey is off by more than min(255, (7L + 1)(2^p - 1)).
///
/// It is 0 for p = 0, and 255, which promises nothing, where the formula goes beyond that, whatever it is given. For a
/// [`thumbnail`](crate::thumbnail) the levels are those that it undoes, `levels - halvings`. The promise is about the
/// blocks of one coding: see [`read`](crate::read).
///
/// ```
/// assert_eq!(label::grey_limit(2, 2), 45);
/// assert_eq!(label::grey_limit(2, 0), 0);
/// assert_eq!(label::grey_limit(u32::MAX, u32::MAX), 255);
/// ```
#[must_use]
pub const fn grey_limit(levels: u32, unfinished: u32) -> u8 {
    if unfinished >= 8 {
        return u8::MAX;
    }
    let limit = (7 * levels as u64 + 1) * ((1 << unfinished) - 1);
    if limit < u8::MAX as u64 {
        limit as u8
    } else {
        u8::MAX
    }
}
