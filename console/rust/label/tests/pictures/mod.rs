//! Pictures, numbers and labels that the tests share.
#![allow(dead_code)] // no test needs all of them

use label::Edition;

pub const LABEL: &[u8; 8] = b"00000417";
pub const MEDIA: &[u8; 8] = b"0417AAL6"; // its last two places are a media type

/// Both editions, the second with an arm and a mount number, each of whose three bytes is another.
pub const EDITIONS: [Edition; 2] = [Edition::One, BY_ARM_2];
pub const BY_ARM_2: Edition = Edition::Two { arm: 2, mount: 70_123 };

/// Numbers by chance, the same in every run.
pub struct Chance(u64);

impl Chance {
    pub fn new(seed: u64) -> Self {
        Chance(seed.wrapping_mul(0x9E37_79B9_7F4A_7C15) | 1)
    }

    pub fn below(&mut self, end: usize) -> usize {
        self.0 ^= self.0 << 13;
        self.0 ^= self.0 >> 7;
        self.0 ^= self.0 << 17;
        ((self.0 >> 11) % end as u64) as usize
    }
}

/// Every k with every number of levels that it allows.
pub fn sizes() -> impl Iterator<Item = (u32, u32)> {
    (label::LEAST_K..=label::MOST_K).flat_map(|k| (1..=label::most_levels(k)).map(move |levels| (k, levels)))
}

/// A flat picture, a ramp, stripes like a label's, and greys by chance.
pub fn pictures(k: u32) -> [Vec<u8>; 4] {
    let (side, mut chance) = (label::side(k), Chance::new(u64::from(k)));
    let draw = |grey: &mut dyn FnMut(usize, usize) -> usize| -> Vec<u8> {
        let places = (0..side).flat_map(|row| (0..side).map(move |column| (row, column)));
        places.map(|(row, column)| grey(row, column) as u8).collect()
    };
    [
        draw(&mut |_, _| 200),
        draw(&mut |row, column| (row + column) * 255 / (2 * side - 2)),
        draw(&mut |row, column| if row * 3 < side && column % 5 < 2 { 20 } else { 235 }),
        draw(&mut |_, _| chance.below(256)),
    ]
}

/// A picture's numbers, and its coding.
pub struct Coding {
    pub numbers: Vec<i32>,
    pub bytes: Vec<u8>,
    pub bits: usize,
    pub n: u32,
}

pub fn coding(k: u32, levels: u32, picture: &[u8]) -> Coding {
    let mut numbers = vec![77; label::places(k)];
    let n = label::forward(k, levels, picture, &mut numbers).expect("a picture");
    let mut bytes = vec![0xAA; label::most_bytes(k, n)];
    let coded = label::code(k, levels, &numbers, usize::MAX, &mut bytes).expect("its numbers");
    assert_eq!(coded.n, n);
    assert!(coded.bits <= label::most_bits(k, n));
    Coding {
        numbers,
        bytes,
        bits: coded.bits,
        n,
    }
}

/// What a thumbnail is to show: the low band that some levels leave of a picture, plus 128, in Z order; and its greys.
pub struct Low {
    pub before: Vec<i32>,
    pub greys: Vec<u8>,
}

/// The low bands of 1, 2 and so on to all levels.
pub fn low_bands(k: u32, levels: u32, picture: &[u8]) -> Vec<Low> {
    let mut numbers = vec![77; label::places(k)];
    let low_band = |r: u32| {
        label::forward(k, r, picture, &mut numbers).expect("a picture");
        let before: Vec<i32> = numbers[..4_usize.pow(k - r)].iter().map(|low| low + 128).collect();
        let greys = set(&before);
        Low { before, greys }
    };
    (1..=levels).map(low_band).collect()
}

/// Greys in Z order set into 0 to 255, row by row.
pub fn set(greys: &[i32]) -> Vec<u8> {
    let spread = |i: usize| (0..8).map(|bit| ((i >> bit) & 1) << (2 * bit)).sum::<usize>();
    let line: Vec<usize> = (0..greys.len().isqrt()).map(spread).collect();
    let mut set = Vec::with_capacity(greys.len());
    for row in &line {
        set.extend(line.iter().map(|column| greys[2 * row + column].clamp(0, 255) as u8));
    }
    set
}

/// A picture's record under LABEL, in a room that is filled to the last byte.
pub fn record(k: u32, levels: u32, edition: Edition, coding: &Coding) -> Vec<u8> {
    let (bytes, bits) = (&coding.bytes, coding.bits);
    let mut room = vec![0xAA; label::blocks_of(edition, bits) * label::BLOCK_BYTES];
    let blocks = label::write(k, levels, coding.n, edition, LABEL, bytes, bits, &mut room).expect("its bits");
    assert_eq!(blocks * label::BLOCK_BYTES, room.len());
    room
}

/// The block of the numbers 5, 0, 0, .. 0 under MEDIA, side 8, two levels, as the format's page gives it.
pub fn media_block() -> [u8; 512] {
    let mut block = [0; 512];
    block[..19].copy_from_slice(&[
        0x01, 0x03, 0x02, 0x03, 0x30, 0x34, 0x31, 0x37, 0x41, 0x41, 0x4C, 0x36, 0x00, 0x00, 0x00, 0x11, 0xC0, 0x08,
        0x00,
    ]);
    block[508..].copy_from_slice(&[0x02, 0xB2, 0x1E, 0x4F]);
    block
}

/// The same of edition 2, BY_ARM_2.
pub fn arm_block() -> [u8; 512] {
    let mut block = [0; 512];
    block[..23].copy_from_slice(&[
        0x02, 0x03, 0x02, 0x03, 0x30, 0x34, 0x31, 0x37, 0x41, 0x41, 0x4C, 0x36, 0x00, 0x00, 0x00, 0x11, 0x02, 0x01,
        0x11, 0xEB, 0xC0, 0x08, 0x00,
    ]);
    block[508..].copy_from_slice(&[0x03, 0xB2, 0x35, 0x43]);
    block
}

/// Sets checks A and B of a block right, whatever else is wrong with it.
pub fn seal(block: &mut [u8]) {
    let (mut a, mut b) = (0_u32, 0_u32);
    for (at, byte) in block[..508].iter().enumerate() {
        a = (a + u32::from(*byte)) % 65_521;
        b = (b + (at as u32 + 1) * u32::from(*byte)) % 65_521;
    }
    block[508..510].copy_from_slice(&(a as u16).to_be_bytes());
    block[510..].copy_from_slice(&(b as u16).to_be_bytes());
}
