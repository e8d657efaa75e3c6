//! Samples to make cases from: sizes, pictures, numbers, bits, labels and
//! origins, each of many kinds.

use crate::bits;
use crate::edition::{Edition, Origin, MOST_MOUNT};
use crate::jobs;
use crate::random::Random;
use crate::sizes::{self, Sizes, LARGEST_MAGNITUDE, MOST_PLANES, SMALLEST_K};

/// How often each k from 3 to 8 comes: large sides seldom, since their requests
/// are long.
const SHARES: [usize; 6] = [32, 28, 21, 12, 5, 2];

/// Sizes within their ranges, with k at most `largest`.
pub fn sizes(random: &mut Random, largest: u32) -> Sizes {
    let shares = (SMALLEST_K..=largest).zip(SHARES);
    let ks: Vec<u32> = shares.flat_map(|(k, share)| vec![k; share]).collect();
    let k = random.pick(&ks);
    let levels = 1 + random.below(sizes::most_levels(k).into()) as u32;
    Sizes::new(k, levels).expect("k and L are drawn from their ranges")
}

pub fn planes(random: &mut Random) -> u32 {
    random.below(u64::from(MOST_PLANES) + 1) as u32
}

/// Digits of three by five, a row in three bits, the upper row highest.
const DIGITS: [u16; 10] = [
    0o75557, 0o26227, 0o71747, 0o71717, 0o55711, 0o74717, 0o74757, 0o71111, 0o75757, 0o75717,
];

/// Dark digits on a light ground with a little noise.
fn label_like(random: &mut Random, side: usize) -> Vec<u8> {
    let scale = 1 + random.index(side / 8);
    let ground = 180 + random.below(60) as u8;
    let ink = random.below(60) as u8;
    let digits: Vec<u16> = (0..16).map(|_| random.pick(&DIGITS)).collect();
    let mut picture = raster(side, |row, column| {
        let (row, column) = (row / scale, column / scale);
        let digit = digits[(row / 6 * 5 + column / 4) % digits.len()];
        let (row, column) = (row % 6, column % 4);
        let inked = row < 5 && column < 3 && (digit >> (14 - 3 * row - column)) & 1 == 1;
        if inked {
            ink
        } else {
            ground
        }
    });
    for grey in &mut picture {
        *grey += random.below(8) as u8;
    }
    picture
}

fn raster(side: usize, mut grey: impl FnMut(usize, usize) -> u8) -> Vec<u8> {
    let places = 0..side * side;
    places.map(|i| grey(i / side, i % side)).collect()
}

/// 0 or 255, by turns or by chance.
fn extreme(high: bool) -> u8 {
    if high {
        255
    } else {
        0
    }
}

pub fn picture(random: &mut Random, sizes: Sizes) -> Vec<u8> {
    let side = sizes.side();
    let last = side - 1;
    match random.below(14) {
        0 => vec![128; sizes.places()],
        1 => vec![random.byte(); sizes.places()],
        2 => vec![extreme(random.one_in(2)); sizes.places()],
        3 => raster(side, |row, column| extreme((row + column) % 2 == 1)),
        4 => raster(side, |row, _| extreme(row % 2 == 1)),
        5 => raster(side, |_, column| extreme(column % 2 == 1)),
        6 => {
            let square = 1 << random.below(sizes.k().into());
            raster(side, |row, column| {
                extreme((row / square + column / square) % 2 == 0)
            })
        }
        7 => raster(side, |_, _| extreme(random.one_in(2))),
        8 => raster(side, |row, _| (row * 255 / last) as u8),
        9 => raster(side, |_, column| (255 - column * 255 / last) as u8),
        10 => raster(side, |row, column| {
            ((row + column) * 255 / (2 * last)) as u8
        }),
        11 => {
            let mut picture = vec![128; sizes.places()];
            for _ in 0..=random.below(3) {
                let place = random.index(picture.len());
                picture[place] = random.byte();
            }
            picture
        }
        12 => random.bytes(sizes.places()),
        _ => label_like(random, side),
    }
}

fn signed(random: &mut Random, magnitude: i32) -> i32 {
    if random.one_in(2) {
        -magnitude
    } else {
        magnitude
    }
}

/// A number of at most so many bits.
fn number(random: &mut Random, planes: u32) -> i32 {
    let magnitude = random.below(1 << planes) as i32;
    signed(random, magnitude)
}

/// A number at the edge of a plane: 2^p or one less.
fn edge_number(random: &mut Random) -> i32 {
    let power = 1 << planes(random);
    let magnitude = (power - random.below(2) as i32).min(LARGEST_MAGNITUDE);
    signed(random, magnitude)
}

fn picture_numbers(random: &mut Random, sizes: Sizes) -> Vec<i32> {
    let picture = picture(random, sizes);
    let mut numbers = vec![0; sizes.places()];
    jobs::forward(sizes.k(), sizes.levels(), &picture, &mut numbers)
        .expect("a sample picture has its sizes' length");
    numbers
}

/// Numbers within the limits; those of pictures are the most frequent.
pub fn numbers(random: &mut Random, sizes: Sizes) -> Vec<i32> {
    let planes = planes(random);
    let places = sizes.places();
    match random.below(12) {
        0 => vec![0; places],
        1 => vec![signed(random, LARGEST_MAGNITUDE); places],
        2 => (0..places)
            .map(|_| signed(random, LARGEST_MAGNITUDE))
            .collect(),
        3 => (0..places).map(|_| edge_number(random)).collect(),
        4 | 5 => (0..places).map(|_| number(random, planes)).collect(),
        6 => {
            let mut numbers = vec![0; places];
            let place = random.index(places);
            numbers[place] = edge_number(random);
            numbers
        }
        7 | 8 => {
            let mut numbers = vec![0; places];
            for _ in 0..random.below(8) {
                let place = random.index(places);
                numbers[place] = number(random, planes);
            }
            numbers
        }
        9 => {
            let mut numbers = picture_numbers(random, sizes);
            let place = random.index(places);
            numbers[place] = edge_number(random);
            numbers
        }
        _ => picture_numbers(random, sizes),
    }
}

/// Bits with a plane count: the whole coding of some numbers, or no coding at
/// all.
pub struct Bits {
    pub planes: u32,
    pub bytes: Vec<u8>,
    pub count: u64,
}

/// All bits of the coding of these numbers.
pub fn coding(sizes: Sizes, numbers: &[i32]) -> Bits {
    let most = sizes.most_bits(sizes::plane_count(numbers));
    let mut bytes = vec![0; bits::bytes_for(most)];
    let coded = jobs::coding(sizes.k(), sizes.levels(), numbers, most, &mut bytes)
        .expect("sample numbers are within the limits");
    bytes.truncate(bits::bytes_for(coded.bits));
    Bits {
        planes: coded.planes,
        bytes,
        count: coded.bits,
    }
}

/// Bytes that are random, all ones, all zeros, or mostly either.
pub fn payload(random: &mut Random, length: usize) -> Vec<u8> {
    match random.below(6) {
        0 => vec![0xFF; length],
        1 => vec![0; length],
        2 => (0..length)
            .map(|_| random.byte() & random.byte() & random.byte())
            .collect(),
        3 => (0..length)
            .map(|_| random.byte() | random.byte() | random.byte())
            .collect(),
        _ => random.bytes(length),
    }
}

pub fn bits(random: &mut Random, sizes: Sizes) -> Bits {
    let kind = random.below(4);
    if kind == 0 {
        let planes = planes(random);
        let most = bits::bytes_for(sizes.most_bits(planes));
        let length = random.index(most + 1);
        return Bits {
            planes,
            bytes: payload(random, length),
            count: 8 * length as u64,
        };
    }
    let mut bits = coding(sizes, &numbers(random, sizes));
    if kind == 1 {
        // No longer the coding of these numbers, but bits like those of one.
        bits.planes = planes(random);
        for _ in 0..random.below(4).min(bits.bytes.len() as u64) {
            let place = random.index(bits.bytes.len());
            bits.bytes[place] ^= 0x80 >> random.below(8);
        }
    }
    bits
}

fn letter(random: &mut Random) -> u8 {
    b'A' + random.below(26) as u8
}

/// 0 to 9 or A to Z, the ends of both ranges often.
fn character(random: &mut Random) -> u8 {
    match random.below(3) {
        0 => random.pick(b"09AZ"),
        1 => b'0' + random.below(10) as u8,
        _ => letter(random),
    }
}

/// What stands in the last two places of many labels.
const MEDIA_TYPES: [[u8; 2]; 4] = [*b"L5", *b"L6", *b"L9", *b"M8"];

/// A number with its leading zeros, or with a letter in it, or characters of
/// any kind, letters alone, one end of a range alone; often a media type.
pub fn label(random: &mut Random) -> Vec<u8> {
    let digits = 1 + random.below(8);
    let number = random.below(10_u64.pow(digits as u32));
    let mut label = format!("{:08}", number).into_bytes();
    match random.below(8) {
        0 => label[random.index(8)] = letter(random),
        1 => label.fill_with(|| character(random)),
        2 => label.fill_with(|| letter(random)),
        3 => label.fill(random.pick(b"09AZ")),
        _ => {}
    }
    if random.one_in(3) {
        label[6..].copy_from_slice(&random.pick(&MEDIA_TYPES));
    }
    label
}

/// Bytes that no label has: the neighbours of 0 to 9 and of A to Z, the ends of
/// a to z and their neighbours, a space, a hyphen, the ends of all bytes, and 0
/// and A with their highest bit set.
const STRANGERS: &[u8] = b"/:@[`az{ -\0\xFF\xB0\xC1";

/// Gives a label one byte that no label has: for a capital letter often its
/// small form.
pub fn spoil_label(random: &mut Random, label: &mut [u8]) {
    let place = random.index(label.len());
    let stranger = random.pick(STRANGERS);
    label[place] = match label[place] {
        capital @ b'A'..=b'Z' if random.one_in(2) => capital.to_ascii_lowercase(),
        _ => stranger,
    };
}

/// Bytes that are no label, by their count or by one of them.
pub fn wrong_label(random: &mut Random) -> Vec<u8> {
    let mut label = label(random);
    match random.below(6) {
        0 => label.clear(),
        1 => label.truncate(random.index(8)),
        2 => label.push(b'0'),
        3 => label.resize(64, b'7'),
        _ => spoil_label(random, &mut label),
    }
    label
}

/// A mount number, its limits often, and such as fill one of its bytes alone.
fn mount(random: &mut Random) -> u32 {
    let any = random.below(u64::from(MOST_MOUNT) + 1) as u32;
    let one_byte = any & random.pick(&[0xFF, 0xFF00, 0xFF_0000]);
    random.pick(&[0, 1, MOST_MOUNT, any, any, one_byte])
}

/// Most often edition 2, in which more can be wrong.
pub fn edition(random: &mut Random) -> Edition {
    random.pick(&[Edition::One, Edition::Two, Edition::Two])
}

/// An arm and a mount number in their ranges.
pub fn origin(random: &mut Random, edition: Edition) -> Origin {
    Origin {
        edition: edition.number(),
        arm: random.pick(&[1, 2]),
        mount: mount(random),
    }
}

/// Neither 1 nor 2, which are the editions and the arms; some are in their low
/// byte, or in their low half.
pub fn neither_1_nor_2(random: &mut Random) -> u32 {
    let high = random.pick(&[1 << 16, 1 << 31]) + random.pick(&[1, 2]);
    random.pick(&[0, 3, 255, 256 + 1, 256 + 2, high, u32::MAX])
}

fn wrong_mount(random: &mut Random) -> u32 {
    let over = MOST_MOUNT + 1;
    let high = random.pick(&[over, 1 << 31]) + mount(random);
    random.pick(&[over, high, u32::MAX])
}

/// Gives an origin an arm or a mount number, or both, out of their ranges.
pub fn spoil_names(random: &mut Random, origin: &mut Origin) {
    let (arm, mount) = (neither_1_nor_2(random), wrong_mount(random));
    match random.below(5) {
        0 | 1 => origin.arm = arm,
        2 | 3 => origin.mount = mount,
        _ => (origin.arm, origin.mount) = (arm, mount),
    }
}
