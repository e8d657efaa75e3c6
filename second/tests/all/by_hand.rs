//! The paper's table "Checked by hand", every row and sentence of it; then the
//! case of label 0417AAL6, which characters a label may have, blocks of edition
//! 2, thumbnails, and softer cut pictures.

use crate::naive;
use crate::steps::{self, sizes};
use second::block;
use second::edition::Origin;
use second::jobs;
use second::places::{RasterPlace, ZPlace};
use second::record::Kept;
use second::refusal::Refusal;
use second::samples::{self, Bits};
use second::transform;

/// P3's coding: S 8, L 2, place 0 is 5, rest 0.
fn p3() -> Bits {
    let sizes = sizes(3, 2);
    samples::coding(sizes, &steps::one_number(sizes, 0, 5))
}

/// P3 cut to so many bits gives this number at place 0 and this p.
fn check_cut_of_p3(count: u64, number: i32, unfinished: u32) {
    let sizes = sizes(3, 2);
    let (numbers, decoded) = steps::decode(sizes, &p3(), count);
    assert_eq!(numbers, steps::one_number(sizes, 0, number));
    assert_eq!(decoded.unfinished, unfinished);
    assert_eq!(decoded.bits_read, count);
}

#[test]
fn p1() {
    assert_eq!(transform::forward_line(&[1, 2, 3, 4]), [1, 3, 0, 1]);
}

#[test]
fn p2() {
    assert_eq!(transform::forward_line(&[0, -1, -1, 0]), [0, -1, 0, 1]);
}

#[test]
fn p3_is_17_bits() {
    let bits = p3();
    assert_eq!((bits.planes, bits.count), (3, 17));
    assert_eq!(bits.bytes, [0xC0, 0x08, 0x00]);
}

#[test]
fn p4() {
    check_cut_of_p3(2, 0, 3);
}

#[test]
fn p5() {
    check_cut_of_p3(3, 4, 3);
}

#[test]
fn p6() {
    check_cut_of_p3(7, 4, 2);
}

#[test]
fn p7() {
    check_cut_of_p3(13, 5, 1);
}

#[test]
fn p8() {
    let sizes = sizes(3, 2);
    let bits = samples::coding(sizes, &steps::one_number(sizes, 15, -3));
    assert_eq!((bits.planes, bits.count), (2, 19));
    assert_eq!(bits.bytes, [0x48, 0xC0, 0x40]);
}

#[test]
fn p9_at_every_size() {
    for sizes in steps::all_sizes() {
        let picture = vec![128; sizes.places()];
        let (numbers, planes) = steps::forward(sizes, &picture);
        assert_eq!(numbers, vec![0; sizes.places()]);
        assert_eq!(planes, 0);
        let bits = samples::coding(sizes, &numbers);
        assert_eq!((bits.planes, bits.count), (0, 0));
        let (decoded_numbers, decoded) = steps::decode(sizes, &bits, 0);
        assert_eq!(decoded_numbers, numbers);
        assert_eq!(decoded.unfinished, 0);
    }
}

#[test]
fn p10() {
    let sizes = sizes(3, 2);
    let (numbers, planes) = steps::forward(sizes, &[255; 64]);
    assert_eq!(numbers[..4], [127; 4]);
    assert_eq!(numbers[4..], [0; 60]);
    assert_eq!(planes, 7);
}

#[test]
fn p11_and_the_place_that_the_text_names() {
    assert_eq!(RasterPlace::at(6, 7, 3).to_z(3), ZPlace(61));
    assert_eq!(RasterPlace::at(7, 0, 3).to_z(3), ZPlace(42));
}

#[test]
fn z_places_are_those_of_the_quadrants() {
    for k in 3..=8 {
        let side = 1 << k;
        for row in 0..side {
            for column in 0..side {
                let z = RasterPlace::at(row, column, k).to_z(k);
                assert_eq!(z.0, naive::z_place(row, column, side));
            }
        }
    }
}

#[test]
fn magnitude_262_143_is_coded_and_the_next_refused() {
    let sizes = sizes(3, 2);
    for number in [262_143, -262_143] {
        let numbers = steps::one_number(sizes, 9, number);
        let bits = samples::coding(sizes, &numbers);
        assert_eq!(bits.planes, 18);
        assert_eq!(steps::decode(sizes, &bits, bits.count).0, numbers);
        assert!(steps::inverse(sizes, &numbers).is_ok());
    }
    for number in [262_144, -262_144, i32::MIN, i32::MAX] {
        let numbers = steps::one_number(sizes, 9, number);
        let coded = jobs::coding(3, 2, &numbers, 100, &mut [0; 100]);
        assert_eq!(coded, Err(Refusal::Magnitude));
        assert_eq!(steps::inverse(sizes, &numbers), Err(Refusal::Magnitude));
    }
    assert_eq!(Refusal::Magnitude.number(), 4);
}

#[test]
fn levels_at_both_ends_of_the_sides() {
    for (k, most) in [(3, 2), (8, 5)] {
        let places = 1 << (2 * k);
        let forward = |levels| jobs::forward(k, levels, &vec![7; places], &mut vec![0; places]);
        assert!(forward(most).is_ok());
        assert_eq!(forward(most + 1), Err(Refusal::Levels));
        assert_eq!(forward(0), Err(Refusal::Levels));
    }
    assert_eq!(Refusal::Levels.number(), 2);
}

#[test]
fn no_bits_with_18_planes_give_zeros_at_every_size() {
    for sizes in steps::all_sizes() {
        let none = Bits {
            planes: 18,
            bytes: Vec::new(),
            count: 0,
        };
        let (numbers, decoded) = steps::decode(sizes, &none, 0);
        assert_eq!(numbers, vec![0; sizes.places()]);
        assert_eq!((decoded.unfinished, decoded.bits_read), (18, 0));
    }
}

#[test]
fn one_block_whole() {
    let mut room = [0xEE; 513];
    let blocks = jobs::record_writing(3, 2, 0, Origin::UNNAMED, b"00000417", &[], 0, &mut room);
    assert_eq!(blocks, Ok(1));
    let heading = [1, 3, 2, 0, 0x30, 0x30, 0x30, 0x30, 0x30, 0x34, 0x31, 0x37];
    assert_eq!(room[..12], heading);
    assert_eq!(room[12..508], [0; 496]);
    assert_eq!(room[508..512], [0x01, 0x92, 0x0D, 0x54]);
    assert_eq!(room[512], 0xEE);
    assert_eq!(block::checks(&room), [0x0192, 0x0D54]);
    assert_eq!(jobs::block_check(&room[..512]), Ok(()));
}

/// P3's block under this label, its checks still 0.
fn block_of_p3(label: &[u8; 8]) -> [u8; 512] {
    let mut block = [0; 512];
    block[..4].copy_from_slice(&[1, 3, 2, 3]);
    block[4..12].copy_from_slice(label);
    block[12..19].copy_from_slice(&[0x00, 0x00, 0x00, 0x11, 0xC0, 0x08, 0x00]);
    block
}

fn write_p3_of(origin: Origin, label: &[u8], room: &mut [u8]) -> Result<u32, u32> {
    let samples::Bits {
        planes,
        bytes,
        count,
    } = p3();
    jobs::record_writing(3, 2, planes, origin, label, &bytes, count, room).map_err(Refusal::number)
}

fn write_p3(label: &[u8], room: &mut [u8]) -> Result<u32, u32> {
    write_p3_of(Origin::UNNAMED, label, room)
}

/// Nothing, if the block is read back as P3's; else the refusal.
fn read_p3(block: &[u8], label: &[u8]) -> Result<(), u32> {
    read_p3_of(Origin::UNNAMED, block, label)
}

fn read_p3_of(origin: Origin, block: &[u8], label: &[u8]) -> Result<(), u32> {
    let mut room = [0xEE; 492];
    let kept = jobs::record_reading(block, label, &mut room).map_err(Refusal::number)?;
    let whole = Kept {
        k: 3,
        levels: 2,
        planes: 3,
        origin,
        blocks: 1,
        bits: 17,
        ended: 0,
    };
    assert_eq!(kept, whole);
    assert_eq!(room[..3], [0xC0, 0x08, 0x00]);
    assert_eq!(room[3..], [0xEE; 489]);
    Ok(())
}

#[test]
fn one_block_of_0417aal6_whole_and_read_back() {
    let label = [0x30, 0x34, 0x31, 0x37, 0x41, 0x41, 0x4C, 0x36];
    assert_eq!(label, *b"0417AAL6");
    let mut block = block_of_p3(&label);
    block[508..].copy_from_slice(&[0x02, 0xB2, 0x1E, 0x4F]);

    let mut room = [0xEE; 513];
    assert_eq!(write_p3(&label, &mut room), Ok(1));
    assert_eq!(room[..512], block);
    assert_eq!(room[512], 0xEE);
    assert_eq!(jobs::block_check(&block), Ok(()));
    assert_eq!(read_p3(&block, &label), Ok(()));
}

/// The same block in edition 2, mounted by arm 1, mount number 70,123. A is
/// 0x2B2 of edition 1, and 1 for the edition, 1 + 1 + 17 + 235 for arm and mount.
/// B is 0x1E4F, and 1, and 4 times 192 + 8, since the payload stands 4 bytes
/// later, and 17 + 18 + 19 * 17 + 20 * 235.
#[test]
fn the_same_block_in_edition_2() {
    let origin = Origin {
        edition: 2,
        arm: 1,
        mount: 70_123,
    };
    let mut block = [0; 512];
    block[..4].copy_from_slice(&[2, 3, 2, 3]);
    block[4..12].copy_from_slice(b"0417AAL6");
    block[12..16].copy_from_slice(&[0x00, 0x00, 0x00, 0x11]);
    block[16..20].copy_from_slice(&[0x01, 0x01, 0x11, 0xEB]);
    block[20..23].copy_from_slice(&[0xC0, 0x08, 0x00]);
    block[508..].copy_from_slice(&[0x03, 0xB1, 0x35, 0x32]);

    let mut room = [0xEE; 513];
    assert_eq!(write_p3_of(origin, b"0417AAL6", &mut room), Ok(1));
    assert_eq!(room[..512], block);
    assert_eq!(room[512], 0xEE);
    assert_eq!(jobs::block_check(&block), Ok(()));
    assert_eq!(read_p3_of(origin, &block, b"0417AAL6"), Ok(()));
}

/// P9's block in edition 2, with the largest mount number of arm 2. A is 0x192
/// and 1 + 2 + 3 * 255; B is 0xD54 and 1 + 17 * 2 + (18 + 19 + 20) * 255.
#[test]
fn one_block_of_edition_2_without_bits() {
    let origin = Origin {
        edition: 2,
        arm: 2,
        mount: 16_777_215,
    };
    let mut room = [0xEE; 512];
    let blocks = jobs::record_writing(3, 2, 0, origin, b"00000417", &[], 0, &mut room);
    assert_eq!(blocks, Ok(1));
    assert_eq!(room[..4], [2, 3, 2, 0]);
    assert_eq!(room[4..12], *b"00000417");
    assert_eq!(room[12..16], [0; 4]);
    assert_eq!(room[16..20], [0x02, 0xFF, 0xFF, 0xFF]);
    assert_eq!(room[20..508], [0; 488]);
    assert_eq!(room[508..], [0x04, 0x92, 0x46, 0x3E]);
}

/// 0417AAL6 with each of these characters in each of its places, and P3's block
/// under this label.
fn in_each_place(characters: &[u8]) -> Vec<([u8; 8], [u8; 512])> {
    let mut cases = Vec::new();
    for place in 0..8 {
        for character in characters {
            let mut label = *b"0417AAL6";
            label[place] = *character;
            let mut block = block_of_p3(&label);
            block::write_checks(&mut block);
            cases.push((label, block));
        }
    }
    cases
}

#[test]
fn the_ends_of_both_ranges_are_taken_in_each_place() {
    let cases = in_each_place(b"09AZ");
    assert_eq!(cases.len(), 32);
    for (label, block) in cases {
        assert_eq!(jobs::block_check(&block), Ok(()));
        let mut room = [0xEE; 512];
        assert_eq!(write_p3(&label, &mut room), Ok(1));
        assert_eq!(room, block);
        assert_eq!(read_p3(&block, &label), Ok(()));
    }
}

#[test]
fn what_is_no_character_is_refused_in_each_place() {
    let mut right = block_of_p3(b"0417AAL6");
    block::write_checks(&mut right);
    assert_eq!(read_p3(&right, b"0417AAL6"), Ok(()));
    let cases = in_each_place(b"/:@[`az{ \x00\xFF");
    assert_eq!(cases.len(), 88);
    for (label, block) in cases {
        let judged = jobs::block_check(&block).map_err(Refusal::number);
        assert_eq!(judged, Err(9), "{:?}", label);
        let written = write_p3(&label, &mut [0; 512]);
        assert_eq!(written, Err(7), "{:?}", label);
        assert_eq!(read_p3(&right, &label), Err(7), "{:?}", label);
        let standing = read_p3(&block, b"0417AAL6");
        assert_eq!(standing, Err(9), "{:?}", label);
    }
}

/// The thumbnail at side 8 and two levels where one number is not zero, and its
/// room.
fn thumbnail_of(place: usize, number: i32, halvings: u32) -> (Vec<u8>, Vec<i32>) {
    let sizes = sizes(3, 2);
    let numbers = steps::one_number(sizes, place, number);
    steps::thumbnail(sizes, halvings, &numbers).unwrap()
}

/// P3's numbers. At r = 1 one level is undone: the columns make 5 2 0 0 of 5 0,
/// then the rows 5 2 0 0 of 5 0 and 2 1 0 0 of 2 0.
#[test]
fn thumbnails_of_p3() {
    let (picture, room) = thumbnail_of(0, 5, 1);
    assert_eq!(picture[..4], [133, 130, 128, 128]);
    assert_eq!(picture[4..8], [130, 129, 128, 128]);
    assert_eq!(picture[8..], [128; 8]);
    assert_eq!(room[..4], [133, 130, 130, 129]);
    assert_eq!(room[4..], [128; 12]);
    let band = (vec![133, 128, 128, 128], vec![133, 128, 128, 128]);
    assert_eq!(thumbnail_of(0, 5, 2), band);
}

/// P8's numbers: place 15 is a high of a high. The last column makes 0 0 1 -2
/// of it, and of that the rows make 0 0 0 1 and 0 0 0 -2.
#[test]
fn thumbnails_of_p8() {
    let (picture, room) = thumbnail_of(15, -3, 1);
    assert_eq!(picture[..11], [128; 11]);
    assert_eq!(picture[11..], [129, 128, 128, 128, 126]);
    assert_eq!(room[..13], [128; 13]);
    assert_eq!(room[13..], [129, 128, 126]);
    assert_eq!(thumbnail_of(15, -3, 2), (vec![128; 4], vec![128; 4]));
}

#[test]
fn greys_of_a_thumbnail_are_set_into_0_to_255() {
    let (picture, room) = thumbnail_of(1, 200, 2);
    assert_eq!((picture[1], room[1]), (255, 328));
    let (picture, room) = thumbnail_of(2, -200, 2);
    assert_eq!((picture[2], room[2]), (0, -72));
}

/// Every cut of the coding of one number, at side 8 and two levels, is displayed
/// as the numbers that are 0 but for this one at its place.
fn check_displays(place: usize, number: i32, expected: &[i32]) {
    let sizes = sizes(3, 2);
    let bits = samples::coding(sizes, &steps::one_number(sizes, place, number));
    assert_eq!(expected.len() as u64, bits.count + 1);
    for (count, expected) in (0..).zip(expected) {
        let (numbers, decoded) = steps::decode(sizes, &bits, count);
        let stopped = decoded.place.0 as u64;
        let displayed = steps::display(sizes, decoded.unfinished, stopped, &numbers);
        let shown = steps::one_number(sizes, place, *expected);
        assert_eq!(displayed, steps::inverse(sizes, &shown), "{} bits", count);
    }
}

/// P3. With 3 bits place 0 is 4 and has two more unread, so that it is 4 to 7,
/// and is shown as 6. Bit 8 leaves one unread: 4 or 5, shown as 5. Bit 13 is the
/// last of it.
#[test]
fn displays_of_p3() {
    let expected = [0, 0, 0, 6, 6, 6, 6, 6, 5, 5, 5, 5, 5, 5, 5, 5, 5, 5];
    check_displays(0, 5, &expected);
}

/// P8. The tenth bit is the sign of place 15, which is -2 then and has one bit
/// unread: -2 or -3, shown as -3. Bit 18 is the last of it.
#[test]
fn displays_of_p8() {
    let expected = [
        0, 0, 0, 0, 0, 0, 0, 0, 0, 0, -3, -3, -3, -3, -3, -3, -3, -3, -3, -3,
    ];
    check_displays(15, -3, &expected);
}

/// P5's numbers, shown with a 6. The inner level makes 6 3 0 0 of its column,
/// and 6 3 0 0 and 3 1 0 0 of its rows. The outer one makes 6 4 3 1 and 3 2 1 0
/// of the two columns, and of the rows what stands here.
#[test]
fn greys_of_p5_displayed() {
    let p5 = steps::one_number(sizes(3, 2), 0, 4);
    let (picture, room) = steps::display(sizes(3, 2), 3, 1, &p5).unwrap();
    assert_eq!(picture[..5], [134, 132, 131, 129, 128]);
    assert_eq!(picture[8..13], [132, 131, 130, 129, 128]);
    assert_eq!(picture[16..20], [131, 130, 129, 128]);
    assert_eq!(picture[24..26], [129, 128]);
    let others = picture.iter().filter(|grey| **grey != 128).count();
    assert_eq!(others, 12);
    assert_eq!(room[..8], [134, 132, 132, 131, 131, 129, 130, 129]);
    assert_eq!(room[8..12], [131, 130, 129, 128]);
}

/// Before the place one bit fewer is unread than at it and behind it; a zero
/// stays, and magnitudes grow on either side of it.
#[test]
fn a_display_by_place() {
    let sizes = sizes(3, 2);
    let mut numbers = vec![0; 64];
    numbers[..6].copy_from_slice(&[16, -16, 0, 16, -16, 0]);
    numbers[63] = 16;
    let mut shown = numbers.clone();
    shown[..6].copy_from_slice(&[20, -20, 0, 24, -24, 0]);
    shown[63] = 24;
    let displayed = steps::display(sizes, 4, 3, &numbers);
    assert_eq!(displayed, steps::inverse(sizes, &shown));
}
