//! Each refusal by its name and number, from every call that has it, and that a refused call changes nothing.

mod pictures;

use label::{raw, Edition, Refusal, BLOCK_BYTES, MOST_MOUNT, PAYLOAD_BYTES};
use pictures::{arm_block, coding, media_block, pictures, record, seal, sizes, BY_ARM_2, EDITIONS, LABEL, MEDIA};
use std::collections::HashSet;

const ODD: i32 = -77; // what lent slices hold before a call
const BYTE: u8 = 0x5A;

fn forward(k: u32, levels: u32, picture: usize, numbers: usize) -> Result<u32, Refusal> {
    let mut lent = vec![ODD; numbers];
    let answer = label::forward(k, levels, &vec![1; picture], &mut lent);
    if answer.is_err() {
        assert!(lent.iter().all(|number| *number == ODD));
    }
    answer
}

fn code(k: u32, levels: u32, numbers: &[i32], bytes: usize) -> Result<label::Coded, Refusal> {
    let mut lent = vec![BYTE; bytes];
    let answer = label::code(k, levels, numbers, usize::MAX, &mut lent);
    if answer.is_err() {
        assert!(lent.iter().all(|byte| *byte == BYTE));
    }
    answer
}

fn decode(k: u32, levels: u32, n: u32, numbers: usize, bytes: usize, b: usize) -> Result<label::Settled, Refusal> {
    let mut lent = vec![ODD; numbers];
    let answer = label::decode(k, levels, n, &mut lent, &vec![0; bytes], b);
    if answer.is_err() {
        assert!(lent.iter().all(|number| *number == ODD));
    }
    answer
}

fn inverse(k: u32, levels: u32, numbers: &[i32], picture: usize, room: usize) -> Result<(), Refusal> {
    let (mut greys, mut work) = (vec![BYTE; picture], vec![ODD; room]);
    let answer = label::inverse(k, levels, numbers, &mut greys, &mut work);
    if answer.is_err() {
        assert!(greys.iter().all(|byte| *byte == BYTE) && work.iter().all(|number| *number == ODD));
    }
    answer
}

/// Lent so many greys, and so many places of room.
fn thumbnail(k: u32, levels: u32, halvings: u32, numbers: &[i32], lent: [usize; 2]) -> Result<(), Refusal> {
    let (mut greys, mut work) = (vec![BYTE; lent[0]], vec![ODD; lent[1]]);
    let answer = label::thumbnail(k, levels, halvings, numbers, &mut greys, &mut work);
    if answer.is_err() {
        assert!(greys.iter().all(|byte| *byte == BYTE) && work.iter().all(|number| *number == ODD));
    }
    answer
}

/// Lent so many greys, and so many places of room.
fn display(k: u32, levels: u32, state: (u32, usize), numbers: &[i32], lent: [usize; 2]) -> Result<(), Refusal> {
    let (mut greys, mut work) = (vec![BYTE; lent[0]], vec![ODD; lent[1]]);
    let (unfinished, place) = state;
    let answer = label::display(k, levels, unfinished, place, numbers, &mut greys, &mut work);
    if answer.is_err() {
        assert!(greys.iter().all(|byte| *byte == BYTE) && work.iter().all(|number| *number == ODD));
    }
    answer
}

/// In edition 1, and in edition 2 with an arm and a mount that are right: the answers are the same here.
fn write(k: u32, levels: u32, n: u32, label: &[u8], bytes: usize, b: usize, room: usize) -> Result<usize, Refusal> {
    let [first, second] = EDITIONS.map(|edition| {
        let mut lent = vec![BYTE; room];
        let answer = label::write(k, levels, n, edition, label, &vec![0; bytes], b, &mut lent);
        if answer.is_err() {
            assert!(lent.iter().all(|byte| *byte == BYTE));
        }
        answer
    });
    assert_eq!(first, second, "the editions answer differently");
    first
}

/// The plain number, of any edition, arm and mount; one bit in one byte, in so much room.
fn plainly(numbers: [u32; 3], planes: u32, label: &[u8], room: usize) -> u32 {
    let (mut lent, [edition, arm, mount]) = (vec![BYTE; room], numbers);
    let answer = raw::write(3, 2, planes, edition, arm, mount, label, &[0x80], 1, &mut lent);
    if answer.refusal != 0 {
        assert!(answer.blocks == 0 && lent.iter().all(|byte| *byte == BYTE));
    }
    answer.refusal
}

fn read(blocks: &[u8], label: &[u8], room: usize) -> Result<label::Kept, Refusal> {
    let mut lent = vec![BYTE; room];
    let answer = label::read(blocks, label, &mut lent);
    if answer.is_err() {
        assert!(lent.iter().all(|byte| *byte == BYTE));
    }
    answer
}

/// A record of several blocks.
fn long_record() -> Vec<u8> {
    long_record_of(Edition::One)
}

fn long_record_of(edition: Edition) -> Vec<u8> {
    let record = record(5, 3, edition, &coding(5, 3, &pictures(5)[3]));
    assert!(record.len() >= 3 * BLOCK_BYTES);
    record
}

fn room_for(blocks: &[u8]) -> usize {
    blocks.len() / BLOCK_BYTES * PAYLOAD_BYTES
}

#[test]
fn sides() {
    for k in [0, 1, 2, 9, 10, 31, 32, 64, u32::MAX] {
        assert_eq!(forward(k, 1, 64, 64), Err(Refusal::Side));
        assert_eq!(code(k, 1, &[0; 64], 100), Err(Refusal::Side));
        assert_eq!(decode(k, 1, 0, 64, 0, 0), Err(Refusal::Side));
        assert_eq!(inverse(k, 1, &[0; 64], 64, 64), Err(Refusal::Side));
        assert_eq!(thumbnail(k, 1, 1, &[0; 64], [16, 16]), Err(Refusal::Side));
        assert_eq!(display(k, 1, (0, 0), &[0; 64], [64, 64]), Err(Refusal::Side));
        assert_eq!(write(k, 1, 0, LABEL, 0, 0, 512), Err(Refusal::Side));
    }
}

#[test]
fn levels() {
    for k in 3..=8 {
        let places = label::places(k);
        for levels in [0, label::most_levels(k) + 1, k, 6, u32::MAX] {
            if (1..=label::most_levels(k)).contains(&levels) {
                continue;
            }
            assert_eq!(forward(k, levels, places, places), Err(Refusal::Levels));
            assert_eq!(code(k, levels, &vec![0; places], 100), Err(Refusal::Levels));
            assert_eq!(decode(k, levels, 0, places, 0, 0), Err(Refusal::Levels));
            assert_eq!(
                inverse(k, levels, &vec![0; places], places, places),
                Err(Refusal::Levels)
            );
            assert_eq!(
                thumbnail(k, levels, 1, &vec![0; places], [places / 4; 2]),
                Err(Refusal::Levels)
            );
            assert_eq!(
                display(k, levels, (0, 0), &vec![0; places], [places; 2]),
                Err(Refusal::Levels)
            );
            assert_eq!(write(k, levels, 0, LABEL, 0, 0, 512), Err(Refusal::Levels));
        }
    }
}

#[test]
fn halvings() {
    for (k, levels) in sizes() {
        let numbers = vec![0; label::places(k)];
        for r in (0..40).chain([63, 64, u32::MAX]) {
            let few = label::thumbnail_places(k, r);
            if (1..=levels).contains(&r) {
                assert_eq!(thumbnail(k, levels, r, &numbers, [few; 2]), Ok(()));
            } else {
                // whatever the lengths are
                for lent in [few, 0, 1, 64] {
                    assert_eq!(thumbnail(k, levels, r, &numbers, [lent; 2]), Err(Refusal::Halvings));
                }
            }
        }
    }
}

#[test]
fn lengths() {
    for length in (0..64).chain([65, 66, 128, 256]) {
        assert_eq!(forward(3, 2, length, 64), Err(Refusal::Length));
        assert_eq!(forward(3, 2, 64, length), Err(Refusal::Length));
        assert_eq!(code(3, 2, &vec![0; length], 100), Err(Refusal::Length));
        assert_eq!(decode(3, 2, 0, length, 0, 0), Err(Refusal::Length));
        assert_eq!(inverse(3, 2, &vec![0; length], 64, 64), Err(Refusal::Length));
        assert_eq!(inverse(3, 2, &[0; 64], length, 64), Err(Refusal::Length));
        assert_eq!(inverse(3, 2, &[0; 64], 64, length), Err(Refusal::Length));
        for (r, few) in [(1, 16), (2, 4)] {
            assert_eq!(thumbnail(3, 2, r, &vec![0; length], [few; 2]), Err(Refusal::Length));
        }
        assert_eq!(display(3, 2, (0, 0), &vec![0; length], [64; 2]), Err(Refusal::Length));
        assert_eq!(display(3, 2, (0, 0), &[0; 64], [length, 64]), Err(Refusal::Length));
        assert_eq!(display(3, 2, (0, 0), &[0; 64], [64, length]), Err(Refusal::Length));
    }
    // of a thumbnail, the greys and the room are fewer
    for length in (0..16).chain(17..66) {
        assert_eq!(thumbnail(3, 2, 1, &[0; 64], [length, 16]), Err(Refusal::Length));
        assert_eq!(thumbnail(3, 2, 1, &[0; 64], [16, length]), Err(Refusal::Length));
    }
}

#[test]
fn numbers() {
    for (number, good) in [
        (label::NUMBER_LIMIT, true),
        (-label::NUMBER_LIMIT, true),
        (label::NUMBER_LIMIT + 1, false),
        (-label::NUMBER_LIMIT - 1, false),
        (i32::MAX, false),
        (i32::MIN, false),
    ] {
        for place in [0, 1, 63] {
            let mut numbers = [0; 64];
            numbers[place] = number;
            let refusal = if good { None } else { Some(Refusal::Number) };
            assert_eq!(code(3, 2, &numbers, 1000).err(), refusal);
            assert_eq!(inverse(3, 2, &numbers, 64, 64).err(), refusal);
            // as it is lent: at the limit it is taken, though it is shown beyond it
            assert_eq!(display(3, 2, (18, 0), &numbers, [64; 2]).err(), refusal);
        }
        // a thumbnail's are the first
        for place in 0..64 {
            let mut numbers = [0; 64];
            numbers[place] = number;
            for (r, few) in [(1, 16), (2, 4)] {
                let refusal = if good || place >= few {
                    Ok(())
                } else {
                    Err(Refusal::Number)
                };
                assert_eq!(thumbnail(3, 2, r, &numbers, [few; 2]), refusal);
            }
        }
    }
}

#[test]
fn planes() {
    assert!(decode(3, 2, 18, 64, 0, 0).is_ok());
    assert_eq!(write(3, 2, 18, LABEL, 0, 0, 512), Ok(1));
    for n in [19, 20, u32::MAX] {
        assert_eq!(decode(3, 2, n, 64, 0, 0), Err(Refusal::Planes));
        assert_eq!(write(3, 2, n, LABEL, 0, 0, 512), Err(Refusal::Planes));
        assert_eq!(display(3, 2, (n, 0), &[0; 64], [64; 2]), Err(Refusal::Planes));
    }
}

#[test]
fn states() {
    for p in 0..=18 {
        for place in 0..64 {
            assert_eq!(display(3, 2, (p, place), &[1; 64], [64; 2]), Ok(()));
        }
        for place in [64, 65, 256, 1 << 32, usize::MAX] {
            assert_eq!(display(3, 2, (p, place), &[1; 64], [64; 2]), Err(Refusal::State));
        }
    }
    // for each side its own
    for k in 3..=8 {
        let places = label::places(k);
        let numbers = vec![-1; places];
        assert_eq!(display(k, 1, (18, places - 1), &numbers, [places; 2]), Ok(()));
        assert_eq!(display(k, 1, (18, places), &numbers, [places; 2]), Err(Refusal::State));
    }
}

#[test]
fn room() {
    // more bits than there are bytes for
    assert!(decode(3, 2, 18, 64, 2, 16).is_ok());
    for b in [17, usize::MAX] {
        assert_eq!(decode(3, 2, 18, 64, 2, b), Err(Refusal::Room));
        assert_eq!(write(3, 2, 18, LABEL, 2, b, 5120), Err(Refusal::Room));
    }
    // more bits than n planes can have
    let most = label::most_bits(3, 2);
    assert_eq!(write(3, 2, 2, LABEL, 1000, most, 512), Ok(1));
    assert_eq!(write(3, 2, 2, LABEL, 1000, most + 1, 512), Err(Refusal::Room));
    // too little room to write
    for room in [0, 1, 511] {
        assert_eq!(write(3, 2, 0, LABEL, 0, 0, room), Err(Refusal::Room));
    }
    let written = |edition: Edition, b: usize, room: usize| {
        label::write(8, 5, 18, edition, LABEL, &[0; 1000], b, &mut vec![BYTE; room])
    };
    for (edition, full) in EDITIONS.into_iter().zip([3936, 3904]) {
        assert_eq!(written(edition, full, 512), Ok(1));
        assert_eq!(written(edition, full + 1, 1023), Err(Refusal::Room));
        assert_eq!(written(edition, full + 1, 1024), Ok(2));
        // too little to read, or too little room for it: 492 bytes a block in both
        let record = long_record_of(edition);
        for length in [0, 1, 511] {
            assert_eq!(read(&record[..length], LABEL, 10_000), Err(Refusal::Room));
        }
        assert_eq!(read(&record, LABEL, room_for(&record) - 1), Err(Refusal::Room));
        assert!(read(&record, LABEL, room_for(&record)).is_ok());
    }
    let record = long_record();
    // not a block
    for length in [0, 1, 511, 513, 1024] {
        assert_eq!(label::check(&record[..length]), Err(Refusal::Room));
    }
    assert_eq!(label::check(&record[..512]), Ok(()));
}

#[test]
fn labels() {
    let record = long_record();
    let none: [&[u8]; 12] = [
        b"",
        b"417",
        b"0000417",
        b"000000417",
        b"abcdefgh",
        b"0000041a",
        b" 0000417",
        b"0000041\0",
        b"\xB00000417",
        b"0417aal6",
        b"0417AAL",
        b"0417AAL60",
    ];
    for label in none {
        assert_eq!(write(3, 2, 0, label, 0, 0, 512), Err(Refusal::Label));
        assert_eq!(read(&record, label, room_for(&record)), Err(Refusal::Label));
    }
    for label in [LABEL, MEDIA, b"ABCDEFGH", b"ZZZZZZZZ"] {
        assert_eq!(write(3, 2, 0, label, 0, 0, 512), Ok(1));
    }
}

#[test]
fn every_byte_in_each_place_of_a_label() {
    for byte in 0..=u8::MAX {
        // none of / : @ [ ` { beside them, no small letter, no space, no zero byte
        let taken = byte.is_ascii_digit() || byte.is_ascii_uppercase();
        for place in 0..8 {
            let mut block = media_block();
            block[4 + place] = byte;
            seal(&mut block);
            let label = &block[4..12];
            let answers = [
                label::check(&block).err(),
                write(3, 2, 3, label, 3, 17, 512).err(),
                read(&block, label, PAYLOAD_BYTES).err(),
                read(&block, MEDIA, PAYLOAD_BYTES).err(),
            ];
            let expected = match (taken, label == MEDIA) {
                (true, true) => [None; 4],
                (true, false) => [None, None, None, Some(Refusal::Turn)],
                (false, _) => [Refusal::Fields, Refusal::Label, Refusal::Label, Refusal::Fields].map(Some),
            };
            assert_eq!(answers, expected, "byte {byte} in place {place}");
        }
    }
}

#[test]
fn arms_and_mounts() {
    for (arm, mount, refusal) in [
        (0, 0, 9),
        (1, 0, 0),
        (2, 0, 0),
        (3, 0, 9),
        (257, 0, 9), // its low byte would be right
        (u32::MAX, 0, 9),
        (1, 1, 0),
        (1, MOST_MOUNT, 0),
        (1, MOST_MOUNT + 1, 9),
        (1, u32::MAX, 9),
        (0, u32::MAX, 9),
    ] {
        assert_eq!(
            plainly([2, arm, mount], 1, LABEL, 512),
            refusal,
            "arm {arm}, mount {mount}"
        );
        // in edition 1 they are not looked at, and the block is the same
        let mut blocks = [[BYTE; BLOCK_BYTES]; 2];
        assert_eq!(
            raw::write(3, 2, 1, 1, arm, mount, LABEL, &[0x80], 1, &mut blocks[0]).refusal,
            0
        );
        assert_eq!(
            label::write(3, 2, 1, Edition::One, LABEL, &[0x80], 1, &mut blocks[1]),
            Ok(1)
        );
        assert_eq!(blocks[0], blocks[1]);
        // by name
        let edition = Edition::Two { arm, mount };
        let answer = label::write(3, 2, 1, edition, LABEL, &[0x80], 1, &mut blocks[0]);
        assert_eq!(answer, if refusal == 0 { Ok(1) } else { Err(Refusal::Fields) });
    }
    for edition in [0, 3, 255, 256, 257, 258, u32::MAX] {
        assert_eq!(plainly([edition, 1, 0], 1, LABEL, 512), 9, "edition {edition}");
    }
}

#[test]
fn nine_of_the_edition_before_six_and_of_arm_and_mount_after_seven() {
    for wrong in [[3, 1, 0], [3, 0, u32::MAX]] {
        assert_eq!(plainly(wrong, 19, b"417", 511), 5);
        assert_eq!(plainly(wrong, 1, b"417", 511), 9);
    }
    for wrong in [[2, 0, 0], [2, 1, u32::MAX]] {
        assert_eq!(plainly(wrong, 19, b"417", 511), 5);
        assert_eq!(plainly(wrong, 1, b"417", 511), 6);
        assert_eq!(plainly(wrong, 1, b"417", 512), 7);
        assert_eq!(plainly(wrong, 1, LABEL, 512), 9);
    }
}

#[test]
fn damage() {
    for edition in EDITIONS {
        damage_to(edition);
    }
}

fn damage_to(edition: Edition) {
    let record = long_record_of(edition);
    for place in (0..BLOCK_BYTES).step_by(13).chain([508, 509, 510, 511]) {
        let mut damaged = record.clone();
        damaged[place] ^= 0x10;
        assert_eq!(read(&damaged, LABEL, room_for(&record)), Err(Refusal::Damaged));
        assert_eq!(label::check(&damaged[..512]), Err(Refusal::Damaged));
        // in a later block it ends the run
        let mut damaged = record.clone();
        damaged[BLOCK_BYTES + place] ^= 0x10;
        let kept = read(&damaged, LABEL, room_for(&record)).expect("block 0 is whole");
        assert_eq!((kept.blocks, kept.ended), (1, Some(Refusal::Damaged)));
        assert_eq!((kept.bits, kept.edition), (label::payload_bits_of(edition), edition));
    }
}

#[test]
fn fields() {
    for edition in EDITIONS {
        fields_of(edition);
    }
}

fn fields_of(edition: Edition) {
    let record = long_record_of(edition);
    let arm: &[(usize, u8)] = match edition {
        Edition::Two { .. } => &[(16, 0), (16, 3), (16, 255)],
        _ => &[],
    };
    for (place, byte) in [
        (0, 0),
        (0, 3),
        (1, 2),
        (1, 9),
        (2, 0),
        (2, 5),
        (3, 19),
        (4, b'a'),
        (11, b' '),
        (14, 0xFF),
        (15, record[15] + 1), // a bit more than a block holds
    ]
    .iter()
    .chain(arm)
    .copied()
    {
        let mut wrong = record.clone();
        wrong[place] = byte;
        seal(&mut wrong[..512]);
        assert_eq!(
            read(&wrong, LABEL, room_for(&record)),
            Err(Refusal::Fields),
            "byte {place}"
        );
        assert_eq!(label::check(&wrong[..512]), Err(Refusal::Fields));
        let mut wrong = record.clone();
        wrong[BLOCK_BYTES + place] = byte;
        seal(&mut wrong[BLOCK_BYTES..2 * BLOCK_BYTES]);
        let kept = read(&wrong, LABEL, room_for(&record)).expect("block 0 is right");
        assert_eq!((kept.blocks, kept.ended), (1, Some(Refusal::Fields)));
    }
    // an unused bit, and in edition 2 any mount number
    for (block, start) in [(media_block(), 16), (arm_block(), 20)] {
        for place in start + 2..508 {
            let mut wrong = block;
            wrong[place] |= 1;
            seal(&mut wrong);
            assert_eq!(label::check(&wrong), Err(Refusal::Fields), "byte {place}");
        }
    }
    for place in 17..20 {
        let mut other = arm_block();
        other[place] ^= 0xFF;
        seal(&mut other);
        assert_eq!(label::check(&other), Ok(()));
    }
}

#[test]
fn turns() {
    let record = long_record();
    // another label, and the first block lost
    let refused = read(&record, b"00000418", room_for(&record)).unwrap_err();
    // words that fit block 0 too
    let words = "a block is out of its turn in the record asked for";
    assert_eq!((refused, refused.to_string().as_str()), (Refusal::Turn, words));
    assert_eq!(
        read(&record[BLOCK_BYTES..], LABEL, room_for(&record)),
        Err(Refusal::Turn)
    );
    // slices that are only read may overlap: the label as it stands in the record
    let kept = read(&record, &record[4..12], room_for(&record)).expect("it is its label");
    assert_eq!(Ok(kept), read(&record, LABEL, room_for(&record)));
    // the second block lost, doubled, or of another label
    let lost = [&record[..512], &record[1024..]].concat();
    let doubled = [&record[..512], &record[..512]].concat();
    let mut other = record.clone();
    other[512 + 11] = b'8';
    seal(&mut other[512..1024]);
    for blocks in [lost, doubled, other] {
        let kept = read(&blocks, LABEL, room_for(&record)).expect("block 0 is the first");
        assert_eq!((kept.blocks, kept.ended), (1, Some(Refusal::Turn)));
    }
}

#[test]
fn blocks_of_one_edition_arm_and_mount() {
    let two = |arm, mount| Edition::Two { arm, mount };
    let mounts = [70_122, 70_123 ^ 0x100, 70_123 ^ 0x01_0000].map(|mount| two(2, mount));
    let others = [Edition::One, two(1, 70_123), BY_ARM_2].into_iter().chain(mounts);
    let records: Vec<_> = others.map(|edition| (edition, long_record_of(edition))).collect();
    for (first, record) in &records {
        for (second, other) in &records {
            let joined = [&record[..512], &other[512..]].concat();
            let kept = read(&joined, LABEL, room_for(&joined)).expect("block 0 is the first");
            if first == second {
                assert_eq!((kept.blocks, kept.ended), (record.len() / BLOCK_BYTES, None));
            } else {
                assert_eq!((kept.blocks, kept.ended), (1, Some(Refusal::Turn)));
            }
            assert_eq!(kept.edition, *first);
        }
    }
}

#[test]
fn a_block_of_edition_1_that_would_be_full_in_edition_2() {
    let mut record = long_record();
    record[14..16].copy_from_slice(&3904_u16.to_be_bytes());
    record[504..508].fill(0);
    seal(&mut record[..512]);
    let kept = read(&record, LABEL, room_for(&record)).expect("block 0 is right");
    assert_eq!((kept.blocks, kept.bits, kept.ended), (1, 3904, None));
}

#[test]
fn slices_of_length_0() {
    assert_eq!(label::forward(3, 2, &[], &mut []), Err(Refusal::Length));
    assert_eq!(label::code(3, 2, &[], 0, &mut []), Err(Refusal::Length));
    assert_eq!(label::decode(3, 2, 0, &mut [], &[], 0), Err(Refusal::Length));
    assert_eq!(label::inverse(3, 2, &[], &mut [], &mut []), Err(Refusal::Length));
    assert_eq!(label::thumbnail(3, 2, 2, &[], &mut [], &mut []), Err(Refusal::Length));
    assert_eq!(label::display(3, 2, 0, 0, &[], &mut [], &mut []), Err(Refusal::Length));
    assert_eq!(
        label::write(3, 2, 0, Edition::One, &[], &[], 0, &mut []),
        Err(Refusal::Room)
    );
    assert_eq!(label::read(&[], &[], &mut []), Err(Refusal::Room));
    assert_eq!(label::check(&[]), Err(Refusal::Room));
    // and where they are enough
    assert_eq!(
        label::code(3, 2, &[1; 64], usize::MAX, &mut []),
        Ok(label::Coded { bits: 0, n: 1 })
    );
    let mut numbers = [ODD; 64];
    let settled = label::decode(3, 2, 18, &mut numbers, &[], 0);
    assert_eq!(
        settled,
        Ok(label::Settled {
            unfinished: 18,
            read: 0,
            place: 0
        })
    );
    assert_eq!(numbers, [0; 64]);
    assert_eq!(label::write(3, 2, 0, Edition::One, LABEL, &[], 0, &mut [0; 512]), Ok(1));
}

#[test]
fn the_lowest_that_applies() {
    assert_eq!(forward(2, 9, 1, 1), Err(Refusal::Side));
    assert_eq!(forward(3, 9, 1, 1), Err(Refusal::Levels));
    assert_eq!(code(3, 2, &[i32::MAX; 65], 1), Err(Refusal::Length));
    assert_eq!(decode(3, 2, 19, 64, 0, 1), Err(Refusal::Planes));
    assert_eq!(write(3, 2, 19, b"417", 0, 1, 0), Err(Refusal::Planes));
    assert_eq!(write(3, 2, 18, b"417", 0, 1, 0), Err(Refusal::Room));
    assert_eq!(read(&[0; 512], b"417", 491), Err(Refusal::Room));
    assert_eq!(read(&[0; 512], b"417", 492), Err(Refusal::Label));
    assert_eq!(read(&[1; 512], LABEL, 492), Err(Refusal::Damaged));
}

#[test]
fn thirteen_after_two_and_before_three() {
    let wrong = [i32::MIN; 63]; // a wrong length, and each a wrong number
    assert_eq!(thumbnail(2, 9, 0, &wrong, [1, 2]), Err(Refusal::Side));
    assert_eq!(thumbnail(3, 9, 0, &wrong, [1, 2]), Err(Refusal::Levels));
    assert_eq!(thumbnail(3, 2, 0, &wrong, [1, 2]), Err(Refusal::Halvings));
    assert_eq!(thumbnail(3, 2, 3, &wrong, [1, 2]), Err(Refusal::Halvings));
    assert_eq!(thumbnail(3, 2, 2, &wrong, [4, 4]), Err(Refusal::Length));
    assert_eq!(thumbnail(3, 2, 2, &[i32::MIN; 64], [4, 5]), Err(Refusal::Length));
    assert_eq!(thumbnail(3, 2, 2, &[i32::MIN; 64], [4, 4]), Err(Refusal::Number));
}

/// Each of a softer picture's six faults with all that are judged later, and with the next alone.
#[test]
fn eleven_last() {
    let long = [i32::MIN; 65]; // a wrong length, and each a wrong number
    let wrong = [i32::MIN; 64];
    assert_eq!(display(2, 9, (19, 64), &long, [1, 2]), Err(Refusal::Side));
    assert_eq!(display(3, 9, (19, 64), &long, [1, 2]), Err(Refusal::Levels));
    assert_eq!(display(3, 2, (19, 64), &long, [64, 64]), Err(Refusal::Length));
    assert_eq!(display(3, 2, (19, 64), &wrong, [63, 64]), Err(Refusal::Length));
    assert_eq!(display(3, 2, (19, 64), &wrong, [64, 65]), Err(Refusal::Length));
    assert_eq!(display(3, 2, (19, 64), &wrong, [64, 64]), Err(Refusal::Number));
    assert_eq!(display(3, 2, (19, 64), &[0; 64], [64, 64]), Err(Refusal::Planes));
    assert_eq!(display(3, 2, (18, 64), &[0; 64], [64, 64]), Err(Refusal::State));

    assert_eq!(display(2, 9, (0, 0), &[0; 64], [64, 64]), Err(Refusal::Side));
    assert_eq!(display(3, 9, (0, 0), &[0; 64], [64, 63]), Err(Refusal::Levels));
    assert_eq!(display(3, 2, (0, 0), &wrong, [64, 63]), Err(Refusal::Length));
    assert_eq!(display(3, 2, (19, 0), &wrong, [64, 64]), Err(Refusal::Number));
    assert_eq!(display(3, 2, (0, 64), &[0; 64], [64, 64]), Err(Refusal::State));
}

#[test]
fn plain_answers() {
    let refused = raw::Kept {
        refusal: 10,
        ..raw::Kept::default()
    };
    let record = long_record();
    let mut room = vec![0; record.len()];
    assert_eq!(raw::read(&record, b"00000418", &mut room), refused);
    assert_eq!(refused.result(), Err(Refusal::Turn));
    assert_eq!(raw::forward(9, 1, &[], &mut []), raw::Planes { refusal: 1, n: 0 });
    assert_eq!(
        raw::code(3, 3, &[], 0, &mut []),
        raw::Written {
            refusal: 2,
            bits: 0,
            n: 0
        }
    );
    let refused = raw::Settled {
        refusal: 5,
        unfinished: 0,
        read: 0,
        place: 0,
    };
    assert_eq!(raw::decode(3, 2, 19, &mut [0; 64], &[0xC0; 2], 9), refused);
    let settled = raw::Settled {
        refusal: 0,
        unfinished: 2,
        read: 9,
        place: 2,
    };
    assert_eq!(raw::decode(3, 2, 3, &mut [0; 64], &[0xC0, 0x08], 9), settled);
    assert_eq!(settled.result(), label::decode(3, 2, 3, &mut [0; 64], &[0xC0, 0x08], 9));
    assert_eq!(raw::inverse(3, 2, &[i32::MIN; 64], &mut [0; 64], &mut [0; 64]), 4);
    assert_eq!(raw::thumbnail(3, 2, 0, &[i32::MIN; 64], &mut [], &mut []), 13);
    assert_eq!(raw::thumbnail(3, 2, 1, &[0; 64], &mut [0; 16], &mut [0; 16]), 0);
    assert_eq!(raw::display(3, 2, 18, 64, &[1; 64], &mut [0; 64], &mut [0; 64]), 11);
    assert_eq!(raw::display(3, 2, 18, 63, &[1; 64], &mut [0; 64], &mut [0; 64]), 0);
    assert_eq!(
        raw::write(3, 2, 0, 1, 0, 0, b"417", &[], 0, &mut [0; 512]),
        raw::Blocks { refusal: 7, blocks: 0 }
    );
    assert_eq!(
        (raw::check(&[1; 512]), raw::check(&[0; 512]), raw::check(&record[..512])),
        (8, 9, 0)
    );

    let kept = raw::read(&record, LABEL, &mut room);
    assert_eq!((kept.refusal, kept.k, kept.levels, kept.ended), (0, 5, 3, 0));
    assert_eq!((kept.edition, kept.arm, kept.mount), (1, 0, 0));
    assert_eq!(kept.result(), label::read(&record, LABEL, &mut room));
    let record = long_record_of(BY_ARM_2);
    let kept = raw::read(&record, LABEL, &mut room);
    assert_eq!((kept.refusal, kept.edition, kept.arm, kept.mount), (0, 2, 2, 70_123));
    assert_eq!(kept.result(), label::read(&record, LABEL, &mut room));
}

#[test]
fn names_and_numbers() {
    assert_eq!(
        Refusal::ALL.map(Refusal::number),
        [1, 2, 3, 4, 5, 6, 7, 8, 9, 10, 11, 13]
    );
    for number in [0, 12, 14, u32::MAX] {
        assert_eq!(Refusal::from_number(number), None);
    }
    let mut said = HashSet::new();
    for refusal in Refusal::ALL {
        assert_eq!(Refusal::from_number(refusal.number()), Some(refusal));
        let error: &dyn std::error::Error = &refusal;
        assert!((10..70).contains(&error.to_string().len()));
        assert!(said.insert(error.to_string()), "two refusals say the same");
    }
}

#[test]
#[should_panic(expected = "not of this package's version")]
fn a_refusal_that_there_is_not() {
    let _ = raw::Planes { refusal: 12, n: 0 }.result();
}

#[test]
#[should_panic(expected = "not of this package's version")]
fn a_refusal_above_all() {
    let _ = raw::Planes { refusal: 14, n: 0 }.result();
}

#[test]
#[should_panic(expected = "not of this package's version")]
fn an_edition_that_there_is_not() {
    let kept = raw::Kept {
        edition: 3,
        ..raw::Kept::default()
    };
    let _ = kept.result();
}
