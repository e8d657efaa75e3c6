//! Request 8: the arm and the mount number of edition 2, blocks of both editions
//! in one record, and the order in which a writer judges.

use second::block::{self, LENGTH};
use second::edition::{Edition, Origin};
use second::jobs;
use second::record::{self, Kept, READER_ROOM};
use second::refusal::Refusal;

const LABEL: &[u8] = b"0417AAL6";

fn origin(edition: u32, arm: u32, mount: u32) -> Origin {
    Origin {
        edition,
        arm,
        mount,
    }
}

/// Two blocks, all bits of which are ones; or the number of the refusal.
fn written(origin: Origin) -> Result<Vec<u8>, u32> {
    let mut room = vec![7; 2 * LENGTH];
    let bytes = [0xFF; 563];
    let blocks = jobs::record_writing(5, 2, 8, origin, LABEL, &bytes, 4_500, &mut room);
    if blocks.is_err() {
        assert_eq!(room, [7; 2 * LENGTH]);
    }
    blocks.map(|_| room).map_err(Refusal::number)
}

/// What is kept of two blocks, and its payload.
fn read(record: &[u8]) -> (Kept, Vec<u8>) {
    let mut room = vec![7; 2 * READER_ROOM];
    let kept = jobs::record_reading(record, LABEL, &mut room).expect("block 0 is sound");
    (kept, room)
}

/// Sets a byte of the block at this turn, and repairs its checks.
fn changed(record: &[u8], turn: usize, place: usize, byte: u8) -> Vec<u8> {
    let mut record = record.to_vec();
    let block = &mut record[turn * LENGTH..][..LENGTH];
    block[place] = byte;
    block::write_checks(block);
    record
}

#[test]
fn arm_and_mount_number_are_given_back() {
    for arm in [1, 2] {
        for mount in [0, 1, 255, 256, 65_535, 65_536, 70_123, 16_777_215] {
            let origin = origin(2, arm, mount);
            let (kept, payload) = read(&written(origin).unwrap());
            assert_eq!(kept.origin, origin);
            assert_eq!((kept.blocks, kept.bits, kept.ended), (2, 4_500, 0));
            assert_eq!(payload[..562], [0xFF; 562]);
            assert_eq!(payload[562..564], [0xF0, 7]);
        }
    }
}

#[test]
fn edition_1_ignores_them_and_gives_0() {
    let plain = written(Origin::UNNAMED).unwrap();
    assert_eq!(read(&plain).0.origin, Origin::UNNAMED);
    for arm in [1, 2, 3, u32::MAX] {
        for mount in [1, 16_777_215, 16_777_216, u32::MAX] {
            assert!(written(origin(1, arm, mount)) == Ok(plain.clone()));
        }
    }
}

#[test]
fn another_edition_arm_or_mount_number_is_9() {
    let refusal = |edition, arm, mount| written(origin(edition, arm, mount)).err();
    for edition in [0, 3, 4, 255, 256 + 1, 256 + 2, 1 << 31, u32::MAX] {
        assert_eq!(refusal(edition, 1, 0), Some(9));
    }
    for arm in [0, 3, 255, 256 + 1, 256 + 2, 1 << 31, u32::MAX] {
        assert_eq!(refusal(2, arm, 0), Some(9));
    }
    for mount in [16_777_216, 16_777_217, 1 << 31, u32::MAX] {
        assert_eq!(refusal(2, 1, mount), Some(9));
    }
}

/// Every choice of the seven faults, the last of them in the arm or in the
/// mount number: the first in this order is told.
#[test]
fn a_writer_judges_in_the_order_1_2_5_9_6_7_9() {
    let lasts = [(0, 0), (1, 16_777_216)];
    for (faults, last) in (0_u32..128).flat_map(|faults| lasts.map(|last| (faults, last))) {
        let first = [1, 2, 5, 9, 6, 7, 9, 0][faults.trailing_zeros().min(7) as usize];
        let wrong = |fault: u32| faults >> fault & 1 == 1;
        let (arm, mount) = if wrong(6) { last } else { (2, 5) };
        let edition = if wrong(3) { 3 } else { 2 };
        let told = jobs::record_writing(
            if wrong(0) { 9 } else { 4 },
            if wrong(1) { 0 } else { 2 },
            if wrong(2) { 19 } else { 8 },
            origin(edition, arm, mount),
            if wrong(5) { b"0417aal6" } else { LABEL },
            &[0xFF],
            if wrong(4) { 9 } else { 8 },
            &mut [0; LENGTH],
        );
        let told = told.map_or_else(Refusal::number, |_| 0);
        assert_eq!(told, first, "{:07b}", faults);
    }
}

/// From 3,905 to 3,936 bits edition 2 has one block more, and wants room for it.
#[test]
fn blocks_and_room_are_those_of_the_edition() {
    for count in 3_890..3_951 {
        for (edition, full) in [(1, 3_936), (2, 3_904)] {
            let wanted = 1 + usize::from(count > full);
            for room in [511, 512, 1_023, 1_024] {
                let mut room = vec![7; room];
                let written = jobs::record_writing(
                    5,
                    2,
                    8,
                    origin(edition, 1, 0),
                    LABEL,
                    &[0xFF; 500],
                    count,
                    &mut room,
                );
                let is_short = room.len() < 512 * wanted;
                let blocks = if is_short {
                    Err(Refusal::Room)
                } else {
                    Ok(wanted as u32)
                };
                assert_eq!(written, blocks);
            }
        }
    }
}

/// Bytes 16 to 19 are the arm and the mount number in edition 2, and payload in
/// edition 1.
#[test]
fn blocks_of_a_record_agree_in_what_they_name() {
    let record = written(origin(2, 1, 70_123)).unwrap();
    let ended = |record: &[u8]| read(record).0.ended;
    assert_eq!(ended(&record), 0);
    assert_eq!(ended(&changed(&record, 1, 16, 2)), 10);
    for arm in [0, 3, 255] {
        assert_eq!(ended(&changed(&record, 1, 16, arm)), 9);
        let block = &changed(&record, 0, 16, arm)[..LENGTH];
        assert_eq!(jobs::block_check(block), Err(Refusal::Field));
    }
    for place in 17..20 {
        assert_eq!(ended(&changed(&record, 1, place, 0x77)), 10);
        // Block 0 decides what the others are held to.
        assert_eq!(ended(&changed(&record, 0, place, 0x77)), 10);
        let both = changed(&changed(&record, 0, place, 0x77), 1, place, 0x77);
        assert_eq!(ended(&both), 0);
    }
    let first = written(Origin::UNNAMED).unwrap();
    for place in 16..20 {
        let (kept, payload) = read(&changed(&first, 1, place, 0x77));
        assert_eq!((kept.blocks, kept.ended), (2, 0));
        assert_eq!(payload[492 + place - 16], 0x77);
    }
}

#[test]
fn a_block_of_the_other_edition_is_out_of_turn() {
    let records = [Origin::UNNAMED, origin(2, 1, 0)].map(|origin| written(origin).unwrap());
    for (one, other) in [(0, 1), (1, 0)] {
        let mixed = [&records[one][..LENGTH], &records[other][LENGTH..]].concat();
        let (kept, _) = read(&mixed);
        assert_eq!((kept.blocks, kept.ended), (1, 10));
        assert_eq!(kept.origin.edition, one as u32 + 1);
        // Not sound by itself, it ends the run for that.
        let unsound = changed(&mixed, 1, 3, 19);
        assert_eq!(read(&unsound).0.ended, 9);
        let damaged = [&mixed[..1_000], &[0x55; 24]].concat();
        assert_eq!(read(&damaged).0.ended, 8);
    }
}

#[test]
fn a_block_of_edition_2_holds_3_904_bits() {
    let record = written(origin(2, 1, 0)).unwrap();
    let full = &record[..LENGTH];
    assert_eq!(full[14..16], 3_904_u16.to_be_bytes());
    let with_count = |count: u16| {
        let mut block = full.to_vec();
        block[14..16].copy_from_slice(&count.to_be_bytes());
        block::write_checks(&mut block);
        jobs::block_check(&block)
    };
    assert_eq!(with_count(3_904), Ok(()));
    for count in [3_903, 3_905, 3_912, 3_936, 3_937, 0xFFFF] {
        assert_eq!(with_count(count), Err(Refusal::Field), "{}", count);
    }
    // In edition 1 the four bytes before its payload would be bits, and the
    // last 32 bits unused.
    let as_edition_1 = changed(full, 0, 0, 1);
    assert_eq!(jobs::block_check(&as_edition_1), Err(Refusal::Field));
}

#[test]
fn the_counts_of_blocks_part_after_3_904_bits() {
    let blocks = |count| Edition::BOTH.map(|edition| record::block_count(edition, count));
    assert_eq!(blocks(0), [1, 1]);
    assert_eq!(blocks(3_904), [1, 1]);
    assert_eq!(blocks(3_905), [1, 2]);
    assert_eq!(blocks(3_936), [1, 2]);
    assert_eq!(blocks(3_937), [2, 2]);
    assert_eq!(blocks(7_808), [2, 2]);
    assert_eq!(blocks(7_809), [2, 3]);
}
