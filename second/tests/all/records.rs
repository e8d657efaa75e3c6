//! Records and blocks: what the reader keeps, what ends its run, and where the
//! writer and the reader draw their lines.

use second::block::{self, Heading, LENGTH, NUMBER};
use second::edition::{Edition, Origin};
use second::jobs;
use second::record::{Kept, READER_ROOM};
use second::refusal::Refusal;
use second::sizes::Sizes;

const LABEL: &[u8] = b"00000417";

/// An origin of this edition; edition 1 ignores all but that.
fn origin(edition: Edition) -> Origin {
    Origin {
        edition: edition.number(),
        arm: 1,
        mount: 70_123,
    }
}

fn heading(edition: Edition) -> Heading {
    let sizes = Sizes::new(8, 5).unwrap();
    Heading::new(sizes, 18, origin(edition), LABEL).unwrap()
}

/// A sound block with this number and so many bits, all ones.
fn block(edition: Edition, number: u16, count: u16) -> Vec<u8> {
    let payload = vec![0xFF; edition.payload_length()];
    block::build(&heading(edition), number, count, &payload).to_vec()
}

fn full(edition: Edition, number: u16) -> Vec<u8> {
    block(edition, number, edition.payload_bits())
}

/// Puts a byte into a block and repairs its checks.
fn changed(mut block: Vec<u8>, place: usize, byte: u8) -> Vec<u8> {
    block[place] = byte;
    block::write_checks(&mut block);
    block
}

fn read(blocks: &[Vec<u8>]) -> Result<Kept, Refusal> {
    let mut room = vec![0xEE; blocks.len() * READER_ROOM + 5];
    let kept = jobs::record_reading(&blocks.concat(), LABEL, &mut room);
    let used = kept.map_or(0, |kept| (kept.bits as usize + 7) / 8);
    assert!(room[used..].iter().all(|byte| *byte == 0xEE));
    kept
}

/// Blocks kept, total bits, and the number that ended the run.
fn run(blocks: &[Vec<u8>]) -> (u32, u64, u32) {
    let kept = read(blocks).unwrap();
    (kept.blocks, kept.bits, kept.ended)
}

#[test]
fn the_reader_keeps_the_longest_run() {
    for edition in Edition::BOTH {
        let full = |number| full(edition, number);
        let block = |number, count| block(edition, number, count);
        let bits = |blocks: u64| blocks * u64::from(edition.payload_bits());
        assert_eq!(run(&[full(0), full(1), block(2, 9)]), (3, bits(2) + 9, 0));
        assert_eq!(run(&[full(0), full(1)]), (2, bits(2), 0));
        assert_eq!(run(&[full(0), block(1, 0)]), (2, bits(1), 0));
        assert_eq!(run(&[block(0, 0)]), (1, 0, 0));
        assert_eq!(run(&[full(0), full(2), full(1)]), (1, bits(1), 10));
        assert_eq!(run(&[full(0), full(0), full(1)]), (1, bits(1), 10));
    }
}

#[test]
fn a_short_block_ends_the_run_whatever_follows() {
    for edition in Edition::BOTH {
        let short = block(edition, 1, edition.payload_bits() - 1);
        let kept = u64::from(edition.payload_bits()) * 2 - 1;
        let damaged = vec![0xAA; LENGTH];
        let other = block(edition.other(), 2, 5);
        for follower in [block(edition, 2, 5), block(edition, 7, 5), damaged, other] {
            let blocks = [full(edition, 0), short.clone(), follower];
            assert_eq!(run(&blocks), (2, kept, 0));
        }
    }
}

#[test]
fn each_number_can_end_a_run_or_refuse_block_0() {
    for edition in Edition::BOTH {
        let next = block(edition, 1, 100);
        let after_the_bits = edition.payload().start + 12;
        let mut wrong_a = next.clone();
        wrong_a[508] ^= 1;
        let mut wrong_b = next.clone();
        wrong_b[511] ^= 1;
        let changed = |place, byte| changed(next.clone(), place, byte);
        let enders = [
            (8, wrong_a),
            (8, wrong_b),
            (9, changed(0, 3)),
            (9, changed(14, 0xFF)),
            (9, changed(after_the_bits, 0xF8)),
            (10, changed(NUMBER.start, 1)),
            (10, changed(11, b'8')),
            (10, changed(3, 17)),
        ];
        for (number, ender) in enders {
            let bits = edition.payload_bits().into();
            assert_eq!(run(&[full(edition, 0), ender.clone()]), (1, bits, number));
            let refused = read(&[ender]).unwrap_err();
            assert_eq!(refused.number(), number);
        }
    }
}

#[test]
fn every_field_of_a_block_is_judged() {
    for edition in Edition::BOTH {
        let sound = block(edition, 0, 100);
        assert_eq!(jobs::block_check(&sound), Ok(()));
        let wrong = [
            (0, 0),
            (0, 3),
            (1, 2),
            (1, 9),
            (2, 0),
            (2, 6),
            (3, 19),
            (4, b'/'),
            (11, b':'),
            (14, 0x10),
            (edition.payload().start + 12, 0xF8),
            (507, 1),
        ];
        for (place, byte) in wrong {
            let block = changed(sound.clone(), place, byte);
            assert_eq!(jobs::block_check(&block), Err(Refusal::Field));
        }
        // L's range depends on k: 5 levels want k of 6 or more.
        let side_of_32 = changed(sound.clone(), 1, 5);
        assert_eq!(jobs::block_check(&side_of_32), Err(Refusal::Field));
        assert_eq!(jobs::block_check(&changed(side_of_32, 2, 4)), Ok(()));
        // The block number is none of the single-block check's business.
        assert_eq!(jobs::block_check(&changed(sound, 12, 0xFF)), Ok(()));
    }
}

#[test]
fn every_damaged_byte_is_noticed() {
    for edition in Edition::BOTH {
        let sound = full(edition, 0);
        for place in 0..LENGTH {
            let mut block = sound.clone();
            block[place] ^= 0x10;
            assert_eq!(jobs::block_check(&block), Err(Refusal::Check));
        }
    }
}

#[test]
fn a_slice_that_is_no_block_is_6() {
    for length in [0, 1, 511, 513, 1024] {
        assert_eq!(jobs::block_check(&vec![0; length]), Err(Refusal::Room));
    }
}

/// Its room has one figure, though a payload of edition 2 is shorter.
#[test]
fn the_reader_counts_whole_blocks_and_ignores_a_tail() {
    for edition in Edition::BOTH {
        let record = [full(edition, 0), block(edition, 5, 3)].concat();
        let read = |length: usize, room: usize| {
            jobs::record_reading(&record[..length], LABEL, &mut vec![0; room])
        };
        assert_eq!(read(511, 1000), Err(Refusal::Room));
        assert_eq!(read(0, 1000), Err(Refusal::Room));
        assert_eq!(read(1023, 492).unwrap().ended, 0);
        assert_eq!(read(1023, 491), Err(Refusal::Room));
        // Room is counted for all whole blocks, not only for those kept.
        assert_eq!(read(1024, 983), Err(Refusal::Room));
        assert_eq!(read(1024, 984).unwrap().ended, 10);
    }
}

#[test]
fn the_block_after_number_65_535_is_out_of_turn() {
    for edition in Edition::BOTH {
        let mut blocks = Vec::new();
        for number in 0..=65_536_u32 {
            blocks.extend(full(edition, number as u16));
        }
        let mut room = vec![0; 65_537 * READER_ROOM];
        let kept = jobs::record_reading(&blocks, LABEL, &mut room).unwrap();
        assert_eq!((kept.blocks, kept.ended), (65_536, 10));
    }
}

/// Asks for the record of the first `count` bits, k and L being in range.
fn write(
    [k, levels, planes]: [u32; 3],
    edition: Edition,
    bytes: usize,
    count: u64,
    room: usize,
) -> Result<u32, Refusal> {
    let (bytes, mut room) = (vec![0xFF; bytes], vec![0; room]);
    let origin = origin(edition);
    jobs::record_writing(k, levels, planes, origin, LABEL, &bytes, count, &mut room)
}

#[test]
fn the_writer_draws_its_lines_at_the_bound() {
    for edition in Edition::BOTH {
        let write = |planes, count, room| write([3, 2, planes], edition, 600, count, room);
        // The bound is the formula as written, also for no planes at all.
        assert_eq!(write(0, 64, 512), Ok(1));
        assert_eq!(write(0, 65, 512), Err(Refusal::Room));
        assert_eq!(write(18, 1_594, 512), Ok(1));
        assert_eq!(write(18, 1_595, 5_120), Err(Refusal::Room));
        assert_eq!(write(18, 0, 511), Err(Refusal::Room));
        assert_eq!(write(19, 0, 0), Err(Refusal::Planes));
    }
}

#[test]
fn the_writer_draws_its_lines_at_the_room() {
    for (edition, full) in [(Edition::One, 3_936), (Edition::Two, 3_904)] {
        let bytes = full as usize / 4;
        let write = |count, room| write([5, 2, 18], edition, bytes, count, room);
        assert_eq!(write(full, 512), Ok(1));
        assert_eq!(write(full + 1, 1_024), Ok(2));
        assert_eq!(write(full + 1, 1_023), Err(Refusal::Room));
        assert_eq!(write(full * 2, 1_024), Ok(2));
        assert_eq!(write(full * 2 + 1, 9_999), Err(Refusal::Room));
        assert_eq!(write(u64::MAX, 9_999), Err(Refusal::Room));
        assert_eq!(write(1 << 61, 9_999), Err(Refusal::Room));
    }
}

#[test]
fn bits_after_the_last_count_as_zero() {
    for edition in Edition::BOTH {
        let mut room = [0xEE; 600];
        let bytes = [0xFF; 3];
        let origin = origin(edition);
        let written = jobs::record_writing(5, 2, 18, origin, LABEL, &bytes, 11, &mut room);
        assert_eq!(written, Ok(1));
        assert_eq!(room[14..16], [0, 11]);
        assert_eq!(room[edition.payload()][..3], [0xFF, 0xE0, 0]);
        assert!(room[512..].iter().all(|byte| *byte == 0xEE));
        assert_eq!(jobs::block_check(&room[..512]), Ok(()));
    }
}
