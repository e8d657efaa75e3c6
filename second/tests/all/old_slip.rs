//! The viewer with the old slip, which the demo shows: it differs from the true
//! decoder exactly where a number has settled to nothing, and there it has what
//! the last label had.

use crate::naive;
use crate::steps;
use second::block;
use second::edition::{Edition, Origin};
use second::jobs;
use second::random::Random;
use second::record::block_count;
use second::refusal::Refusal;
use second::samples;
use second::sizes::Sizes;
use second::slip;

/// The record of the first `count` bits of these numbers' coding.
fn record(sizes: Sizes, numbers: &[i32], label: &[u8], count: u64) -> Vec<u8> {
    let bits = samples::coding(sizes, numbers);
    let count = count.min(bits.count);
    let blocks = block_count(Edition::One, count) as usize;
    let mut room = vec![0; block::LENGTH * blocks];
    let written = jobs::record_writing(
        sizes.k(),
        sizes.levels(),
        bits.planes,
        Origin::UNNAMED,
        label,
        &bits.bytes,
        count,
        &mut room,
    );
    assert_eq!(written, Ok(blocks as u32));
    room
}

fn shown(last: &[u8], next: &[u8]) -> slip::Held {
    let (last, next) = (slip::seen(last).unwrap(), slip::seen(next).unwrap());
    slip::look(&last, &next).expect("both records have the same sizes")
}

/// What is settled is taken from the plain list of a coding's bits, which
/// shares nothing with the decoder.
#[test]
fn what_is_not_settled_keeps_what_the_last_label_had() {
    let mut random = Random::new(31, 0);
    let mut kept = 0;
    for _ in 0..300 {
        let sizes = samples::sizes(&mut random, 5);
        let last = samples::numbers(&mut random, sizes);
        let next = samples::numbers(&mut random, sizes);
        let coding = naive::coding(sizes.k(), sizes.levels(), &next);
        let count = random.index(coding.bits.len() + 1);
        let (settled, _) = coding.settled(sizes.places(), count);
        let shown = shown(
            &record(sizes, &last, b"00000417", u64::MAX),
            &record(sizes, &next, b"00031986", count as u64),
        );
        for (place, number) in shown.numbers().iter().enumerate() {
            match settled[place] {
                0 => assert_eq!(*number, last[place]),
                true_number => assert_eq!(*number, true_number),
            }
        }
        kept += (0..sizes.places())
            .filter(|place| settled[*place] == 0 && last[*place] != 0)
            .count();
    }
    assert!(kept > 0, "nothing of a last label was ever left in place");
}

/// After a flat label there is nothing to leave in place, and a whole record
/// without a zero leaves no place for it.
#[test]
fn the_slip_is_not_seen_where_nothing_is_left() {
    let sizes = steps::sizes(4, 2);
    let flat = vec![0; sizes.places()];
    let mut random = Random::new(32, 0);
    for _ in 0..50 {
        let numbers = samples::numbers(&mut random, sizes);
        let dense: Vec<i32> = (1..=sizes.places() as i32).collect();
        let whole = |numbers: &[i32]| record(sizes, numbers, b"00000417", u64::MAX);
        let after_flat = shown(&whole(&flat), &whole(&numbers));
        assert_eq!(after_flat.numbers(), numbers);
        let over_all = shown(&whole(&numbers), &whole(&dense));
        assert_eq!(over_all.numbers(), dense);
    }
}

#[test]
fn its_picture_says_that_it_is_wrong() {
    let sizes = steps::sizes(3, 2);
    let picture: Vec<u8> = (0..64).collect();
    let (numbers, _) = steps::forward(sizes, &picture);
    let whole = record(sizes, &numbers, b"00000417", u64::MAX);
    let cut = record(sizes, &numbers, b"00031986", 0);
    let pgm = shown(&whole, &cut).pgm().unwrap();
    let mut wanted =
        b"P5\n# WRONG ON PURPOSE: numbers of the last label left in place\n8 8\n255\n".to_vec();
    wanted.extend(picture);
    assert_eq!(pgm, wanted);
}

#[test]
fn what_is_no_record_is_refused() {
    let refusal = |record: &[u8]| slip::seen(record).err();
    assert_eq!(refusal(&[]), Some(Refusal::Room));
    assert_eq!(refusal(&[0; 511]), Some(Refusal::Room));
    assert_eq!(refusal(&[0; 512]), Some(Refusal::Label));
    let sizes = steps::sizes(3, 2);
    let mut damaged = record(sizes, &[5; 64], b"00000417", u64::MAX);
    damaged[100] ^= 1;
    assert_eq!(refusal(&damaged), Some(Refusal::Check));
    let other = steps::sizes(3, 1);
    let [one, two] = [sizes, other].map(|sizes| record(sizes, &[5; 64], b"00000417", u64::MAX));
    let (one, two) = (slip::seen(&one).unwrap(), slip::seen(&two).unwrap());
    assert!(slip::look(&one, &two).is_none());
}
