//! Where the cut fell: the lowest Z place not yet settled in the running plane, 0
//! where no plane is running or none of it is settled. Request 4, sentence by
//! sentence; what the flags behind it are is tested beside them, in the walk.

use crate::naive;
use crate::steps::{self, sizes};
use second::places::ZPlace;
use second::random::Random;
use second::samples::{self, Bits};
use second::sizes::Sizes;
use second::transcript::{self, Field, Request};

/// The place after each count of these bits, from none to all of them.
fn places(sizes: Sizes, bits: &Bits) -> Vec<usize> {
    let cuts = 0..=bits.count;
    cuts.map(|count| steps::decode(sizes, bits, count).1.place.0)
        .collect()
}

/// The places of the coding of one number at side 8 and two levels, the other
/// numbers 0.
fn places_of(place: usize, number: i32) -> Vec<usize> {
    let sizes = sizes(3, 2);
    let numbers = steps::one_number(sizes, place, number);
    places(sizes, &samples::coding(sizes, &numbers))
}

/// Bits by hand, of side 8 and two levels.
fn written(planes: u32, bits: &str) -> Bits {
    let bits: Vec<bool> = bits.chars().map(|bit| bit == '1').collect();
    Bits {
        planes,
        bytes: naive::bytes_of(&bits),
        count: bits.len() as u64,
    }
}

/// All 18 cuts of P3: the first set opens and settles none, nor does the 1 of
/// place 0 without its sign; then each number settles one. The closed rest ends
/// the plane, and of the next none is settled.
#[test]
fn every_cut_of_p3() {
    let expected = [0, 0, 0, 1, 2, 3, 4, 0, 1, 2, 3, 4, 0, 1, 2, 3, 4, 0];
    assert_eq!(places_of(0, 5), expected);
}

/// P8, whose number stands at place 15. The first set is closed and settles four
/// places at once; the rest opens and settles none; the sets from 4 and from 8
/// are closed, that from 12 opens; then places 12 to 14 are 0, and 15 has a 1 and
/// its sign. In the second plane it has one bit.
#[test]
fn every_cut_of_p8() {
    let first = [0, 4, 4, 8, 12, 12, 13, 14, 15, 15, 16];
    let second = [0, 4, 8, 12, 13, 14, 15, 16, 0];
    assert_eq!(places_of(15, -3), [&first[..], &second[..]].concat());
}

#[test]
fn no_plane_is_running_where_there_is_none() {
    for sizes in steps::all_sizes() {
        let bits = Bits {
            planes: 0,
            bytes: vec![0xFF; 3],
            count: 24,
        };
        assert!(places(sizes, &bits).iter().all(|place| *place == 0));
    }
}

/// None of a plane is settled by no bits.
#[test]
fn no_bits_settle_no_place() {
    for sizes in steps::all_sizes() {
        let (_, decoded) = steps::decode(sizes, &written(18, ""), 0);
        assert_eq!((decoded.unfinished, decoded.place), (18, ZPlace(0)));
    }
}

/// The set of places 0 to 3 opens and place 0 is 0; of place 1 there is a 1, and
/// no number as long as its sign is not there.
#[test]
fn a_cut_before_a_sign_leaves_its_number_open() {
    let sizes = sizes(3, 2);
    for (sign, number) in [("0", 1), ("1", -1)] {
        let bits = written(1, &format!("101{}", sign));
        assert_eq!(places(sizes, &bits), [0, 0, 1, 1, 2]);
        let (numbers, _) = steps::decode(sizes, &bits, 3);
        assert_eq!(numbers, [0; 64]);
        let (numbers, _) = steps::decode(sizes, &bits, 4);
        assert_eq!(numbers, steps::one_number(sizes, 1, number));
    }
}

/// With side 16 and two levels the first set has 16 places. Closed, it settles
/// them all; open, none, and its first quarter, closed, four of them. A set of a
/// rest does as much.
#[test]
fn a_closed_set_settles_all_its_places_and_an_open_one_none() {
    let sizes = sizes(4, 2);
    assert_eq!(places(sizes, &written(1, "0")), [0, 16]);
    assert_eq!(places(sizes, &written(1, "100")), [0, 0, 4, 8]);
    // The rest opens, the set from 16 is closed, that from 32 opens, its first
    // quarter is closed.
    let expected = [0, 16, 16, 32, 32, 36];
    assert_eq!(places(sizes, &written(1, "01010")), expected);
}

/// A closed rest settles all places from its first to the last, and the plane is
/// finished: after the first set and after a step of sets. A rest that opens
/// settles none.
#[test]
fn a_closed_rest_ends_the_plane() {
    let sizes = sizes(3, 2);
    let next = [2, 1];
    let bits = written(2, "00");
    assert_eq!(places(sizes, &bits), [0, 4, 0]);
    let unfinished = [1, 2].map(|count| steps::decode(sizes, &bits, count).1.unfinished);
    assert_eq!(unfinished, next);
    let bits = written(2, "010000");
    assert_eq!(places(sizes, &bits), [0, 4, 4, 8, 12, 16, 0]);
    let unfinished = [5, 6].map(|count| steps::decode(sizes, &bits, count).1.unfinished);
    assert_eq!(unfinished, next);
}

/// The last set ends the plane where there is no rest behind it.
#[test]
fn the_last_set_ends_the_plane() {
    let sizes = sizes(3, 1);
    let bits = written(2, "01000");
    assert_eq!(places(sizes, &bits), [0, 16, 16, 32, 48, 0]);
    let unfinished = [4, 5].map(|count| steps::decode(sizes, &bits, count).1.unfinished);
    assert_eq!(unfinished, [2, 1]);
}

#[test]
fn bits_beyond_the_last_plane_leave_no_plane_running() {
    let sizes = sizes(3, 2);
    let bits = written(2, "0000111111");
    assert_eq!(places(sizes, &bits), [0, 4, 0, 4, 0, 0, 0, 0, 0, 0, 0]);
    let (_, decoded) = steps::decode(sizes, &bits, 10);
    assert_eq!((decoded.unfinished, decoded.bits_read), (0, 4));
}

#[test]
fn a_refusal_gives_place_0() {
    let good = (3, 2, 2, 64, 9);
    let spoiled = [
        (2, 2, 2, 64, 9),
        (3, 3, 2, 64, 9),
        (3, 2, 2, 63, 9),
        (3, 2, 19, 64, 9),
        (3, 2, 2, 64, 17),
    ];
    let place = |(k, levels, planes, numbers, count)| {
        let request = Request::Decoding {
            k,
            levels,
            planes,
            numbers,
            bytes: vec![0x48, 0xC0],
            count,
        };
        let answer = transcript::answer(&request);
        let names: Vec<&str> = answer.iter().map(|(name, _)| *name).collect();
        assert_eq!(names[..4], ["refusal", "unfinished", "bits read", "place"]);
        (answer[0].1.clone(), answer[3].1.clone())
    };
    assert_eq!(place(good), (Field::Small(0), Field::Large(15)));
    let refusals = [1, 2, 3, 5, 6];
    for (spoiled, refusal) in spoiled.into_iter().zip(refusals) {
        assert_eq!(place(spoiled), (Field::Small(refusal), Field::Large(0)));
    }
}

/// Of any bits at all the place is one of the picture, it is 0 where nothing is
/// unfinished, and with more bits plane and place never move back; and it is the
/// place of the second formulation, which keeps no flags.
#[test]
fn the_place_never_moves_back() {
    let mut random = Random::new(61, 0);
    for _ in 0..150 {
        let sizes = samples::sizes(&mut random, 4);
        let bits = samples::bits(&mut random, sizes);
        let list = naive::bits_of(&bits.bytes, bits.count as usize);
        let mut last = (u32::MAX, ZPlace(0));
        for count in 0..=bits.count.min(3_000) {
            let (_, decoded) = steps::decode(sizes, &bits, count);
            let (unfinished, place) = (decoded.unfinished, decoded.place);
            assert!(place.0 < sizes.places());
            assert!(unfinished > 0 || place == ZPlace(0));
            let (before, place_before) = last;
            assert!(unfinished < before || (unfinished == before && place >= place_before));
            last = (unfinished, place);
            if count % 7 == 0 {
                let first = &list[..count as usize];
                let naive = naive::decoding(sizes.k(), sizes.levels(), bits.planes, first);
                assert_eq!(place.0, naive.place);
            }
        }
    }
}
