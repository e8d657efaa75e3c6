//! Request 11, thumbnails: what whole and cut records give, the refusals and
//! their order, and slips that look reasonable. By hand it is in `by_hand`.

use crate::steps::{self, sizes};
use second::jobs;
use second::places;
use second::random::Random;
use second::refusal::Refusal;
use second::samples::{self, Bits};
use second::sizes::Sizes;
use second::transform;

/// Every pair of sizes and r within its range.
fn all_halvings() -> impl Iterator<Item = (Sizes, u32)> {
    let all = steps::all_sizes().into_iter();
    all.flat_map(|sizes| (1..=sizes.levels()).map(move |halvings| (sizes, halvings)))
}

/// Values in raster order as a picture, and as they stand in the room.
fn shown(values: &[i32], k: u32) -> (Vec<u8>, Vec<i32>) {
    let picture = values.iter().map(|value| transform::grey(*value)).collect();
    let mut room = vec![0; values.len()];
    places::into_z_order(values, k, &mut room);
    (picture, room)
}

/// What the low band of the original comes to.
fn low_band(sizes: Sizes, halvings: u32, picture: &[u8]) -> (Vec<u8>, Vec<i32>) {
    let values = transform::low_band(sizes, halvings, picture);
    shown(&values, sizes.k() - halvings)
}

#[test]
fn of_a_whole_record_it_is_the_low_band_of_the_original() {
    for (run, sizes) in (0..).zip(steps::all_sizes()) {
        let mut random = Random::new(60, run);
        for _ in 0..steps::pictures_of(sizes) {
            let picture = samples::picture(&mut random, sizes);
            let bits = steps::code_picture(sizes, &picture);
            let (numbers, _) = steps::decode(sizes, &bits, bits.count);
            for halvings in 1..=sizes.levels() {
                let thumbnail = steps::thumbnail(sizes, halvings, &numbers).unwrap();
                assert_eq!(thumbnail, low_band(sizes, halvings, &picture));
            }
        }
    }
}

/// At every r the greys of this cut, set and before they are set, are within
/// (7(L-r) + 1)(2^p - 1) of the low band's.
fn check_cut(sizes: Sizes, picture: &[u8], bits: &Bits, count: u64) {
    let (numbers, decoded) = steps::decode(sizes, bits, count);
    for halvings in 1..=sizes.levels() {
        let left = sizes.levels() - halvings;
        let bound = (7 * left + 1) * ((1 << decoded.unfinished) - 1);
        let (greys, room) = steps::thumbnail(sizes, halvings, &numbers).unwrap();
        let (true_greys, true_room) = low_band(sizes, halvings, picture);
        for (grey, truth) in greys.iter().zip(true_greys) {
            assert!(u32::from(grey.abs_diff(truth)) <= bound);
        }
        for (value, truth) in room.iter().zip(true_room) {
            assert!(value.abs_diff(truth) <= bound);
        }
    }
}

#[test]
fn every_cut_of_small_pictures_is_worth_what_is_promised() {
    let mut random = Random::new(61, 0);
    for _ in 0..200 {
        let sizes = samples::sizes(&mut random, 4);
        let picture = samples::picture(&mut random, sizes);
        let bits = steps::code_picture(sizes, &picture);
        for count in 0..=bits.count {
            check_cut(sizes, &picture, &bits, count);
        }
    }
}

#[test]
fn random_cuts_at_every_size_are_worth_what_is_promised() {
    for (run, sizes) in (0..).zip(steps::all_sizes()) {
        let mut random = Random::new(62, run);
        for _ in 0..steps::pictures_of(sizes) {
            let picture = samples::picture(&mut random, sizes);
            let bits = steps::code_picture(sizes, &picture);
            for _ in 0..6 {
                let count = random.below(bits.count + 1);
                check_cut(sizes, &picture, &bits, count);
            }
        }
    }
}

#[test]
fn at_r_of_l_it_is_the_smallest_band_plus_128() {
    for (run, sizes) in (0..).zip(steps::all_sizes()) {
        let mut random = Random::new(63, run);
        for _ in 0..20 {
            let numbers = samples::numbers(&mut random, sizes);
            let band = numbers[..sizes.first_set()].iter();
            let room: Vec<i32> = band.map(|number| number + 128).collect();
            let values = places::from_z_order(&room, sizes.k() - sizes.levels());
            let (picture, _) = shown(&values, sizes.k() - sizes.levels());
            let thumbnail = steps::thumbnail(sizes, sizes.levels(), &numbers);
            assert_eq!(thumbnail, Ok((picture, room)));
        }
    }
}

/// One more than L - r, or one fewer, is seen.
#[test]
fn just_l_less_r_levels_are_undone() {
    let (numbers, _) = steps::forward(sizes(5, 3), &Random::new(64, 0).bytes(1_024));
    let thumbnail = steps::thumbnail(sizes(5, 3), 1, &numbers);
    let undone = |levels| steps::inverse(sizes(4, levels), &numbers[..256]);
    assert_eq!(thumbnail, undone(2));
    assert_ne!(thumbnail, undone(3));
    assert_ne!(thumbnail, undone(1));
}

/// The limits are the first (S/2^r)² numbers' alone; those behind may be
/// anything, and change nothing.
#[test]
fn what_lies_behind_the_thumbnail_is_not_looked_at() {
    for (sizes, halvings) in all_halvings() {
        let greys = sizes.halved_places(halvings);
        let flat = steps::thumbnail(sizes, halvings, &vec![0; sizes.places()]);
        assert_eq!(flat, Ok((vec![128; greys], vec![128; greys])));
        for number in [262_144, -262_144, i32::MIN, i32::MAX] {
            let with = |place| {
                let numbers = steps::one_number(sizes, place, number);
                steps::thumbnail(sizes, halvings, &numbers)
            };
            assert_eq!(with(greys), flat);
            assert_eq!(with(sizes.places() - 1), flat);
            assert_eq!(with(0), Err(Refusal::Magnitude));
            assert_eq!(with(greys - 1), Err(Refusal::Magnitude));
        }
    }
}

/// The number of the refusal, 0 if there is none; a refusal changes nothing.
fn judged(k: u32, levels: u32, halvings: u32, numbers: &[i32], greys: [usize; 2]) -> u32 {
    let (mut picture, mut room) = (vec![7; greys[0]], vec![7; greys[1]]);
    match jobs::thumbnail(k, levels, halvings, numbers, &mut picture, &mut room) {
        Ok(()) => 0,
        Err(refusal) => {
            assert_eq!((picture, room), (vec![7; greys[0]], vec![7; greys[1]]));
            refusal.number()
        }
    }
}

#[test]
fn an_r_outside_its_range_is_13() {
    for sizes in steps::all_sizes() {
        let (k, levels) = (sizes.k(), sizes.levels());
        let numbers = vec![0; sizes.places()];
        for halvings in [0, levels + 1, k, k + 1, 32, 33, 256 + levels, u32::MAX] {
            for greys in [0, 1, 4, sizes.places()] {
                assert_eq!(judged(k, levels, halvings, &numbers, [greys; 2]), 13);
            }
        }
    }
}

#[test]
fn each_slice_has_one_right_length() {
    for (sizes, halvings) in all_halvings() {
        let (all, greys) = (sizes.places(), sizes.halved_places(halvings));
        let with = |numbers: usize, greys: [usize; 2]| {
            let numbers = vec![0; numbers];
            judged(sizes.k(), sizes.levels(), halvings, &numbers, greys)
        };
        assert_eq!(with(all, [greys; 2]), 0);
        for wrong in [0, greys, all - 1, all + 1] {
            assert_eq!(with(wrong, [greys; 2]), 3);
        }
        for wrong in [0, greys / 4, greys - 1, greys + 1, 4 * greys, all] {
            assert_eq!(with(all, [wrong, greys]), 3);
            assert_eq!(with(all, [greys, wrong]), 3);
            assert_eq!(with(all, [wrong; 2]), 3);
        }
    }
}

/// Every choice of the five faults, that of 3 in each of the slices: the first
/// of them in this order is told.
#[test]
fn refusals_are_judged_in_the_order_1_2_13_3_4() {
    for (faults, short) in (0_u32..32).flat_map(|faults| [0, 1, 2].map(|short| (faults, short))) {
        let first = [1, 2, 13, 3, 4, 0][faults.trailing_zeros().min(5) as usize];
        let wrong = [0, 1, 2, 3, 4].map(|fault| faults >> fault & 1 == 1);
        let k = if wrong[0] { 9 } else { 4 };
        let levels = if wrong[1] { 4 } else { 2 };
        let halvings = if wrong[2] { 0 } else { 1 };
        let number = if wrong[4] { i32::MIN } else { 5 };
        let mut lengths = [256, 64, 64];
        lengths[short] -= usize::from(wrong[3]);
        let [all, picture, room] = lengths;
        let numbers = &steps::one_number(sizes(4, 2), 0, number)[..all];
        let told = judged(k, levels, halvings, numbers, [picture, room]);
        assert_eq!(told, first, "{:05b}", faults);
    }
}
