//! Request 5, softer cut pictures: what the cuts of a coding show and are worth,
//! the refusals and their order. By hand it is in `by_hand`.

use crate::steps::{self, sizes};
use second::jobs::{self, Decoded};
use second::places::ZPlace;
use second::random::Random;
use second::refusal::Refusal;
use second::samples::{self, Bits};
use second::sizes::Sizes;
use second::transform;

/// The unread bits of the number at this Z place, as the request has them.
fn unread(z: usize, decoded: Decoded) -> u32 {
    match (z < decoded.place.0, decoded.unfinished) {
        (_, 0) => 0,
        (true, p) => p - 1,
        (false, p) => p,
    }
}

/// How many numbers were shown that are no zeros: with unread bits, before the
/// place and from it on, and without any though planes are unfinished.
#[derive(Default)]
struct Shown {
    before: u32,
    behind: u32,
    exact: u32,
}

/// What the request says of numbers: those shown that are not zero lie within
/// 2^(u-1) of the truth, or are true where u is 0. Gives them.
fn check_numbers(truth: &[i32], numbers: &[i32], decoded: Decoded, met: &mut Shown) -> Vec<i32> {
    let shown = transform::softened(numbers, decoded.unfinished, decoded.place);
    for (z, truth) in truth.iter().enumerate() {
        let off = shown[z].abs_diff(*truth);
        match (numbers[z], unread(z, decoded)) {
            (0, _) => assert_eq!(shown[z], 0),
            (_, 0) => {
                assert_eq!(off, 0);
                met.exact += u32::from(decoded.unfinished > 0);
            }
            (number, unread) => {
                assert!(off <= 1 << (unread - 1));
                assert_eq!(shown[z].signum(), number.signum());
                match z < decoded.place.0 {
                    true => met.before += 1,
                    false => met.behind += 1,
                }
            }
        }
    }
    shown
}

/// What it says of greys, set and before they are set: the limit of the plain
/// picture holds. They are held to what the true numbers give.
fn check_greys(sizes: Sizes, truth: &[i32], numbers: &[i32], decoded: Decoded) {
    let limit = (7 * sizes.levels() + 1) * ((1 << decoded.unfinished) - 1);
    let (true_picture, true_room) = steps::inverse(sizes, truth).unwrap();
    let stopped = decoded.place.0 as u64;
    let displayed = steps::display(sizes, decoded.unfinished, stopped, numbers);
    let (picture, room) = displayed.unwrap();
    for (grey, truth) in picture.iter().zip(true_picture) {
        assert!(u32::from(grey.abs_diff(truth)) <= limit);
    }
    for (value, truth) in room.iter().zip(true_room) {
        assert!(value.abs_diff(truth) <= limit);
    }
}

/// A display is the inverse of the numbers shown, which takes them all: they stay
/// below 2^n in magnitude.
fn check_picture(sizes: Sizes, planes: u32, numbers: &[i32], decoded: Decoded, shown: &[i32]) {
    let below = |number: &i32| number.unsigned_abs() < 1 << planes;
    assert!(shown.iter().all(below));
    let stopped = decoded.place.0 as u64;
    let displayed = steps::display(sizes, decoded.unfinished, stopped, numbers);
    assert_eq!(displayed, Ok(steps::inverse(sizes, shown).unwrap()));
}

fn check_cut(sizes: Sizes, truth: &[i32], bits: &Bits, count: u64, met: &mut Shown) {
    let (numbers, decoded) = steps::decode(sizes, bits, count);
    let shown = check_numbers(truth, &numbers, decoded, met);
    check_greys(sizes, truth, &numbers, decoded);
    check_picture(sizes, bits.planes, &numbers, decoded, &shown);
}

#[test]
fn every_cut_of_small_pictures_is_worth_what_is_promised() {
    let mut random = Random::new(70, 0);
    let mut met = Shown::default();
    for _ in 0..200 {
        let sizes = samples::sizes(&mut random, 4);
        let picture = samples::picture(&mut random, sizes);
        let (truth, _) = steps::forward(sizes, &picture);
        let bits = samples::coding(sizes, &truth);
        for count in 0..=bits.count {
            check_cut(sizes, &truth, &bits, count, &mut met);
        }
    }
    assert!(met.before > 0 && met.behind > 0 && met.exact > 0);
}

/// Of pictures, and of any numbers that can be coded.
#[test]
fn random_cuts_at_every_size_are_worth_what_is_promised() {
    let mut met = Shown::default();
    for (run, sizes) in (0..).zip(steps::all_sizes()) {
        let mut random = Random::new(71, run);
        for _ in 0..steps::pictures_of(sizes) {
            let picture = samples::picture(&mut random, sizes);
            let (numbers, _) = steps::forward(sizes, &picture);
            for truth in [numbers, samples::numbers(&mut random, sizes)] {
                let bits = samples::coding(sizes, &truth);
                for _ in 0..6 {
                    let count = random.below(bits.count + 1);
                    check_cut(sizes, &truth, &bits, count, &mut met);
                }
            }
        }
    }
    assert!(met.before > 0 && met.behind > 0 && met.exact > 0);
}

/// With p = 0 nothing is added, wherever the place is: it is the plain picture.
#[test]
fn without_unfinished_planes_it_is_the_picture() {
    for (run, sizes) in (0..).zip(steps::all_sizes()) {
        let mut random = Random::new(72, run);
        for _ in 0..10 {
            let numbers = samples::numbers(&mut random, sizes);
            let picture = steps::inverse(sizes, &numbers);
            let last = sizes.places() as u64 - 1;
            for place in [0, 1, random.below(last + 1), last] {
                assert_eq!(steps::display(sizes, 0, place, &numbers), picture);
            }
        }
    }
}

/// Every p and every place at side 8, whose numbers are -32 to 31: each but the 0
/// moves away from it, by one power of two before the place and the next behind.
#[test]
fn every_p_and_place_of_side_8() {
    let half = |unread: u32| (1 << unread) / 2;
    let numbers: Vec<i32> = (-32..32).collect();
    for (p, place) in (0..=18_u32).flat_map(|p| (0..64).map(move |place| (p, place))) {
        let moved = (0..).zip(&numbers).map(|(z, number)| {
            let by = half(if z < place { p.max(1) - 1 } else { p });
            match number {
                0 => 0,
                1.. => number + by,
                _ => number - by,
            }
        });
        let moved: Vec<i32> = moved.collect();
        let displayed = steps::display(sizes(3, 2), p, place, &numbers);
        assert_eq!(displayed, steps::inverse(sizes(3, 2), &moved));
    }
}

/// 4 judges the stored numbers only: moved ones, of numbers that no decoding left
/// so, may pass the limit, as far as 18 unread bits take them.
#[test]
fn moved_numbers_may_pass_the_limit() {
    for sizes in steps::all_sizes() {
        let places = sizes.places();
        for number in [262_143, -262_143] {
            let numbers = vec![number; places];
            let last = ZPlace(places - 1);
            let shown = transform::softened(&numbers, 18, last);
            let sign = number.signum();
            assert!(shown[..last.0].iter().all(|shown| shown * sign == 327_679));
            assert_eq!(shown[last.0] * sign, 393_215);
            let moved = steps::inverse(sizes, &shown);
            assert_eq!(moved, Err(Refusal::Magnitude));
            let place = last.0 as u64;
            assert!(steps::display(sizes, 18, place, &numbers).is_ok());
        }
        for number in [262_144, -262_144, i32::MIN, i32::MAX] {
            for (p, place) in [(0, 0), (0, places - 1), (18, 0)] {
                let numbers = steps::one_number(sizes, place, number);
                let displayed = steps::display(sizes, p, 0, &numbers);
                assert_eq!(displayed, Err(Refusal::Magnitude));
            }
        }
    }
}

/// The number of the refusal, 0 if there is none; a refusal changes nothing.
fn judged(sent: [u32; 3], place: u64, numbers: &[i32], greys: [usize; 2]) -> u32 {
    let [k, levels, unfinished] = sent;
    let (mut picture, mut room) = (vec![7; greys[0]], vec![7; greys[1]]);
    match jobs::display(
        k,
        levels,
        unfinished,
        place,
        numbers,
        &mut picture,
        &mut room,
    ) {
        Ok(()) => 0,
        Err(refusal) => {
            assert_eq!((picture, room), (vec![7; greys[0]], vec![7; greys[1]]));
            refusal.number()
        }
    }
}

#[test]
fn a_p_above_18_is_5_and_a_place_of_s_squared_or_more_is_11() {
    for sizes in steps::all_sizes() {
        let (k, levels, places) = (sizes.k(), sizes.levels(), sizes.places());
        let numbers = vec![1; places];
        let with = |p, place| judged([k, levels, p], place, &numbers, [places; 2]);
        let last = places as u64 - 1;
        for p in 0..=18 {
            assert_eq!([with(p, 0), with(p, last)], [0, 0]);
            for place in [last + 1, last + 2, 1 << 32, u64::MAX] {
                assert_eq!(with(p, place), 11);
            }
        }
        for p in [19, 20, 31, 32, 33, 256, u32::MAX] {
            for place in [0, last, last + 1, u64::MAX] {
                assert_eq!(with(p, place), 5);
            }
        }
    }
}

#[test]
fn each_slice_is_s_squared_long() {
    for sizes in steps::all_sizes() {
        let all = sizes.places();
        let with = |numbers: usize, greys: [usize; 2]| {
            judged([sizes.k(), sizes.levels(), 2], 5, &vec![0; numbers], greys)
        };
        assert_eq!(with(all, [all; 2]), 0);
        for wrong in [0, all / 4, all - 1, all + 1] {
            assert_eq!(with(wrong, [all; 2]), 3);
            assert_eq!(with(all, [wrong, all]), 3);
            assert_eq!(with(all, [all, wrong]), 3);
            assert_eq!(with(wrong, [wrong; 2]), 3);
        }
    }
}

/// Every choice of the six faults, that of 3 in each of the slices: the first of
/// them in this order is told.
#[test]
fn refusals_are_judged_in_the_order_1_2_3_4_5_11() {
    for (faults, short) in (0_u32..64).flat_map(|faults| [0, 1, 2].map(|short| (faults, short))) {
        let first = [1, 2, 3, 4, 5, 11, 0][faults.trailing_zeros().min(6) as usize];
        let wrong = [0, 1, 2, 3, 4, 5].map(|fault| faults >> fault & 1 == 1);
        let k = if wrong[0] { 9 } else { 4 };
        let levels = if wrong[1] { 4 } else { 2 };
        let mut lengths = [256; 3];
        lengths[short] -= usize::from(wrong[2]);
        let [all, picture, room] = lengths;
        let number = if wrong[3] { i32::MIN } else { 5 };
        let p = if wrong[4] { 19 } else { 18 };
        let place = if wrong[5] { 256 } else { 255 };
        let numbers = &steps::one_number(sizes(4, 2), 0, number)[..all];
        let told = judged([k, levels, p], place, numbers, [picture, room]);
        assert_eq!(told, first, "{:06b}", faults);
    }
}
