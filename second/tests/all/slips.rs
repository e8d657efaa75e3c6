//! The paper's slips that look reasonable: for each, that the right answer
//! holds; for the last, that the claim it makes is false.

use crate::naive;
use crate::steps::{self, sizes};
use second::edition::Origin;
use second::jobs;
use second::random::Random;
use second::refusal::Refusal;
use second::samples;
use second::sizes::Sizes;
use second::transform;

#[test]
fn division_is_towards_minus_infinity() {
    let line = transform::forward_line(&[0, -1, -1, 0]);
    assert_eq!(line[2], 0);
    // floor(-1 / 2) is -1 in the first high, floor(-3 / 4) is -1 in the last low.
    assert_eq!(transform::forward_line(&[0, 0, -1, 0]), [1, 0, 1, 1]);
    assert_eq!(transform::forward_line(&[0, -5, 0, 0]), [-2, -1, -5, 0]);
}

/// At every cut, also between a 1 and its sign, only whole numbers are settled.
#[test]
fn a_one_without_its_sign_settles_nothing() {
    let mut random = Random::new(20, 0);
    for _ in 0..200 {
        let sizes = samples::sizes(&mut random, 4);
        let numbers = samples::numbers(&mut random, sizes);
        let bits = samples::coding(sizes, &numbers);
        let mut before = vec![0; sizes.places()];
        for (count, coded) in (1..).zip(naive::coding(sizes.k(), sizes.levels(), &numbers).bits) {
            let (settled, decoded) = steps::decode(sizes, &bits, count);
            assert_eq!(decoded.bits_read, count);
            if coded.settles.is_none() {
                assert_eq!(settled, before);
            }
            before = settled;
        }
    }
}

#[test]
fn zeros_are_written_over_the_last_label() {
    let sizes = sizes(4, 2);
    let mut random = Random::new(21, 0);
    for _ in 0..200 {
        let bits = samples::bits(&mut random, sizes);
        let count = random.below(bits.count + 1);
        let mut last_label = samples::numbers(&mut random, sizes);
        let (fresh, _) = steps::decode(sizes, &bits, count);
        let decoded = jobs::decoding(4, 2, bits.planes, &mut last_label, &bits.bytes, count);
        assert!(decoded.is_ok());
        assert_eq!(last_label, fresh);
    }
}

#[test]
fn a_plane_is_finished_at_its_own_last_bit() {
    let mut random = Random::new(22, 0);
    for _ in 0..300 {
        let sizes = samples::sizes(&mut random, 5);
        let numbers = samples::numbers(&mut random, sizes);
        let bits = samples::coding(sizes, &numbers);
        let list = naive::coding(sizes.k(), sizes.levels(), &numbers).bits;
        for plane in 0..bits.planes {
            let end = list.iter().filter(|coded| coded.plane >= plane).count() as u64;
            let unfinished = |count| steps::decode(sizes, &bits, count).1.unfinished;
            assert_eq!(unfinished(end), plane);
            assert_eq!(unfinished(end - 1), plane + 1);
        }
    }
}

/// What comes of the slips of a place that look reasonable, at side 8 and two
/// levels, with the right answer beside each.
#[test]
fn slips_of_a_place_are_seen() {
    let sizes = sizes(3, 2);
    let bits = samples::coding(sizes, &steps::one_number(sizes, 15, -3));
    let place = |count| steps::decode(sizes, &bits, count).1.place.0;
    // An open test taken to settle: the rest from 4 would give 64, or the set
    // from 12 would give 16.
    assert_eq!((place(2), place(5)), (4, 12));
    // A 1 without its sign taken to settle its number: 16.
    assert_eq!(place(9), 15);
    // A plane taken for running until a bit of the next arrives: 64.
    assert_eq!((place(11), place(19)), (0, 0));
    // The last place settled, not the lowest that isn't: 3.
    assert_eq!(place(1), 4);
    // Bits counted for places: 8 of 15.
    assert_eq!(place(8), 15);
}

/// What comes of the slips of a display that look reasonable: the numbers 4, -4
/// and 0 at places 0 to 2, of which the first stands before the place.
#[test]
fn slips_of_a_display_are_seen() {
    let sizes = sizes(3, 2);
    let front = |numbers: [i32; 3]| {
        let mut all = vec![0; sizes.places()];
        all[..3].copy_from_slice(&numbers);
        all
    };
    let stored = front([4, -4, 0]);
    let check = |unfinished, place, shown| {
        let displayed = steps::display(sizes, unfinished, place, &stored);
        assert_eq!(displayed, steps::inverse(sizes, &front(shown)));
    };
    // The place not looked at: 6 first. Taken for settled itself: -5. Added to the
    // number and not to its magnitude: -2. Zeros moved too: 2 last. All that is
    // unknown added, and not half of it: 6 -8.
    check(2, 1, [5, -6, 0]);
    // Half of the largest that is unknown, 2^u - 1, rounded down: 4 -4.
    check(1, 0, [5, -5, 0]);
    // 2^(u-1) of u = 0 taken for 1: 5 first.
    check(1, 1, [4, -5, 0]);
    check(0, 0, [4, -4, 0]);
    check(0, 1, [4, -4, 0]);
}

/// Softer is not always nearer. P3 with a 4 for its 5, cut to 3 bits: the plain
/// picture is the very one, and the softer one has a 6 there.
#[test]
fn softer_may_be_worse() {
    let sizes = sizes(3, 2);
    let truth = steps::one_number(sizes, 0, 4);
    let bits = samples::coding(sizes, &truth);
    let (numbers, decoded) = steps::decode(sizes, &bits, 3);
    assert_eq!((decoded.unfinished, decoded.place.0), (3, 1));
    assert_eq!(numbers, truth);
    let softer = steps::display(sizes, 3, 1, &numbers);
    assert_eq!(
        softer,
        steps::inverse(sizes, &steps::one_number(sizes, 0, 6))
    );
    assert_ne!(softer, steps::inverse(sizes, &truth));
}

#[test]
fn a_label_is_no_number() {
    let mut room = [0; 512];
    let write = |label: &[u8], room: &mut [u8]| {
        jobs::record_writing(3, 2, 0, Origin::UNNAMED, label, &[], 0, room)
    };
    assert_eq!(write(b"00000417", &mut room), Ok(1));
    assert_eq!(room[4..12], *b"00000417");
    for other in [
        "417",
        "0000417",
        "000000417",
        "     417",
        "417     ",
        "+0000417",
        "",
    ] {
        let read = jobs::record_reading(&room, other.as_bytes(), &mut [0; 492]);
        assert_eq!(read, Err(Refusal::Label));
        assert_eq!(write(other.as_bytes(), &mut [0; 512]), Err(Refusal::Label));
    }
    let read = jobs::record_reading(&room, b"41700000", &mut [0; 492]);
    assert_eq!(read, Err(Refusal::Turn));
    assert!(jobs::record_reading(&room, b"00000417", &mut [0; 492]).is_ok());
}

/// A grey that is further from the truth after `later` bits than after
/// `sooner`.
#[derive(Debug, PartialEq, Eq)]
struct Worse {
    place: usize,
    sooner: u64,
    later: u64,
    truth: u8,
    grey_sooner: u8,
    grey_later: u8,
}

/// The first grey that gets worse as the bits of this picture arrive.
fn first_worse(sizes: Sizes, picture: &[u8]) -> Option<Worse> {
    let bits = steps::code_picture(sizes, picture);
    let decoded: Vec<Vec<u8>> = (0..=bits.count)
        .map(|count| steps::decode_picture(sizes, &bits, count))
        .collect();
    for (later, greys_later) in (0..).zip(&decoded) {
        for (sooner, greys_sooner) in (0..later).zip(&decoded) {
            for (place, truth) in picture.iter().copied().enumerate() {
                let (grey_sooner, grey_later) = (greys_sooner[place], greys_later[place]);
                if grey_later.abs_diff(truth) > grey_sooner.abs_diff(truth) {
                    return Some(Worse {
                        place,
                        sooner,
                        later,
                        truth,
                        grey_sooner,
                        grey_later,
                    });
                }
            }
        }
    }
    None
}

/// Pictures of side 8 that are 128 but at one place, where they are 127 or 129.
fn nearly_flat_pictures() -> Vec<Vec<u8>> {
    let changes = (0..64).flat_map(|place| [127, 129].map(|grey| (place, grey)));
    changes
        .map(|(place, grey)| {
            let mut picture = vec![128; 64];
            picture[place] = grey;
            picture
        })
        .collect()
}

/// Greys do not only improve. The search finds pictures of one plane that show
/// it, and the one below needs no more than its first 3 bits.
#[test]
fn greys_may_get_worse() {
    for levels in [1, 2] {
        let sizes = sizes(3, levels);
        let found = nearly_flat_pictures()
            .iter()
            .filter(|picture| steps::code_picture(sizes, picture).planes == 1)
            .filter(|picture| first_worse(sizes, picture).is_some())
            .count();
        assert!(found > 0);
    }

    let mut picture = vec![128; 64];
    picture[1] = 129;
    let bits = steps::code_picture(sizes(3, 2), &picture);
    assert_eq!(bits.planes, 1);
    let worse = Worse {
        place: 0,
        sooner: 0,
        later: 3,
        truth: 128,
        grey_sooner: 128,
        grey_later: 129,
    };
    assert_eq!(first_worse(sizes(3, 2), &picture), Some(worse));
}
