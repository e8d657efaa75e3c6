//! The three demands, on some thousands of random pictures and cuts.

use crate::naive;
use crate::steps;
use second::block::LENGTH;
use second::edition::Edition;
use second::jobs;
use second::places::RasterPlace;
use second::random::Random;
use second::record::{self, READER_ROOM};
use second::samples::{self, Bits};
use second::sizes::Sizes;

#[test]
fn a_whole_record_gives_back_the_very_picture() {
    for (run, sizes) in (0..).zip(steps::all_sizes()) {
        let (k, levels) = (sizes.k(), sizes.levels());
        let mut random = Random::new(30, run);
        for _ in 0..steps::pictures_of(sizes) {
            let picture = samples::picture(&mut random, sizes);
            let bits = steps::code_picture(sizes, &picture);
            assert!(bits.count <= sizes.most_bits(bits.planes));

            let label = samples::label(&mut random);
            let edition = random.pick(&Edition::BOTH);
            let origin = samples::origin(&mut random, edition);
            let blocks = record::block_count(edition, bits.count) as usize;
            let mut record = vec![0xEE; blocks * LENGTH];
            let written = jobs::record_writing(
                k,
                levels,
                bits.planes,
                origin,
                &label,
                &bits.bytes,
                bits.count,
                &mut record,
            );
            assert_eq!(written, Ok(blocks as u32));

            let mut payload = vec![0xEE; blocks * READER_ROOM];
            let kept = jobs::record_reading(&record, &label, &mut payload).unwrap();
            assert_eq!((kept.k, kept.levels, kept.planes), (k, levels, bits.planes));
            assert_eq!((kept.blocks, kept.bits), (blocks as u32, bits.count));
            assert_eq!(kept.ended, 0);
            assert_eq!(kept.origin.edition, origin.edition);

            let read = Bits {
                planes: kept.planes,
                bytes: payload,
                count: kept.bits,
            };
            let (numbers, decoded) = steps::decode(sizes, &read, read.count);
            assert_eq!(decoded.unfinished, 0);
            assert_eq!(decoded.bits_read, bits.count);
            assert_eq!(steps::inverse(sizes, &numbers).unwrap().0, picture);
        }
    }
}

#[test]
fn no_coding_passes_its_bound() {
    for (run, sizes) in (0..).zip(steps::all_sizes()) {
        let mut random = Random::new(31, run);
        for _ in 0..steps::pictures_of(sizes) {
            let numbers = samples::numbers(&mut random, sizes);
            let coding = naive::coding(sizes.k(), sizes.levels(), &numbers);
            assert!(coding.bits.len() as u64 <= sizes.most_bits(coding.planes));
            let most_tests = (sizes.places() - 1) / 3;
            assert!(coding.tests.iter().all(|tests| *tests <= most_tests));
        }
    }
}

/// What demand 3 says of numbers after a cut that leaves p planes unfinished. The
/// numbers before the place where it fell have the bit of the running plane too,
/// so that at most p - 1 of theirs are unread.
fn check_numbers(truth: &[i32], numbers: &[i32], unfinished: u32, place: usize) {
    for (z, (truth, number)) in truth.iter().zip(numbers).enumerate() {
        let unread = if z < place {
            unfinished - 1
        } else {
            unfinished
        };
        assert!(number.abs() <= truth.abs());
        assert!(truth.abs() - number.abs() < 1 << unread);
        assert!(*number == 0 || number.signum() == truth.signum());
    }
}

/// No number is further from the truth than it was with fewer bits.
fn check_no_number_moves_away(truth: &[i32], sooner: &[i32], later: &[i32]) {
    for ((truth, sooner), later) in truth.iter().zip(sooner).zip(later) {
        assert!((truth - later).abs() <= (truth - sooner).abs());
    }
}

/// The grey bound, also for the greys before they are set into 0 to 255.
fn check_greys(sizes: Sizes, truth: &[u8], numbers: &[i32], unfinished: u32) {
    let bound = (7 * sizes.levels() as i32 + 1) * ((1 << unfinished) - 1);
    let (picture, room) = steps::inverse(sizes, numbers).unwrap();
    for (place, truth) in truth.iter().enumerate() {
        let truth = i32::from(*truth);
        let before_setting = room[RasterPlace(place).to_z(sizes.k()).0];
        assert_eq!(i32::from(picture[place]), before_setting.clamp(0, 255));
        assert!((before_setting - truth).abs() <= bound);
        assert!((i32::from(picture[place]) - truth).abs() <= bound);
    }
}

/// Goes through rising cuts of a coding and checks all that is said of
/// numbers; `also` is given each cut's numbers and unfinished planes.
fn check_cuts(sizes: Sizes, truth: &[i32], cuts: &[u64], mut also: impl FnMut(&[i32], u32)) {
    let bits = samples::coding(sizes, truth);
    let list = naive::coding(sizes.k(), sizes.levels(), truth);
    let mut sooner = vec![0; sizes.places()];
    for count in cuts {
        let (numbers, decoded) = steps::decode(sizes, &bits, *count);
        let (settled, unfinished) = list.settled(sizes.places(), *count as usize);
        assert_eq!(numbers, settled);
        assert_eq!(decoded.unfinished, unfinished);
        assert_eq!(decoded.bits_read, *count);
        let place = list.place(*count as usize);
        assert_eq!(decoded.place.0, place);
        check_numbers(truth, &numbers, unfinished, place);
        check_no_number_moves_away(truth, &sooner, &numbers);
        also(&numbers, unfinished);
        sooner = numbers;
    }
}

fn check_picture_cuts(sizes: Sizes, picture: &[u8], cuts: &[u64]) {
    let (truth, _) = steps::forward(sizes, picture);
    check_cuts(sizes, &truth, cuts, |numbers, unfinished| {
        check_greys(sizes, picture, numbers, unfinished);
    });
}

#[test]
fn every_cut_of_small_pictures_is_worth_what_is_promised() {
    let mut random = Random::new(32, 0);
    for _ in 0..300 {
        let sizes = samples::sizes(&mut random, 4);
        let picture = samples::picture(&mut random, sizes);
        let total = steps::code_picture(sizes, &picture).count;
        let cuts: Vec<u64> = (0..=total).collect();
        check_picture_cuts(sizes, &picture, &cuts);
    }
}

#[test]
fn random_cuts_at_every_size_are_worth_what_is_promised() {
    for (run, sizes) in (0..).zip(steps::all_sizes()) {
        let mut random = Random::new(33, run);
        for _ in 0..steps::pictures_of(sizes) {
            let picture = samples::picture(&mut random, sizes);
            let total = steps::code_picture(sizes, &picture).count;
            let mut cuts: Vec<u64> = (0..10).map(|_| random.below(total + 1)).collect();
            cuts.sort_unstable();
            check_picture_cuts(sizes, &picture, &cuts);
        }
    }
}

/// What demand 3 says of numbers holds of any that can be coded.
#[test]
fn random_cuts_of_any_numbers_are_worth_what_is_promised() {
    for (run, sizes) in (0..).zip(steps::all_sizes()) {
        let mut random = Random::new(34, run);
        for _ in 0..steps::pictures_of(sizes) {
            let truth = samples::numbers(&mut random, sizes);
            let total = samples::coding(sizes, &truth).count;
            let mut cuts: Vec<u64> = (0..10).map(|_| random.below(total + 1)).collect();
            cuts.sort_unstable();
            check_cuts(sizes, &truth, &cuts, |_, _| {});
        }
    }
}

/// The bits before a limit are the same as those of the whole coding.
#[test]
fn a_limited_coding_is_a_first_part_of_the_whole() {
    let mut random = Random::new(35, 0);
    for _ in 0..2_000 {
        let sizes = samples::sizes(&mut random, 5);
        let numbers = samples::numbers(&mut random, sizes);
        let whole = samples::coding(sizes, &numbers);
        let limit = random.below(whole.count + 9);
        let mut bytes = vec![0xEE; whole.bytes.len() + 2];
        let coded = jobs::coding(sizes.k(), sizes.levels(), &numbers, limit, &mut bytes).unwrap();
        let count = limit.min(whole.count);
        assert_eq!((coded.bits, coded.planes), (count, whole.planes));
        let kept = naive::bits_of(&whole.bytes, count as usize);
        let written = naive::bytes_of(&kept);
        assert_eq!(bytes[..written.len()], written[..]);
        assert!(bytes[written.len()..].iter().all(|byte| *byte == 0xEE));
    }
}
