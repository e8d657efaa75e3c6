//! The label library against the second program where chance is not enough:
//! every size and level, every cut of small codings, every short string of bits
//! and every cut of bits that no coder wrote, with the place where it fell, every
//! plane count, every thumbnail of each size and of each sample, every p with
//! every place of a display at side 8, every cut of small codings and of each
//! sample displayed, every change of one byte and every exchange of two in a
//! block, every byte in each place of a label and of what the blocks of a record
//! share, in both editions; every edition up to 300 with every arm up to 4, and
//! every choice of a writer's faults. Stops at the first difference.

mod library;

use label::raw;
use second::bits;
use second::block::{self, Block, Heading, CHECK_A, CHECK_B, COUNT, LABEL, LENGTH};
use second::edition::{Edition, Origin, MOST_MOUNT};
use second::places;
use second::random::Random;
use second::record::{self, READER_ROOM};
use second::samples::{self, Bits};
use second::show;
use second::sizes::{most_levels, Sizes, LARGEST_K, LARGEST_MAGNITUDE, MOST_PLANES, SMALLEST_K};
use second::transcript::{self, lent_bytes, lent_numbers, Answer, Field, Request};
use second::transform;
use std::fs;
use std::ops::RangeInclusive;
use std::path::PathBuf;
use std::process::exit;

/// Makes the calls on both sides and counts them.
struct Comparison {
    cases: u64,
}

impl Comparison {
    fn same(&mut self, request: &Request) -> Answer {
        self.cases += 1;
        let answer = library::answer(request);
        if transcript::answer_bytes(&answer) != transcript::answer_bytes(&transcript::answer(request)) {
            println!("a difference: {}", show::line(request));
            exit(1);
        }
        answer
    }

    /// Holds the answer, which is both sides', to what the rule gives for some of its fields: both might be wrong.
    fn by_rule(&mut self, request: &Request, fields: &[(&str, u32)]) -> Answer {
        let answer = self.same(request);
        for (field, number) in fields {
            if !answer.contains(&(field, Field::Small(*number))) {
                println!("{field} is {number} by the rule: {}", show::line(request));
                exit(1);
            }
        }
        answer
    }

    /// Holds all of the answer to the rule.
    fn whole_by_rule(&mut self, request: &Request, answer: &Answer) {
        if self.same(request) != *answer {
            println!("another answer by the rule: {}", show::line(request));
            exit(1);
        }
    }
}

/// An origin of edition 2.
const NAMED: Origin = Origin {
    edition: 2,
    arm: 1,
    mount: 70_123,
};

/// One origin of each edition.
const ORIGINS: [Origin; 2] = [Origin::UNNAMED, NAMED];

/// Every side and every number of levels that it allows.
fn all_sizes() -> impl Iterator<Item = Sizes> {
    let all = (SMALLEST_K..=LARGEST_K).flat_map(|k| (1..=most_levels(k)).map(move |levels| (k, levels)));
    all.map(|(k, levels)| Sizes::new(k, levels).expect("k and L are in their ranges"))
}

/// The four number jobs at one size, on pictures and numbers of every kind.
fn every_size(comparison: &mut Comparison, random: &mut Random, sizes: Sizes, rounds: usize) {
    let (k, levels, places) = (sizes.k(), sizes.levels(), sizes.places());
    for _ in 0..rounds {
        let picture = samples::picture(random, sizes);
        comparison.same(&Request::Forward {
            k,
            levels,
            picture,
            numbers: places,
        });
        let numbers = samples::numbers(random, sizes);
        comparison.same(&Request::Inverse {
            k,
            levels,
            numbers: numbers.clone(),
            picture: places,
            room: places,
        });
        comparison.same(&Request::Coding {
            k,
            levels,
            numbers: numbers.clone(),
            limit: u64::MAX,
            bytes: places * 4,
        });
        let bits = samples::coding(sizes, &numbers);
        for count in [bits.count, random.below(bits.count + 1)] {
            comparison.same(&Request::Decoding {
                k,
                levels,
                planes: bits.planes,
                numbers: places,
                bytes: bits.bytes.clone(),
                count,
            });
        }
    }
}

/// What a decoding answers.
struct Decoded {
    unfinished: u32,
    read: u64,
    place: u64,
    numbers: Vec<i32>,
}

/// Makes the call for a decoding, on both sides.
fn decoded(comparison: &mut Comparison, request: &Request) -> Decoded {
    let fields: Vec<Field> = comparison.same(request).into_iter().map(|(_, field)| field).collect();
    match <[Field; 5]>::try_from(fields) {
        Ok(
            [Field::Small(0), Field::Small(unfinished), Field::Large(read), Field::Large(place), Field::Numbers(numbers)],
        ) => Decoded {
            unfinished,
            read,
            place,
            numbers,
        },
        _ => unreachable!("a decoding that is not refused has these five"),
    }
}

/// The call for so many of these bits.
fn decoding(sizes: Sizes, bits: &Bits, count: u64) -> Request {
    Request::Decoding {
        k: sizes.k(),
        levels: sizes.levels(),
        planes: bits.planes,
        numbers: sizes.places(),
        bytes: bits.bytes.clone(),
        count,
    }
}

/// The worked cuts, by the list that the format's page has: both sides might be wrong.
fn every_place(comparison: &mut Comparison) {
    let sizes = Sizes::new(3, 2).expect("k and L are in their ranges");
    // A 5 at place 0; a -3 at place 15, whose planes have closed sets.
    let first = [0, 0, 0, 1, 2, 3, 4, 0, 1, 2, 3, 4, 0, 1, 2, 3, 4, 0];
    let sets = [0, 4, 4, 8, 12, 12, 13, 14, 15, 15, 16, 0, 4, 8, 12, 13, 14, 15, 16, 0];
    for (planes, bytes, places) in [(3, [0xC0, 0x08, 0x00], &first[..]), (2, [0x48, 0xC0, 0x40], &sets[..])] {
        let bits = Bits {
            planes,
            bytes: bytes.to_vec(),
            count: places.len() as u64 - 1,
        };
        for (count, &place) in (0..).zip(places) {
            let request = decoding(sizes, &bits, count);
            if decoded(comparison, &request).place != place {
                println!("the place is {place} by the rule: {}", show::line(&request));
                exit(1);
            }
        }
    }
}

/// The cuts whose place was looked at.
#[derive(Default)]
struct Cuts {
    codings: u64,
    of_codings: u64,
    of_short: u64,
    of_any: u64,
}

/// A number as it is while so many of its bits are unread.
fn without(number: i32, unread: u32) -> i32 {
    number.signum() * (number.abs() >> unread << unread)
}

/// Bits at each of these cuts, and the numbers that all of them settle: the place is one of the picture, 0 where no plane
/// is running, and with more bits neither plane nor place moves back. Before the place the numbers lack the bits of p - 1
/// planes, from it on those of p. Gives how many cuts there were.
fn every_cut_of(
    comparison: &mut Comparison,
    sizes: Sizes,
    bits: &Bits,
    whole: &[i32],
    counts: RangeInclusive<u64>,
) -> u64 {
    let mut last = (MOST_PLANES, 0);
    let mut cuts = 0;
    for count in counts {
        let request = decoding(sizes, bits, count);
        let Decoded {
            unfinished,
            place,
            numbers,
            ..
        } = decoded(comparison, &request);
        let on = unfinished < last.0 || (unfinished == last.0 && place >= last.1);
        let within = place < sizes.places() as u64 && (unfinished > 0 || place == 0);
        let lacks = |z| unfinished - u32::from(z < place);
        let settled = (0..).zip(whole).map(|(z, number)| without(*number, lacks(z)));
        if !on || !within || !settled.eq(numbers) {
            println!("no place by the rule: {}", show::line(&request));
            exit(1);
        }
        last = (unfinished, place);
        cuts += 1;
    }
    cuts
}

/// Every cut of the coding of these numbers.
fn every_cut_of_coding(comparison: &mut Comparison, sizes: Sizes, numbers: &[i32], cuts: &mut Cuts) {
    let bits = samples::coding(sizes, numbers);
    cuts.of_codings += every_cut_of(comparison, sizes, &bits, numbers, 0..=bits.count);
    cuts.codings += 1;
}

/// Every cut of a coding, as decoded, as coded up to a limit, and as a record.
fn every_cut(comparison: &mut Comparison, random: &mut Random, sizes: Sizes, cuts: &mut Cuts) {
    let (k, levels) = (sizes.k(), sizes.levels());
    let numbers = samples::numbers(random, sizes);
    every_cut_of_coding(comparison, sizes, &numbers, cuts);
    let bits = samples::coding(sizes, &numbers);
    for count in 0..=bits.count {
        comparison.same(&Request::Coding {
            k,
            levels,
            numbers: numbers.clone(),
            limit: count,
            bytes: bits.bytes.len() + 1,
        });
        for origin in ORIGINS {
            comparison.same(&Request::RecordWriting {
                k,
                levels,
                planes: bits.planes,
                origin,
                label: b"00000417".to_vec(),
                bytes: bits.bytes.clone(),
                count,
                room: 2048,
            });
        }
    }
}

/// Every cut of every coding of side 8 whose numbers are 0 but for one, which is any of these, at any place; and but for a 1
/// and a -1 behind it, at any two places.
fn every_small_coding(comparison: &mut Comparison, sizes: Sizes, cuts: &mut Cuts) {
    let places = sizes.places();
    for place in 0..places {
        let mut numbers = vec![0; places];
        for number in [1, -1, 2, -3, 5] {
            numbers[place] = number;
            every_cut_of_coding(comparison, sizes, &numbers, cuts);
        }
        numbers[place] = 1;
        for other in place + 1..places {
            numbers[other] = -1;
            every_cut_of_coding(comparison, sizes, &numbers, cuts);
            numbers[other] = 0;
        }
    }
}

/// What as many bits settle as any walk can take: every plane is finished.
fn whole(comparison: &mut Comparison, sizes: Sizes, bits: &Bits) -> Decoded {
    let whole = decoded(comparison, &decoding(sizes, bits, bits.count));
    assert_eq!(whole.unfinished, 0, "the bound of the walk is one");
    whole
}

/// Every string of up to so many bits, at most 15: one of fewer is a cut of one that ends in zeros.
fn every_short_string(comparison: &mut Comparison, sizes: Sizes, planes: u32, most: u32, cuts: &mut Cuts) {
    let count = sizes.most_bits(planes);
    for string in 0..1_u16 << most {
        let mut bytes = vec![0; bits::bytes_for(count)];
        bytes[..2].copy_from_slice(&(string << (16 - most)).to_be_bytes());
        let bits = Bits { planes, bytes, count };
        let numbers = whole(comparison, sizes, &bits).numbers;
        let shortest = most - string.trailing_zeros().min(most);
        cuts.of_short += every_cut_of(comparison, sizes, &bits, &numbers, shortest.into()..=most.into());
    }
}

/// Bits of one kind or another that no coder wrote, at every cut.
fn every_cut_of_any_bits(comparison: &mut Comparison, random: &mut Random, sizes: Sizes, planes: u32, cuts: &mut Cuts) {
    let count = sizes.most_bits(planes);
    let bytes = samples::payload(random, bits::bytes_for(count));
    let bits = Bits { planes, bytes, count };
    let Decoded { read, numbers, .. } = whole(comparison, sizes, &bits);
    cuts.of_any += every_cut_of(comparison, sizes, &bits, &numbers, 0..=read);
}

/// Bits that no coder wrote, at every plane count.
fn every_plane_count(comparison: &mut Comparison, random: &mut Random, sizes: Sizes) {
    let (k, levels, places) = (sizes.k(), sizes.levels(), sizes.places());
    for planes in 0..=MOST_PLANES + 1 {
        let bytes = random.bytes(places * 4);
        for count in [0, 1, random.below(places as u64 * 32), places as u64 * 32] {
            comparison.same(&Request::Decoding {
                k,
                levels,
                planes,
                numbers: places,
                bytes: bytes.clone(),
                count,
            });
        }
    }
}

/// The calls for thumbnails that were made.
#[derive(Default)]
struct Thumbnails {
    accepted: u64,
    refused: u64,
    of_whole_samples: u64,
    of_cut_samples: u64,
}

/// What a refused call for a thumbnail or a display answers, and leaves as it was lent.
fn refused(refusal: u32, [picture, room]: [usize; 2]) -> Answer {
    vec![
        ("refusal", Field::Small(refusal)),
        ("picture", Field::Bytes(lent_bytes(picture))),
        ("room", Field::Numbers(lent_numbers(room))),
    ]
}

/// What a call for a thumbnail answers where its greys, before they are set, are these.
fn accepted(greys: &[i32], k: u32) -> Answer {
    let picture = greys.iter().map(|grey| transform::grey(*grey)).collect();
    let mut room = vec![0; greys.len()];
    places::into_z_order(greys, k, &mut room);
    vec![
        ("refusal", Field::Small(0)),
        ("picture", Field::Bytes(picture)),
        ("room", Field::Numbers(room)),
    ]
}

/// Thumbnails at one size and r: of numbers of every kind; of a picture's numbers, where it is the picture's low band;
/// each fault alone, and every choice of faults, which are told in the order 1, 2, 13, 3, 4.
fn every_thumbnail(
    comparison: &mut Comparison,
    random: &mut Random,
    sizes: Sizes,
    halvings: u32,
    thumbnails: &mut Thumbnails,
) {
    let (k, levels, places) = (sizes.k(), sizes.levels(), sizes.places());
    let greys = sizes.halved_places(halvings);
    let call = |halvings, numbers: &[i32], [picture, room]: [usize; 2]| Request::Thumbnail {
        k,
        levels,
        halvings,
        numbers: numbers.to_vec(),
        picture,
        room,
    };
    for _ in 0..if k < 7 { 12 } else { 3 } {
        let numbers = samples::numbers(random, sizes);
        comparison.by_rule(&call(halvings, &numbers, [greys; 2]), &[("refusal", 0)]);
        thumbnails.accepted += 1;
    }

    let picture = samples::picture(random, sizes);
    let mut numbers = vec![0; places];
    label::forward(k, levels, &picture, &mut numbers).expect("the lengths are right");
    let low_band = accepted(&transform::low_band(sizes, halvings, &picture), k - halvings);
    comparison.whole_by_rule(&call(halvings, &numbers, [greys; 2]), &low_band);
    thumbnails.accepted += 1;

    let mut is_refused = |refusal, halvings, numbers: &[i32], lent| {
        comparison.whole_by_rule(&call(halvings, numbers, lent), &refused(refusal, lent));
        thumbnails.refused += 1;
    };
    // Two of them are right as a shift count and in their low byte.
    for wrong in [0, levels + 1, k, 32 + halvings, 256 + halvings, u32::MAX] {
        for lent in [[greys; 2], [places; 2], [0; 2]] {
            is_refused(13, wrong, &numbers, lent);
        }
    }
    for wrong in [greys, places - 1, places + 1] {
        let mut numbers = numbers.clone();
        numbers.resize(wrong, 0);
        is_refused(3, halvings, &numbers, [greys; 2]);
    }
    for wrong in [0, greys / 4, greys - 1, greys + 1, places] {
        for lent in [[wrong, greys], [greys, wrong], [wrong; 2]] {
            is_refused(3, halvings, &numbers, lent);
        }
    }
    for (number, refusal) in [
        (LARGEST_MAGNITUDE, 0),
        (-LARGEST_MAGNITUDE, 0),
        (LARGEST_MAGNITUDE + 1, 4),
        (-LARGEST_MAGNITUDE - 1, 4),
        (i32::MAX, 4),
        (i32::MIN, 4),
    ] {
        let with = |place: usize| {
            let mut numbers = numbers.clone();
            numbers[place] = number;
            call(halvings, &numbers, [greys; 2])
        };
        // The last that counts, and the first behind it, which changes nothing.
        comparison.by_rule(&with(greys - 1), &[("refusal", refusal)]);
        comparison.whole_by_rule(&with(greys), &low_band);
        thumbnails.refused += u64::from(refusal != 0);
        thumbnails.accepted += 1 + u64::from(refusal == 0);
    }

    for (faults, short) in (1_u32..32).flat_map(|faults| [0, 1, 2].map(|short| (faults, short))) {
        let first = [1, 2, 13, 3, 4][faults.trailing_zeros() as usize];
        let [one, two, thirteen, three, four] = [0, 1, 2, 3, 4].map(|fault| faults >> fault & 1 == 1);
        let mut lengths = [places, greys, greys];
        lengths[short] -= usize::from(three);
        let [all, picture, room] = lengths;
        let mut numbers = numbers[..all].to_vec();
        if four {
            numbers[0] = i32::MIN;
        }
        let request = Request::Thumbnail {
            k: if one { LARGEST_K + 1 } else { k },
            levels: if two { most_levels(k) + 1 } else { levels },
            halvings: if thirteen { 0 } else { halvings },
            numbers,
            picture,
            room,
        };
        comparison.whole_by_rule(&request, &refused(first, [picture, room]));
        thumbnails.refused += 1;
    }
}

/// The calls for displays that were made.
#[derive(Default)]
struct Displays {
    accepted: u64,
    refused: u64,
    of_cuts: u64,
    of_codings: u64,
    of_samples: u64,
}

/// The call for a display.
fn display(sizes: Sizes, unfinished: u32, place: u64, numbers: &[i32]) -> Request {
    Request::Display {
        k: sizes.k(),
        levels: sizes.levels(),
        unfinished,
        place,
        numbers: numbers.to_vec(),
        picture: sizes.places(),
        room: sizes.places(),
    }
}

/// The bits of a number that are unread where a decoder stopped with so many planes unfinished at this place.
fn unread(z: u64, unfinished: u32, place: u64) -> u32 {
    match z < place {
        true => unfinished.saturating_sub(1),
        false => unfinished,
    }
}

/// The numbers as they are displayed: each that is not 0 has moved up in magnitude by half of what is unknown about it.
fn moved(numbers: &[i32], unfinished: u32, place: u64) -> Vec<i32> {
    let half = |z| (1 << unread(z, unfinished, place)) / 2;
    let numbers = (0..).zip(numbers);
    numbers.map(|(z, number)| number + number.signum() * half(z)).collect()
}

/// Numbers, which nobody judges, with the greys that they give, set and before they are set.
struct Greys {
    numbers: Vec<i32>,
    picture: Vec<u8>,
    room: Vec<i32>,
}

impl Greys {
    fn of(sizes: Sizes, numbers: Vec<i32>) -> Greys {
        let (mut picture, mut room) = (vec![0; numbers.len()], vec![0; numbers.len()]);
        transform::inverse(sizes, &numbers, &mut picture, &mut room);
        Greys { numbers, picture, room }
    }

    /// What a call for a display answers that shows them.
    fn answer(self) -> Answer {
        vec![
            ("refusal", Field::Small(0)),
            ("picture", Field::Bytes(self.picture)),
            ("room", Field::Numbers(self.room)),
        ]
    }
}

/// Numbers of side 8: all small ones; -1, 0 and 1 by turns; the limits, their neighbours and 0 by turns; powers of two
/// and one less, of either sign.
fn sets_of_64() -> [Vec<i32>; 4] {
    let limit = LARGEST_MAGNITUDE;
    let limits = [limit, -limit, 0, limit - 1, 1 - limit];
    let power = |z: i32| (1 - z % 2 * 2) * ((1 << (z / 4 + 2)) - z / 2 % 2);
    [
        (-32..32).collect(),
        (0..64).map(|z| z % 3 - 1).collect(),
        limits.into_iter().cycle().take(64).collect(),
        (0..64).map(power).collect(),
    ]
}

/// Every p up to 19 with every place of side 8 and those behind it.
fn every_p_and_place(comparison: &mut Comparison, sizes: Sizes, displays: &mut Displays) {
    let places = sizes.places() as u64;
    for numbers in sets_of_64() {
        for unfinished in 0..=MOST_PLANES + 1 {
            for place in (0..=places + 1).chain([u64::MAX]) {
                let request = display(sizes, unfinished, place, &numbers);
                let refusal = match (unfinished > MOST_PLANES, place >= places) {
                    (true, _) => 5,
                    (false, true) => 11,
                    (false, false) => 0,
                };
                if refusal == 0 {
                    let shown = Greys::of(sizes, moved(&numbers, unfinished, place));
                    comparison.whole_by_rule(&request, &shown.answer());
                    displays.accepted += 1;
                } else {
                    comparison.whole_by_rule(&request, &refused(refusal, [sizes.places(); 2]));
                    displays.refused += 1;
                }
            }
        }
    }
}

/// Displays at one size: of numbers of every kind, with any p and place; each fault alone, and every choice of faults,
/// which are told in the order 1, 2, 3, 4, 5, 11.
fn every_display(comparison: &mut Comparison, random: &mut Random, sizes: Sizes, displays: &mut Displays) {
    let (k, levels, places) = (sizes.k(), sizes.levels(), sizes.places());
    let last = places as u64 - 1;
    for _ in 0..if k < 7 { 12 } else { 3 } {
        let numbers = samples::numbers(random, sizes);
        let (unfinished, place) = (samples::planes(random), random.below(last + 1));
        let shown = Greys::of(sizes, moved(&numbers, unfinished, place));
        comparison.whole_by_rule(&display(sizes, unfinished, place, &numbers), &shown.answer());
        displays.accepted += 1;
    }

    let numbers = samples::numbers(random, sizes);
    let mut is_refused = |refusal, request: Request| {
        let Request::Display { picture, room, .. } = request else {
            unreachable!("it is a request for a display")
        };
        comparison.whole_by_rule(&request, &refused(refusal, [picture, room]));
        displays.refused += 1;
    };
    // Some are right as a shift count or in their low byte, and some in their low half.
    for wrong in [MOST_PLANES + 1, 32, 33, 256, 1 << 31, u32::MAX] {
        for place in [0, last, last + 1] {
            is_refused(5, display(sizes, wrong, place, &numbers));
        }
    }
    for wrong in [last + 1, last + 2, 4 * (last + 1), 1 << 32, 1 << 63, u64::MAX] {
        for unfinished in [0, 1, MOST_PLANES] {
            is_refused(11, display(sizes, unfinished, wrong, &numbers));
        }
    }
    for wrong in [LARGEST_MAGNITUDE + 1, -LARGEST_MAGNITUDE - 1, i32::MAX, i32::MIN] {
        for place in [0, places / 2, places - 1] {
            let mut numbers = numbers.clone();
            numbers[place] = wrong;
            is_refused(4, display(sizes, 0, last, &numbers));
        }
    }
    for (faults, short) in (1_u32..64).flat_map(|faults| [0, 1, 2].map(|short| (faults, short))) {
        let first = [1, 2, 3, 4, 5, 11][faults.trailing_zeros() as usize];
        let [one, two, three, four, five, eleven] = [0, 1, 2, 3, 4, 5].map(|fault| faults >> fault & 1 == 1);
        let mut lengths = [places; 3];
        lengths[short] -= usize::from(three);
        let [all, picture, room] = lengths;
        let mut numbers = numbers[..all].to_vec();
        if four {
            numbers[0] = i32::MIN;
        }
        let request = Request::Display {
            k: if one { LARGEST_K + 1 } else { k },
            levels: if two { most_levels(k) + 1 } else { levels },
            unfinished: if five { MOST_PLANES + 1 } else { MOST_PLANES },
            place: if eleven { last + 1 } else { last },
            numbers,
            picture,
            room,
        };
        is_refused(first, request);
    }
}

/// Displays what a first part of a coding has settled, with the decoder's own p and place. Each number shown is true
/// where none of its bits is unread, and else, unless it is 0, within 2^(u-1) of the truth; and no grey, set or before it
/// is set, is further from the true one than a plain picture's may be.
fn displayed_part(comparison: &mut Comparison, sizes: Sizes, truth: &Greys, part: &Decoded) {
    let (unfinished, place) = (part.unfinished, part.place);
    let request = display(sizes, unfinished, place, &part.numbers);
    let shown = Greys::of(sizes, moved(&part.numbers, unfinished, place));
    let numbers = (0..).zip(shown.numbers.iter().zip(&truth.numbers));
    let limit = (7 * sizes.levels() + 1) * ((1 << unfinished) - 1);
    let are_near = numbers.map(|(z, (number, truth))| {
        let by = number.abs_diff(*truth);
        match unread(z, unfinished, place) {
            0 => by == 0,
            unread => *number == 0 || by <= 1 << (unread - 1),
        }
    });
    let set = shown.picture.iter().zip(&truth.picture);
    let set = set.map(|(grey, truth)| u32::from(grey.abs_diff(*truth)) <= limit);
    let unset = shown.room.iter().zip(&truth.room);
    let unset = unset.map(|(grey, truth)| grey.abs_diff(*truth) <= limit);
    if !are_near.chain(set).chain(unset).all(|is_near| is_near) {
        println!("further off than is promised: {}", show::line(&request));
        exit(1);
    }
    comparison.whole_by_rule(&request, &shown.answer());
}

/// Every cut of the coding of these numbers, displayed.
fn every_cut_displayed(comparison: &mut Comparison, sizes: Sizes, numbers: Vec<i32>, displays: &mut Displays) {
    let truth = Greys::of(sizes, numbers);
    let bits = samples::coding(sizes, &truth.numbers);
    for count in 0..=bits.count {
        let part = decoded(comparison, &decoding(sizes, &bits, count));
        displayed_part(comparison, sizes, &truth, &part);
        displays.of_cuts += 1;
    }
    displays.of_codings += 1;
}

/// Every cut of small codings, displayed: of pictures, of numbers of every kind and, at side 8, of one number alone, at
/// any place.
fn every_small_display(comparison: &mut Comparison, random: &mut Random, sizes: Sizes, displays: &mut Displays) {
    let (k, places) = (sizes.k(), sizes.places());
    for _ in 0..if k == 3 { 6 } else { 2 } {
        let picture = samples::picture(random, sizes);
        let mut numbers = vec![0; places];
        label::forward(k, sizes.levels(), &picture, &mut numbers).expect("the lengths are right");
        every_cut_displayed(comparison, sizes, numbers, displays);
        let numbers = samples::numbers(random, sizes);
        every_cut_displayed(comparison, sizes, numbers, displays);
    }
    for place in (0..places).filter(|_| k == 3) {
        for number in [5, -13] {
            let mut numbers = vec![0; places];
            numbers[place] = number;
            every_cut_displayed(comparison, sizes, numbers, displays);
        }
    }
}

/// The names of all samples.
fn all_samples() -> Vec<PathBuf> {
    let entries = fs::read_dir("samples").expect("there are samples");
    let mut paths: Vec<PathBuf> = entries.map(|entry| entry.expect("it has a name").path()).collect();
    paths.retain(|path| path.extension().is_some_and(|extension| extension == "pgm"));
    paths.sort();
    assert!(!paths.is_empty(), "there are no samples");
    paths
}

/// A sample's greys and its k: a PGM with a header of three lines.
fn sample(path: &PathBuf) -> (u32, Vec<u8>) {
    let pgm = fs::read(path).expect("a sample can be read");
    let greys = |k: u32| pgm.strip_prefix(format!("P5\n{0} {0}\n255\n", 1 << k).as_bytes());
    let mut sides = (SMALLEST_K..=LARGEST_K).filter_map(|k| Some((k, greys(k)?.to_vec())));
    sides.next().expect("a sample has a side")
}

/// The library's record of so many bits.
fn library_record([k, levels, n]: [u32; 3], origin: Origin, label: &[u8], bytes: &[u8], b: usize) -> Vec<u8> {
    let Origin { edition, arm, mount } = origin;
    let layout = Edition::new(edition).expect("it is one of both");
    let mut record = vec![0; record::block_count(layout, b as u64) as usize * LENGTH];
    let written = raw::write(k, levels, n, edition, arm, mount, label, bytes, b, &mut record);
    assert_eq!(written.refusal, 0, "there is room for its blocks");
    record
}

/// The library's record of a picture.
fn record_of(sizes: Sizes, picture: &[u8]) -> Vec<u8> {
    let (k, levels) = (sizes.k(), sizes.levels());
    let mut numbers = vec![0; sizes.places()];
    let n = label::forward(k, levels, picture, &mut numbers).expect("the lengths are right");
    let mut bytes = vec![0; label::most_bytes(k, n)];
    let coded = label::code(k, levels, &numbers, usize::MAX, &mut bytes).expect("they are a picture's numbers");
    library_record([k, levels, n], Origin::UNNAMED, b"0417AAL6", &bytes, coded.bits)
}

/// What the library decodes of these blocks.
fn settled(sizes: Sizes, blocks: &[u8]) -> Decoded {
    let mut payload = vec![0; blocks.len() / LENGTH * READER_ROOM];
    let kept = label::read(blocks, b"0417AAL6", &mut payload).expect("the blocks are sound");
    let mut numbers = vec![1; sizes.places()];
    let settled = label::decode(kept.k, kept.levels, kept.n, &mut numbers, &payload, kept.bits);
    let settled = settled.expect("the bits are a coding's");
    Decoded {
        unfinished: settled.unfinished,
        read: settled.read as u64,
        place: settled.place as u64,
        numbers,
    }
}

/// Whether the library's thumbnail of these numbers, set and before it is set, is within a limit of the low band that
/// the second program has from the original.
fn is_near(sizes: Sizes, halvings: u32, numbers: &[i32], original: &[u8], limit: u32) -> bool {
    let low_band = transform::low_band(sizes, halvings, original);
    let (mut picture, mut room) = (vec![1; low_band.len()], vec![1; low_band.len()]);
    label::thumbnail(sizes.k(), sizes.levels(), halvings, numbers, &mut picture, &mut room).expect("all is right");
    let room = places::from_z_order(&room, sizes.k() - halvings);
    let mut greys = low_band.iter().zip(picture.iter().zip(&room));
    greys.all(|(low, (set, unset))| {
        u32::from(set.abs_diff(transform::grey(*low))) <= limit && unset.abs_diff(*low) <= limit
    })
}

/// Every sample at every level and r, whole and cut after each block: of a whole record the thumbnail is the low band
/// of the original, of a cut one it is within its limit of that. And each of these records displayed.
fn every_sample(comparison: &mut Comparison, thumbnails: &mut Thumbnails, displays: &mut Displays) {
    for path in all_samples() {
        let (k, original) = sample(&path);
        for sizes in all_sizes().filter(|sizes| sizes.k() == k) {
            let levels = sizes.levels();
            let record = record_of(sizes, &original);
            let mut truth = vec![0; sizes.places()];
            label::forward(k, levels, &original, &mut truth).expect("the lengths are right");
            let truth = Greys::of(sizes, truth);
            assert_eq!(truth.picture, original, "they are its numbers");
            for blocks in 1..=record.len() / LENGTH {
                let is_whole = blocks * LENGTH == record.len();
                let part = settled(sizes, &record[..blocks * LENGTH]);
                assert_eq!(part.unfinished == 0, is_whole, "all bits are there, or some are not");
                displayed_part(comparison, sizes, &truth, &part);
                displays.of_samples += 1;
                for halvings in 1..=levels {
                    let limit = (7 * (levels - halvings) + 1) * ((1 << part.unfinished) - 1);
                    let limit = if is_whole { 0 } else { limit };
                    if !is_near(sizes, halvings, &part.numbers, &original, limit) {
                        let name = path.display();
                        println!("{name}, L {levels}, r {halvings}, {blocks} blocks: beyond {limit} of the low band");
                        exit(1);
                    }
                    match is_whole {
                        true => thumbnails.of_whole_samples += 1,
                        false => thumbnails.of_cut_samples += 1,
                    }
                }
            }
        }
    }
}

/// A request for the record of the first bits, at side 32 with two levels and eight planes.
fn writing(origin: Origin, label: &[u8], bytes: &[u8], count: usize, room: usize) -> Request {
    Request::RecordWriting {
        k: 5,
        levels: 2,
        planes: 8,
        origin,
        label: label.to_vec(),
        bytes: bytes.to_vec(),
        count: count as u64,
        room,
    }
}

/// A request to read these blocks, with as much room as they want.
fn reading(blocks: &[u8], label: &[u8]) -> Request {
    Request::RecordReading {
        blocks: blocks.to_vec(),
        label: label.to_vec(),
        room: blocks.len() / LENGTH * READER_ROOM,
    }
}

/// The library's record of the first bits, at side 32 with two levels and eight planes.
fn a_record(origin: Origin, label: &[u8], bytes: &[u8], count: usize) -> Vec<u8> {
    library_record([5, 2, 8], origin, label, bytes, count)
}

/// The block at this turn with another byte at this place, its checks made anew; and the record that it stands in.
fn changed(record: &[u8], turn: usize, place: usize, byte: u8) -> (Vec<u8>, Vec<u8>) {
    let mut blocks = record.to_vec();
    let block = &mut blocks[turn * LENGTH..][..LENGTH];
    block[place] = byte;
    block::write_checks(block);
    (block.to_vec(), blocks)
}

/// A record of two blocks, of which each byte in turn is changed, or that ends after any of them.
fn every_byte(comparison: &mut Comparison, random: &mut Random) {
    let label = b"00000417";
    for origin in ORIGINS {
        let record = a_record(origin, label, &random.bytes(563), 4500);
        for place in 0..1024 {
            let mut blocks = record.clone();
            blocks[place] ^= 1 << random.below(8);
            comparison.same(&reading(&blocks, label));
        }
        for length in 0..=1024 {
            comparison.same(&Request::RecordReading {
                blocks: record[..length].to_vec(),
                label: label.to_vec(),
                room: 984,
            });
        }
    }
}

/// Whether a label may have this byte.
fn is_character(byte: u8) -> bool {
    byte.is_ascii_digit() || byte.is_ascii_uppercase()
}

/// Every byte in each place of a label, which is given to the writer or the reader, or stands in a block.
fn every_character(comparison: &mut Comparison, random: &mut Random, origin: Origin) {
    let right = b"0417AAL6".to_vec();
    let bytes = random.bytes(563);
    let record = a_record(origin, &right, &bytes, 4500);
    for place in 0..8 {
        for byte in 0..=255 {
            let mut label = right.clone();
            label[place] = byte;
            let alone = |number: u32| if is_character(byte) { 0 } else { number };
            // A reader also holds the label given to the label in the block.
            let both = |number: u32| match (is_character(byte), label == right) {
                (false, _) => number,
                (true, false) => 10,
                (true, true) => 0,
            };
            comparison.by_rule(&writing(origin, &label, &bytes, 4500, 1024), &[("refusal", alone(7))]);
            comparison.by_rule(&reading(&record, &label), &[("refusal", both(7)), ("ended", 0)]);
            for (turn, refusal, ended) in [(0, both(9), 0), (1, 0, both(9))] {
                let (block, blocks) = changed(&record, turn, 4 + place, byte);
                comparison.by_rule(&Request::BlockCheck { block }, &[("refusal", alone(9))]);
                comparison.by_rule(&reading(&blocks, &right), &[("refusal", refusal), ("ended", ended)]);
            }
        }
    }
}

/// The calls about editions that were made.
#[derive(Default)]
struct Editions {
    written: u64,
    refused: u64,
    changed: u64,
}

/// What a reader answers to a whole record of these bits, at side 32 with two levels: they stand in its room again.
fn read_back(planes: u32, origin: Origin, blocks: usize, bytes: &[u8], count: u64) -> Answer {
    let Origin { edition, arm, mount } = origin;
    let mut room = lent_bytes(blocks * READER_ROOM);
    let used = bits::bytes_for(count);
    room[..used].copy_from_slice(&bytes[..used]);
    if count % 8 != 0 {
        room[used - 1] &= 0xFF << (8 - count % 8);
    }
    vec![
        ("refusal", Field::Small(0)),
        ("k", Field::Small(5)),
        ("L", Field::Small(2)),
        ("n", Field::Small(planes)),
        ("blocks", Field::Small(blocks as u32)),
        ("bits", Field::Large(count)),
        ("ended", Field::Small(0)),
        ("edition", Field::Small(edition)),
        ("arm", Field::Small(arm)),
        ("mount", Field::Small(mount)),
        ("room", Field::Bytes(room)),
    ]
}

impl Editions {
    /// A record that is written with so many blocks, and read back with all that it says.
    fn is_written(&mut self, comparison: &mut Comparison, request: &Request, blocks: usize) {
        let Request::RecordWriting {
            planes,
            origin,
            label,
            bytes,
            count,
            ..
        } = request
        else {
            unreachable!("it is a request for record writing")
        };
        let answer = comparison.by_rule(request, &[("refusal", 0), ("blocks", blocks as u32)]);
        let Some((_, Field::Bytes(room))) = answer.last() else {
            unreachable!("the room is the last field")
        };
        let origin = if origin.edition == 1 { Origin::UNNAMED } else { *origin };
        let read_back = read_back(*planes, origin, blocks, bytes, *count);
        comparison.whole_by_rule(&reading(&room[..blocks * LENGTH], label), &read_back);
        self.written += 1;
    }

    /// A call that is refused and changes nothing.
    fn is_refused(&mut self, comparison: &mut Comparison, request: &Request, refusal: u32) {
        let Request::RecordWriting { room, .. } = request else {
            unreachable!("it is a request for record writing")
        };
        let answer = vec![
            ("refusal", Field::Small(refusal)),
            ("blocks", Field::Small(0)),
            ("room", Field::Bytes(lent_bytes(*room))),
        ];
        comparison.whole_by_rule(request, &answer);
        self.refused += 1;
    }
}

/// Every edition up to 300 with every arm up to 4, and mount numbers about every power of two with both arms.
fn every_edition(comparison: &mut Comparison, random: &mut Random, editions: &mut Editions) {
    let bytes = random.bytes(563);
    let mut try_origin = |edition, arm, mount| {
        let origin = Origin { edition, arm, mount };
        let request = writing(origin, b"0417AAL6", &bytes, 4500, 1024);
        let fits = [1, 2].contains(&arm) && mount <= MOST_MOUNT;
        if edition == 1 || (edition == 2 && fits) {
            editions.is_written(comparison, &request, 2);
        } else {
            editions.is_refused(comparison, &request, 9);
        }
    };
    for edition in (0..=300).chain([1 << 16 | 1, 1 << 16 | 2, 1 << 31 | 1, 1 << 31 | 2, u32::MAX]) {
        for arm in (0..=4).chain([255, 256 + 1, 256 + 2, 1 << 24 | 1, 1 << 31 | 2, u32::MAX]) {
            try_origin(edition, arm, 70_123);
        }
    }
    let powers = (0..32).map(|power| 1_u32 << power);
    let mounts = powers.flat_map(|power| [power - 1, power, power + 1]).chain([u32::MAX]);
    for mount in mounts {
        for (edition, arm) in [(1, 1), (1, 2), (2, 1), (2, 2)] {
            try_origin(edition, arm, mount);
        }
    }
}

/// Every choice of a writer's seven faults, that of 6 in each of its kinds, the last in the arm or the mount number:
/// they are told in the order 1, 2, 5, 9, 6, 7, 9. In edition 1 the last is none.
fn every_fault(comparison: &mut Comparison, editions: &mut Editions) {
    let kinds = [0, 1, 2]
        .into_iter()
        .flat_map(|six| [(six, [0, 7]), (six, [1, MOST_MOUNT + 1])]);
    let choices = kinds.flat_map(|kind| (0_u32..128).map(move |faults| (faults, kind)));
    for (faults, (six, names)) in choices {
        for edition in [1, 2] {
            let wrong = |fault: u32| faults >> fault & 1 == 1;
            let [arm, mount] = if wrong(6) { names } else { [2, 7] };
            // More bits than lent, more than the walk can have, too little room.
            let (count, bytes, room) = match six {
                _ if !wrong(4) => (1400, 200, 512),
                0 => (1401, 175, 512),
                1 => (3073, 512, 512),
                _ => (1400, 200, 511),
            };
            let request = Request::RecordWriting {
                k: if wrong(0) { LARGEST_K + 1 } else { 5 },
                levels: if wrong(1) { 0 } else { 2 },
                planes: if wrong(2) { MOST_PLANES + 1 } else { 1 },
                origin: Origin {
                    edition: if wrong(3) { 256 + edition } else { edition },
                    arm,
                    mount,
                },
                label: if wrong(5) {
                    b"0417aal6".to_vec()
                } else {
                    b"0417AAL6".to_vec()
                },
                bytes: vec![0xA5; bytes],
                count,
                room,
            };
            let ignored = if edition == 1 && !wrong(3) { 1 << 6 } else { 0 };
            match (faults & !ignored).trailing_zeros() {
                32 => editions.is_written(comparison, &request, 1),
                first => editions.is_refused(comparison, &request, [1, 2, 5, 9, 6, 7, 9][first as usize]),
            }
        }
    }
}

/// Every count of bits about those that a full block holds, with room for just one block or two, and one byte under.
fn every_count(comparison: &mut Comparison, random: &mut Random, editions: &mut Editions) {
    let bytes = random.bytes(500);
    for count in 3_890..=3_950 {
        for (origin, full) in ORIGINS.into_iter().zip([3_936, 3_904]) {
            for room in [511, 512, 1023, 1024] {
                let request = writing(origin, b"0417AAL6", &bytes, count, room);
                let blocks = if count > full { 2 } else { 1 };
                if room < blocks * LENGTH {
                    editions.is_refused(comparison, &request, 6);
                } else {
                    editions.is_written(comparison, &request, blocks);
                }
            }
        }
    }
}

/// The reader's room has one figure: 492 for each whole block, of either edition.
fn every_room(comparison: &mut Comparison, random: &mut Random) {
    for (origin, blocks) in ORIGINS.into_iter().flat_map(|origin| [(origin, 1), (origin, 2)]) {
        let record = a_record(origin, b"0417AAL6", &random.bytes(563), 4500);
        for room in 480 * blocks..500 * blocks {
            let request = Request::RecordReading {
                blocks: record[..blocks * LENGTH].to_vec(),
                label: b"0417AAL6".to_vec(),
                room,
            };
            let refusal = if room < 492 * blocks { 6 } else { 0 };
            comparison.by_rule(&request, &[("refusal", refusal)]);
        }
    }
}

/// Each bit of a payload set alone, as the last that counts and as the first that is unused; and, of a payload without
/// bits, every count about those that a full block holds.
fn every_unused_bit(comparison: &mut Comparison, random: &mut Random, origin: Origin) {
    let edition = Edition::new(origin.edition).expect("it is one of both");
    let (start, full) = (edition.payload().start, edition.payload_bits());
    let empty = a_record(origin, b"0417AAL6", &[], 0);
    let mut by_rule = |place: Option<u16>, count: u16, refusal| {
        let mut block = empty.clone();
        if let Some(place) = place {
            block[start + usize::from(place / 8)] |= 0x80 >> (place % 8);
        }
        block[COUNT].copy_from_slice(&count.to_be_bytes());
        block::write_checks(&mut block);
        comparison.by_rule(&reading(&block, b"0417AAL6"), &[("refusal", refusal)]);
        comparison.by_rule(&Request::BlockCheck { block }, &[("refusal", refusal)]);
    };
    for place in 0..full {
        by_rule(Some(place), place + 1, 0);
        by_rule(Some(place), place, 9);
        by_rule(Some(place), random.below(u64::from(place) + 1) as u16, 9);
    }
    let far = (0..16).map(|power| 1 << power).chain([0, u16::MAX]);
    for count in (3_890..=3_950).chain(far) {
        by_rule(None, count, if count <= full { 0 } else { 9 });
    }
}

/// What a block at side 32 with two levels is refused for in its turn, 0, 9 or 10, once one of the bytes that it shares
/// with block 0 has another value. As a block of the other edition it may be sound, 10, or not, 9.
fn shared_byte(origin: Origin, place: usize, byte: u8, in_other: u32) -> u32 {
    let other = 3 - origin.edition;
    let fits = match place {
        0 if u32::from(byte) == other => return in_other,
        0 => false,
        1 => (3..=8).contains(&byte),
        2 => (1..=4).contains(&byte),
        3 => byte <= 18,
        4..=11 => is_character(byte),
        // Here they are payload, and any other is as good.
        16..=19 if origin.edition == 1 => return 0,
        16 => byte == 1 || byte == 2,
        _ => true,
    };
    if fits {
        10
    } else {
        9
    }
}

/// Every byte in each place of what the blocks of a record share, in a block by itself and as block 1 of a record. The
/// first such block is full, and as one of the other edition not sound; the second is sound in both.
fn every_shared_byte(comparison: &mut Comparison, random: &mut Random, origin: Origin, editions: &mut Editions) {
    let edition = Edition::new(origin.edition).expect("it is one of both");
    let full = edition.payload_bits() as usize;
    let mut bytes = random.bytes(2 * full / 8);
    // In edition 1 they would be unused bits.
    bytes[2 * full / 8 - 4..].fill(0xA5);
    let full_block = a_record(origin, b"0417AAL6", &bytes, 2 * full);
    // Arm and mount, or bits that look like them; eight bytes; zeros.
    let mut bytes = random.bytes(full / 8);
    if edition == Edition::One {
        bytes.extend(NAMED.names());
    }
    bytes.extend(random.bytes(8));
    bytes.resize(full / 8 + 13, 0);
    let in_both = a_record(origin, b"0417AAL6", &bytes, full + 100);
    for (record, in_other) in [(full_block, 9), (in_both, 10)] {
        for place in (0..12).chain(16..20) {
            for byte in 0..=255 {
                let (block, blocks) = changed(&record, 1, place, byte);
                let ended = match record[LENGTH + place] == byte {
                    true => 0,
                    false => shared_byte(origin, place, byte, in_other),
                };
                let alone = if ended == 10 { 0 } else { ended };
                comparison.by_rule(&Request::BlockCheck { block }, &[("refusal", alone)]);
                let kept = if ended == 0 { 2 } else { 1 };
                let fields = [("refusal", 0), ("blocks", kept), ("ended", ended)];
                comparison.by_rule(&reading(&blocks, b"0417AAL6"), &fields);
                // And in block 0, which decides what the other is held to.
                comparison.same(&reading(&changed(&record, 0, place, byte).1, b"0417AAL6"));
                editions.changed += 1;
            }
        }
    }
}

/// P9's block, as it stands in the paper: no program is asked for it.
fn flat_block() -> Block {
    let mut block = [0; LENGTH];
    block[..4].copy_from_slice(&[1, 3, 2, 0]);
    block[LABEL].copy_from_slice(b"00000417");
    block[508..].copy_from_slice(&[0x01, 0x92, 0x0D, 0x54]);
    block
}

/// Blocks of several kinds whose A and B are right, each with what the single-block check answers to it.
fn sealed_blocks(random: &mut Random) -> [(Block, u32); 6] {
    let heading = |k, levels, planes, origin, label: &[u8]| {
        let sizes = Sizes::new(k, levels).expect("k and L are in their ranges");
        Heading::new(sizes, planes, origin, label).expect("the origin is in its ranges")
    };
    let [one, two] = Edition::BOTH.map(Edition::payload_bits);
    let payload = random.bytes(READER_ROOM);
    let first = Origin::UNNAMED;
    let empty = block::build(&heading(8, 5, 18, first, b"ZZ0417M8"), 0, 0, &[]);
    let dense = block::build(&heading(5, 2, 8, first, b"0417AAL6"), 1, one, &payload);
    let full = block::build(&heading(6, 4, 9, first, b"99999999"), 2, one, &[255; READER_ROOM]);
    let named = block::build(&heading(7, 3, 11, NAMED, b"0417AAL6"), 3, two, &payload);
    let mut no_fields = [0; LENGTH];
    no_fields.fill_with(|| random.byte());
    block::write_checks(&mut no_fields);
    [
        (flat_block(), 0),
        (empty, 0),
        (dense, 0),
        (full, 0),
        (named, 0),
        (no_fields, 9),
    ]
}

/// Two places of a block, each of them often in the checks.
fn two_places(random: &mut Random) -> [usize; 2] {
    let mut place = || {
        if random.one_in(3) {
            CHECK_A.start + random.index(4)
        } else {
            random.index(LENGTH)
        }
    };
    loop {
        let places = [place(), place()];
        if places[0] != places[1] {
            return places;
        }
    }
}

/// Changes two bytes of a block, often both by as much, up or down: so a sum can be kept.
fn change_two(random: &mut Random, block: &mut [u8]) {
    let [one, other] = two_places(random);
    let by = 1 + random.below(255) as u8;
    let any = 1 + random.below(255) as u8;
    block[one] = block[one].wrapping_add(by);
    block[other] = block[other].wrapping_add(random.pick(&[by, by.wrapping_neg(), any]));
}

/// Exchanges two unequal bytes of a block.
fn exchange(random: &mut Random, block: &mut [u8]) {
    loop {
        let [one, other] = two_places(random);
        if block[one] != block[other] {
            return block.swap(one, other);
        }
    }
}

/// Blocks that were damaged in each way, and refused by 8.
#[derive(Default)]
struct Caught {
    changes: u64,
    exchanges: u64,
    pairs: u64,
}

/// Every change of one byte of a block, every exchange of two unequal ones, and changes of two by chance: A and B find
/// them all, and are judged before the fields.
fn what_the_check_catches(comparison: &mut Comparison, random: &mut Random) -> Caught {
    let mut caught = Caught::default();
    let mut by_rule = |block: Block, refusal| {
        let block = block.to_vec();
        comparison.by_rule(&Request::BlockCheck { block }, &[("refusal", refusal)]);
    };
    for (block, own) in sealed_blocks(random) {
        by_rule(block, own);
        for place in 0..LENGTH {
            for change in 1..=255 {
                let mut changed = block;
                changed[place] ^= change;
                by_rule(changed, 8);
                caught.changes += 1;
            }
            // Two equal bytes exchanged leave the block as it was, which was tried above.
            for other in (place + 1..LENGTH).filter(|other| block[*other] != block[place]) {
                let mut exchanged = block;
                exchanged.swap(place, other);
                by_rule(exchanged, 8);
                caught.exchanges += 1;
            }
        }
        for _ in 0..40_000 {
            let mut changed = block;
            change_two(random, &mut changed);
            by_rule(changed, 8);
            caught.pairs += 1;
        }
        // A byte of the body and one of the checks raised alike: with byte 509 A is right again, and B alone tells.
        for place in 0..CHECK_A.start {
            for check in CHECK_A.start..LENGTH {
                let mut changed = block;
                for raised in [place, check] {
                    changed[raised] = changed[raised].wrapping_add(1);
                }
                by_rule(changed, 8);
                caught.pairs += 1;
            }
        }
    }
    // The sums of zeros are 0, and so is 65,521 by the modulus; but it is another number, and not the check.
    by_rule([0; LENGTH], 9);
    for check in [CHECK_A, CHECK_B] {
        let mut raised = [0; LENGTH];
        raised[check].copy_from_slice(&65_521_u16.to_be_bytes());
        by_rule(raised, 8);
        caught.pairs += 1;
    }
    // What they do not find: three bytes that leave both sums as they were. The label is now 00001227.
    let mut unnoticed = flat_block();
    for (place, by) in [(8, 1), (9, -2), (10, 1)] {
        unnoticed[place] = unnoticed[place].wrapping_add_signed(by);
    }
    by_rule(unnoticed, 0);
    caught
}

/// A record of three blocks, one of them damaged in such ways: a reader keeps those before it and ends the run as 8, or
/// refuses by 8 where none is before it. Gives how many were damaged.
fn where_a_run_ends(comparison: &mut Comparison, random: &mut Random, origin: Origin) -> u64 {
    let label = b"00000417";
    let record = a_record(origin, label, &random.bytes(1125), 9000);
    let mut by_rule = |blocks: &[u8], refusal, kept, ended| {
        let fields = [("refusal", refusal), ("blocks", kept), ("ended", ended)];
        comparison.by_rule(&reading(blocks, label), &fields);
    };
    by_rule(&record, 0, 3, 0);
    let mut damaged = 0;
    for turn in 0..3 {
        for round in 0..LENGTH + 8000 {
            let mut blocks = record.clone();
            let block = &mut blocks[turn * LENGTH..][..LENGTH];
            if round < LENGTH {
                block[round] ^= 1 + random.below(255) as u8;
            } else if round % 2 == 0 {
                exchange(random, block);
            } else {
                change_two(random, block);
            }
            match turn {
                0 => by_rule(&blocks, 8, 0, 0),
                kept => by_rule(&blocks, 0, kept as u32, 8),
            }
            damaged += 1;
        }
    }
    damaged
}

fn main() {
    let mut comparison = Comparison { cases: 0 };
    let mut random = Random::new(417, 0);
    let mut thumbnails = Thumbnails::default();
    let mut cuts = Cuts::default();
    let mut displays = Displays::default();
    every_place(&mut comparison);
    for sizes in all_sizes() {
        every_size(&mut comparison, &mut random, sizes, if sizes.k() < 7 { 24 } else { 6 });
        if sizes.k() < 5 {
            every_cut(&mut comparison, &mut random, sizes, &mut cuts);
        }
        if sizes.k() < 7 {
            every_plane_count(&mut comparison, &mut random, sizes);
        }
        for halvings in 1..=sizes.levels() {
            every_thumbnail(&mut comparison, &mut random, sizes, halvings, &mut thumbnails);
        }
    }
    for sizes in all_sizes().filter(|sizes| sizes.k() == 3) {
        every_small_coding(&mut comparison, sizes, &mut cuts);
        for planes in 1..=3 {
            every_short_string(&mut comparison, sizes, planes, 12, &mut cuts);
        }
    }
    // Their own seed, so that the cases behind them stay what they were.
    let mut any = Random::new(417, 1);
    for sizes in all_sizes().filter(|sizes| sizes.k() < 5) {
        for planes in (1..=MOST_PLANES).filter(|planes| sizes.k() == 3 || [1, 2, 5, MOST_PLANES].contains(planes)) {
            every_cut_of_any_bits(&mut comparison, &mut any, sizes, planes, &mut cuts);
        }
    }
    let mut soft = Random::new(417, 2);
    for sizes in all_sizes() {
        every_display(&mut comparison, &mut soft, sizes, &mut displays);
        if sizes.k() == 3 {
            every_p_and_place(&mut comparison, sizes, &mut displays);
        }
        if sizes.k() < 5 {
            every_small_display(&mut comparison, &mut soft, sizes, &mut displays);
        }
    }
    every_sample(&mut comparison, &mut thumbnails, &mut displays);
    every_byte(&mut comparison, &mut random);
    let mut editions = Editions::default();
    every_edition(&mut comparison, &mut random, &mut editions);
    every_fault(&mut comparison, &mut editions);
    every_count(&mut comparison, &mut random, &mut editions);
    every_room(&mut comparison, &mut random);
    let mut damaged = 0;
    for origin in ORIGINS {
        every_character(&mut comparison, &mut random, origin);
        every_unused_bit(&mut comparison, &mut random, origin);
        every_shared_byte(&mut comparison, &mut random, origin, &mut editions);
        damaged += where_a_run_ends(&mut comparison, &mut random, origin);
    }
    let caught = what_the_check_catches(&mut comparison, &mut random);
    println!("{} cases one by one, no difference", comparison.cases);
    println!(
        "{} cuts of {} small codings, {} strings of up to 12 bits, {} cuts of bits that no coder wrote: each with the place \
         where it fell, and its numbers have the bits that this says",
        cuts.of_codings, cuts.codings, cuts.of_short, cuts.of_any
    );
    println!(
        "{} changes of one byte of a block, {} exchanges of two unequal bytes, {} changes of two: each refused by 8",
        caught.changes, caught.exchanges, caught.pairs
    );
    println!("{damaged} records with one block so damaged: each kept up to that block and no further, by 8");
    println!(
        "{} records written in one of two editions and read back, {} refused: by the first of 1, 2, 5, 9, 6, 7 and 9",
        editions.written, editions.refused
    );
    println!(
        "{} blocks with one shared byte changed: each judged as its edition says, alone and in its record",
        editions.changed
    );
    println!(
        "{} thumbnails at every size, level and r, and {} refused: by the first of 1, 2, 13, 3 and 4",
        thumbnails.accepted, thumbnails.refused
    );
    println!(
        "{} thumbnails of samples: each the original's low band; {} of cut ones: each grey within its limit of that",
        thumbnails.of_whole_samples, thumbnails.of_cut_samples
    );
    println!(
        "{} displays at every size and level, at side 8 with every p and place, and {} refused: by the first of 1, 2, 3, 4, \
         5 and 11",
        displays.accepted, displays.refused
    );
    println!(
        "{} cuts of {} small codings displayed, and {} of samples: each number and each grey within its limit of the truth",
        displays.of_cuts, displays.of_codings, displays.of_samples
    );
}
